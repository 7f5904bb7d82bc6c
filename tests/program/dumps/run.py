"""Runs `idlc dump` on captures that are written down here: what it prints, its status, and how much memory it takes.

`./idlc` proves and builds what is missing of the program.
"""
import os
import pathlib
import select
import shutil
import socket
import struct
import subprocess
import time

from driver.suite import Count
from driver.workspace import TOP

PROGRAM = pathlib.Path(os.environ.get("IDLC", TOP / "crates" / "idlc_main" / "out" / "idlc_main"))
IDL = """
module Shop {
    exception Full {long room; string why;};
    interface Store {
        attribute string label;
        long add(in long a, inout long b, out string text) raises (Full);
        oneway void tell(in string text);
        void ping();
    };
    interface Other {void ping(in long n);};
};
"""


def text(said, order=">"):
    octets = said.encode() + b"\x00"
    return struct.pack(order + "I", len(octets)) + octets


def aligned(octets, to):
    return octets + bytes(-len(octets) % to)


def message(kind, body, order=">", flags=0, version=b"\x01\x02"):
    flags |= order == "<"
    return b"GIOP" + version + bytes([flags, kind]) + struct.pack(order + "I", len(body)) + body


def request_body(number, operation, body=b"", order=">", wanted=3):
    header = struct.pack(order + "IB3xH2xI", number, wanted, 0, 1) + b"K"
    header = aligned(header, 4) + text(operation, order)
    header = aligned(header, 4) + struct.pack(order + "I", 0)
    if body:
        header += bytes(-(len(header) + 12) % 8)
    return header + body


def request(number, operation, body=b"", order=">", wanted=3):
    return message(0, request_body(number, operation, body, order, wanted), order)


def reply_body(number, body=b"", status=0, order=">"):
    # the header has 12 octets, so the body stands at 24
    return struct.pack(order + "III", number, status, 0) + body


def reply(number, body=b"", status=0, order=">"):
    return message(1, reply_body(number, body, status, order), order)


ADD = struct.pack(">ii", 5, 2)
SUM = struct.pack(">ii", 7, 8) + text("hi")
SAID = '  {"_return":7,"b":8,"text":"hi"}'
ASKED = 'Request id 1 key "K" operation "add" flags 3 order big\n  {"a":5,"b":2}'


class Dumps:
    """Runs of the program in a scratch folder, counted."""

    def __init__(self, test):
        self.folder = test.room / "files"
        self.folder.mkdir()
        self.count = Count(0, [])
        (self.folder / "shop.idl").write_text(IDL)

    def run(self, *files, given=None):
        words = [str(PROGRAM), "dump", "shop.idl"]
        for number, octets in enumerate(files):
            name = octets
            if isinstance(octets, bytes):
                name = f"capture{number}"
                (self.folder / name).write_bytes(octets)
            words.append(name)
        done = subprocess.run(words, cwd=self.folder, capture_output=True, input=given, timeout=120)
        return done.returncode, done.stdout.decode(), done.stderr.decode()

    def most_memory(self, name, octets):
        """How many KiB a run on such a file takes at most; none where `time` isn't there to tell."""
        (self.folder / name).write_bytes(octets)
        words = [str(PROGRAM), "dump", "shop.idl", name]
        timed = shutil.which("time")
        if timed:
            words = [timed, "-f", "%M", *words]
        done = subprocess.run(words, cwd=self.folder, stdout=subprocess.DEVNULL, stderr=subprocess.PIPE, text=True, timeout=280)
        told = done.stderr.split()
        self.count.add(done.returncode == 0, f"{name}: {done.returncode}, {told}")
        return int(told[-1]) if timed and told and told[-1].isdigit() else None

    def check(self, what, wanted, *files, status=0, told="", given=None):
        got = self.run(*files, given=given)
        wanted = (status, "".join(line + "\n" for line in wanted), told)
        self.count.add(got == wanted, f"{what}: {got}, wanted {wanted}")


def lines(mark, *rows):
    """The lines of messages, each with its octets and what is told of it."""
    place = 0
    told = []
    for octets, words in rows:
        told += f"{mark} {place} {len(octets)} {words}".split("\n")
        place += len(octets)
    return told


def one_direction(dumps):
    asked = request(1, "add", ADD)
    oneway = request(2, "tell", text("hi", "<"), "<", 0)
    rows = [
        (asked, ASKED),
        (oneway, 'Request id 2 key "K" operation "tell" flags 0 order little\n  {"text":"hi"}'),
        (request(3, "ping"), 'Request id 3 key "K" operation "ping" flags 3 order big\n  []'),
        (request(4, "ping", struct.pack(">i", 9)), 'Request id 4 key "K" operation "ping" flags 3 order big\n  {"n":9}'),
        (request(5, "_get_label"), 'Request id 5 key "K" operation "_get_label" flags 3 order big\n  []'),
        (request(6, "_is_a", text("IDL:A:1.0")), 'Request id 6 key "K" operation "_is_a" flags 3 order big\n  ["IDL:A:1.0"]'),
        (message(2, struct.pack(">I", 5)), "CancelRequest id 5"),
        (message(3, struct.pack(">IH2xI", 7, 0, 1) + b"K"), 'LocateRequest id 7 key "K" order big'),
        (message(5, b""), "CloseConnection"),
        (message(6, b"", "<"), "MessageError"),
        (message(0, b"abc", version=b"\x01\x01"), "message of GIOP 1.1 type 0\n  " + message(0, b"abc", version=b"\x01\x01").hex()),
        (message(1, b"", version=b"\x01\x00"), "message of GIOP 1.0 type 1\n  " + message(1, b"", version=b"\x01\x00").hex()),
    ]
    octets = b"".join(octets for octets, _ in rows)
    dumps.check("requests", lines(">", *rows), octets)
    dumps.check("standard input", lines(">", *rows), given=octets)
    dumps.check("a minus", lines(">", *rows), "-", given=octets)
    dumps.check("nothing", [], b"")


def strange_octets(dumps):
    unknown = request(1, "jump\n", ADD)
    name = 'Request id 1 key "K" operation "jump\\x0a" flags 3 order big\n  143 UnknownOperation\n  ' + ADD.hex()
    short = request(2, "add", ADD[:6])
    arguments = 'Request id 2 key "K" operation "add" flags 3 order big\n  145 OtherArguments\n  ' + ADD[:6].hex()
    kind = message(9, b"")
    empty = message(0, b"")
    rows = [
        (unknown, name),
        (short, arguments),
        (kind, "message\n  93 BadHead\n  " + kind.hex()),
        (empty, "message\n  93 BadHead\n  " + empty.hex()),
        (reply(5, SUM), f"Reply id 5 status NO_EXCEPTION order big\n  144 NoRequest\n  {SUM.hex()}"),
        (reply(5, b"\0\2", 5), "Reply id 5 status NEEDS_ADDRESSING_MODE order big\n  another form of address is wanted"),
        (message(4, struct.pack(">II", 7, 1)), "LocateReply id 7 status 1"),
        (message(4, struct.pack(">II", 7, 2) + b"\x07"), "LocateReply id 7 status 2\n  07"),
        (message(7, struct.pack(">I", 8)), "message\n  97 BadFragment\n  " + message(7, struct.pack(">I", 8)).hex()),
        (kind[:7], "message\n  146 CutMessage\n  " + kind[:7].hex()),
    ]
    octets = b"".join(octets for octets, _ in rows)
    dumps.check("what can't be read", lines(">", *rows), octets)
    lost = b"GIOX" + bytes(20)
    rows = [(empty[:8] + bytes(4), "message\n  93 BadHead\n  " + empty.hex()), (lost, "message\n  90 NotGiop\n  " + lost.hex())]
    dumps.check("no message", lines(">", *rows), b"".join(octets for octets, _ in rows))
    other = message(5, b"", version=b"\x02\x00")
    rows = [(message(5, b""), "CloseConnection"), (other, "message\n  91 Version\n  " + other.hex())]
    dumps.check("another version", lines(">", *rows), b"".join(octets for octets, _ in rows))


def long_messages(dumps):
    """A message that is longer than any that is read is told as octets, and the next one is found."""
    body = bytes(1_048_577)
    octets = message(0, body) + message(5, b"")
    status, told, _ = dumps.run(octets)
    rows = told.splitlines()
    first = "> 0 4096 message"
    last = f"> {len(octets) - 12} 12 CloseConnection"
    counts = sum(int(row.split()[2]) for row in rows if row.startswith("> "))
    dumps.count.add((status, rows[0], rows[1], rows[-1], counts) == (0, first, "  92 TooLong", last, len(octets)), f"a long message: {rows[:2]}, {rows[-1]}")


def both(dumps):
    """A reply is told behind its request, by whatever comes first."""
    full = text("IDL:Shop/Full:1.0")
    full = aligned(full, 4) + struct.pack(">i", 3) + text("no room")
    failure = aligned(text("IDL:omg.org/CORBA/NO_PERMISSION:1.0"), 4) + struct.pack(">II", 0x4F4D0001, 1)
    there = [request(1, "add", ADD), request(2, "add", ADD), request(3, "add", ADD), request(4, "add", ADD)]
    back = [reply(2, SUM), reply(1, full, 1), reply(3, failure, 2), reply(4, SUM[:6])]
    words = [f"Reply id 2 status NO_EXCEPTION order big\n{SAID}",
             'Reply id 1 status USER_EXCEPTION order big\n  {"_id":"IDL:Shop/Full:1.0","room":3,"why":"no room"}',
             'Reply id 3 status SYSTEM_EXCEPTION order big\n  system exception "IDL:omg.org/CORBA/NO_PERMISSION:1.0" minor 0x4f4d0001 completion 1',
             f"Reply id 4 status NO_EXCEPTION order big\n  139 OtherBody\n  {SUM[:6].hex()}"]
    asked = [ASKED.replace("id 1", f"id {number}") for number in (1, 2, 3, 4)]
    out = [row.split("\n") for row in "\0".join(lines(">", *zip(there, asked))).replace("\0  ", "\n  ").split("\0")]
    home = [row.split("\n") for row in "\0".join(lines("<", *zip(back, words))).replace("\0  ", "\n  ").split("\0")]
    wanted = out[0] + out[1] + home[0] + home[1] + out[2] + home[2] + out[3] + home[3]
    dumps.check("two files", wanted, b"".join(there), b"".join(back))
    follow = ["", "=" * 67, "Follow: tcp,raw", "Filter: tcp.stream eq 0", "Node 0: 127.0.0.1:1", "Node 1: 127.0.0.1:2"]
    follow += [octets.hex() for octets in there[:2]] + ["\t" + octets.hex() for octets in back[:2]]
    follow += [there[2][:9].hex(), there[2][9:].hex(), "\t" + back[2].hex(), there[3].hex(), "\t" + back[3].hex(), "=" * 67]
    given = "".join(line + "\n" for line in follow).encode()
    dumps.check("the text of tshark", wanted, given)
    dumps.check("with other ends of lines", wanted, given.replace(b"\n", b"\r\n")[2:])
    broken = given.replace(there[2][9:].hex().encode(), b"47x0")
    told = "idlc: 142 BadCapture line 12\n"
    dumps.check("a line that is none", out[0] + out[1] + home[0] + home[1], broken, status=3, told=told)
    cut = given[:-69]
    dumps.check("a text that is cut", wanted, cut, status=3, told="idlc: 142 BadCapture line 15\n")
    dumps.check("ends of lines of two octets", wanted, given.replace(b"\n", b"\r\n"))
    bad = given.replace(there[0].hex().encode(), b"47x0")
    dumps.check("a first line of octets that is none", [], bad, status=1, told="idlc: 142 BadCapture line 7\n")


def fragments(dumps):
    whole = request_body(1, "add", ADD)
    other = request_body(2, "ping")
    # pieces end at multiples of 8, counted with the head
    pieces = [message(0, whole[:20], flags=2), message(0, other[:12], flags=2), message(7, whole[:4] + whole[20:28], flags=2),
              message(7, other[:4] + other[12:]), message(7, whole[:4] + whole[28:])]
    words = ["first piece of type 0 id 1", "first piece of type 0 id 2", "piece id 1",
             'last piece id 2: Request id 2 key "K" operation "ping" flags 3 order big\n  []', f"last piece id 1: {ASKED}"]
    said = reply_body(1, SUM, order=">")
    back = [message(1, said[:12], flags=2), message(7, said[:4] + said[12:])]
    answers = ["first piece of type 1 id 1", f"last piece id 1: Reply id 1 status NO_EXCEPTION order big\n{SAID}"]
    wanted = lines(">", *zip(pieces, words))
    dumps.check("requests in fragments", wanted, b"".join(pieces))
    dumps.check("both", wanted + lines("<", *zip(back, answers)), b"".join(pieces), b"".join(back))


def cancelled(dumps):
    """A cancel request ends the run with its number: what has the number later is another request, to a server too."""
    begun, whole = request_body(1, "ping")[:12], request_body(1, "_get_label")
    pieces = [message(0, begun, flags=2), message(2, whole[:4]), message(0, whole[:28], flags=2), message(7, whole[:4] + whole[28:])]
    asked = 'Request id 1 key "K" operation "_get_label" flags 3 order big\n  []'
    words = ["first piece of type 0 id 1", "CancelRequest id 1", "first piece of type 0 id 1", f"last piece id 1: {asked}"]
    dumps.check("a number that is used again", lines(">", *zip(pieces, words)), b"".join(pieces))
    # the broker calls the operation that is told: its reply has an empty label
    with socket.create_server(("127.0.0.1", 0)) as free:
        port = free.getsockname()[1]
    served = [str(PROGRAM), "serve", "shop.idl", "--port", str(port), "--object", "K=Shop::Store", "--connections", "1"]
    with subprocess.Popen(served, cwd=dumps.folder, stdout=subprocess.PIPE) as server:
        server.stdout.readline()
        with socket.create_connection(("127.0.0.1", port), timeout=20) as client:
            client.sendall(b"".join(pieces))
            client.shutdown(socket.SHUT_WR)
            answer = b""
            while more := client.recv(65536):
                answer += more
        said = reply(1, text(""))
        dumps.count.add((answer, server.wait(timeout=20)) == (said, 0), f"the same, served: {answer.hex()}, wanted {said.hex()}")


def many_pieces(dumps):
    """What is open of a direction is found by its number, and doesn't grow without a limit."""
    octets = b"".join(message(0, struct.pack(">I", number), flags=2) for number in range(100_000))
    octets += message(7, struct.pack(">I", 100_000), flags=2) * 100_000
    began = time.monotonic()
    status, told, _ = dumps.run(octets)
    took = time.monotonic() - began
    rows = told.splitlines()
    counts = (status, len(rows), rows.count("  97 BadFragment"), sum(row.startswith("  unfinished id ") for row in rows))
    wanted = (0, 100_000 + 99_936 + 300_000, 100_000, 99_936)
    dumps.count.add(counts == wanted, f"100,000 first pieces and as many of another number: {counts}, wanted {wanted}")
    dumps.count.add(took < 2, f"100,000 first pieces and as many of another number took {took:.1f} s")
    octets = b"".join(message(0, struct.pack(">I", number) + bytes(65_532), flags=2) for number in range(1000))
    most = dumps.most_memory("pieces", octets)
    dumps.count.add(most is None or most <= 24 * 1024, f"1,000 pieces of 64 KiB: {most} KiB")


def said_by(program, count):
    """So many lines of a program that runs on, or what it says within ten seconds."""
    told = b""
    while told.count(b"\n") < count and select.select([program.stdout], [], [], 10)[0]:
        more = os.read(program.stdout.fileno(), 65536)
        if not more:
            break
        told += more
    return told.decode().splitlines()


def going_on(dumps):
    """Messages of a pipe and of files that grow are told as they come, each reply behind its request."""
    asked, said = request(1, "add", ADD), reply(1, SUM)
    wanted = lines(">", (asked, ASKED)) + lines("<", (said, f"Reply id 1 status NO_EXCEPTION order big\n{SAID}"))
    how = {"cwd": dumps.folder, "stdin": subprocess.PIPE, "stdout": subprocess.PIPE}
    with subprocess.Popen([str(PROGRAM), "dump", "shop.idl"], **how) as program:
        program.stdin.write(asked + said[:5])
        program.stdin.flush()
        got = said_by(program, 2)
        dumps.count.add(got == wanted[:2], f"a pipe: {got}")
        program.stdin.close()
        rest = program.stdout.read().decode()
        dumps.count.add("  146 CutMessage\n" in rest and program.wait() == 0, f"the end of a pipe: {rest}")
    for name in ("there", "back"):
        (dumps.folder / name).write_bytes(b"")
    with subprocess.Popen([str(PROGRAM), "dump", "shop.idl", "there", "back", "--follow"], **how) as program:
        for name, octets, count in (("there", asked[:30], 0), ("there", asked[30:], 2), ("back", said, 2)):
            with open(dumps.folder / name, "ab") as file:
                file.write(octets)
            got = said_by(program, count)
            dumps.count.add(got == wanted[:count], f"{name} that grows: {got}")
            wanted = wanted[count:]
        dumps.count.add(program.poll() is None, "files that grow: ended")
        program.kill()


def refused(dumps):
    dumps.check("no capture", [], b"hello", status=1, told="idlc: 142 BadCapture capture0\n")
    packets = struct.pack("<IIIHHQI", 0x0A0D0D0A, 28, 0x1A2B3C4D, 1, 0, 2**64 - 1, 28)
    dumps.check("a file of packets", [], packets, status=1, told="idlc: 142 BadCapture capture0\n")
    dumps.check("a file of packets, of old", [], bytes.fromhex("d4c3b2a1") + bytes(20), status=1, told="idlc: 142 BadCapture capture0\n")
    dumps.check("a bad first line", [], b"\nhello\n", status=1, told="idlc: 142 BadCapture line 2\n")
    dumps.check("a rule alone", [], b"=====\n", status=1, told="idlc: 142 BadCapture line 1\n")
    dumps.check("text for the way back", [], b"", b"\n====\n", status=1, told="idlc: 142 BadCapture capture1\n")
    dumps.check("no file", [], "none", status=3, told="idlc: cannot read none\n")


def large(dumps):
    """A capture of 64 MiB takes as little memory as a small one, where `time` is there to tell."""
    octets = b"".join(request(number, "tell", text("x" * 1000), wanted=0) for number in range(1000))
    most = dumps.most_memory("large", octets * 62)
    dumps.count.add(most is None or most <= 16 * 1024, f"64 MiB: {most} KiB")


def run(test):
    dumps = Dumps(test)
    one_direction(dumps)
    strange_octets(dumps)
    long_messages(dumps)
    both(dumps)
    fragments(dumps)
    cancelled(dumps)
    many_pieces(dumps)
    going_on(dumps)
    refused(dumps)
    large(dumps)
    return dumps.count
