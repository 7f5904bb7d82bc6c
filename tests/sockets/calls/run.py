"""Runs `idlc call` against `idlc serve` in another process, and against servers whose answers are written down: what it
prints on both streams, its status, what the servers were asked, and that it ends in time.

`./idlc` proves and builds what is missing of the program.
"""
import contextlib
import importlib.util
import os
import pathlib
import pty
import re
import shutil
import socket
import struct
import subprocess
import time

from driver.suite import Count
from driver.workspace import TOP

PROGRAM = TOP / "crates" / "idlc_main" / "out" / "idlc_main"
FOLDER = pathlib.Path(__file__).parent

spec = importlib.util.spec_from_file_location("peer", FOLDER / "peer.py")
peer = importlib.util.module_from_spec(spec)
spec.loader.exec_module(peer)
reply, fragment, message, text, saying = peer.reply, peer.fragment, peer.message, peer.text, peer.saying

SUM = struct.pack(">ii", 7, 8) + text(b"hi")
SAID = '{"_return":7,"b":8,"text":"hi"}\n'
FULL = text(b"IDL:Shop/Full:1.0") + struct.pack(">i", 3) + text(b"no room")
RAISED = '{"_id":"IDL:Shop/Full:1.0","room":3,"why":"no room"}\n'
FAILURE = text(b"IDL:omg.org/CORBA/NO_PERMISSION:1.0") + struct.pack(">II", 0x4F4D0001, 1)
FAILED = "idlc: IDL:omg.org/CORBA/NO_PERMISSION:1.0 minor 0x4f4d0001 COMPLETED_NO\n"
SOCKET = (3, "", "idlc: socket\n")
ADD = ("add", '{"a":5,"b":2}')


class Calls:
    """Calls of the program in a scratch folder, counted."""

    def __init__(self, test):
        self.folder = test.room / "files"
        self.folder.mkdir()
        self.count = Count(0, [])
        self.table = FOLDER / "calls.idl"

    def run(self, *words, given=None):
        words = [str(word) for word in (PROGRAM, *words)]
        begun = time.monotonic()
        done = subprocess.run(words, cwd=self.folder, capture_output=True, text=True, input=given, timeout=120)
        return (done.returncode, done.stdout, done.stderr), time.monotonic() - begun

    def ior(self, port, interface="Shop::Store", table=None, host="127.0.0.1"):
        words = ("ior", table or self.table, "--host", host, "--port", port, "--object", f"K={interface}")
        return self.run(*words)[0][1].strip()

    def check(self, what, wanted, got):
        self.count.add(got == wanted, f"{what}: {got}, wanted {wanted}")

    def ask(self, what, wanted, server, *words, seconds=20):
        """A call to a server ends as it should, and in time."""
        got, took = self.run("call", self.table, self.ior(server.port), *words)
        self.check(what, wanted, got)
        self.count.add(took < seconds, f"{what}: took {took} seconds")
        server.close()


def results(calls):
    other = reply(text(b"no"), number=9)
    little = struct.pack("<ii", 7, 8) + text(b"hi", "<")
    rows = [
        ("a result", [reply(SUM)]),
        ("in little order", [reply(little, order="<")]),
        ("octet by octet", [bytes([octet]) for octet in reply(SUM)]),
        ("octets behind", [reply(SUM) + b"more"]),
        ("behind replies to others", [other, other + reply(SUM)]),
        ("behind a LocateReply", [message(peer.LOCATE_REPLY, struct.pack(">II", 1, 1)), reply(SUM)]),
        ("two fragments", [reply(SUM[:8], more=True), fragment(SUM[8:])]),
        ("three, others between", [reply(SUM[:8], more=True), other, fragment(b"", more=True), fragment(SUM[8:])]),
    ]
    for what, pieces in rows:
        calls.ask(what, (0, SAID, ""), peer.Peer(saying(*pieces)), *ADD)


def exceptions(calls):
    unknown = text(b"IDL:Other:1.0")
    rows = [
        ("an exception", reply(FULL, 1), (5, RAISED, "")),
        ("a system exception", reply(FAILURE, 2), (6, "", FAILED)),
        ("an exception of others", reply(unknown, 1), (1, "", "idlc: 139 OtherBody\n")),
        ("an exception cut", reply(FULL[:-8], 1), (1, "", "idlc: 139 OtherBody\n")),
        ("a system exception cut", reply(FAILURE[:-1], 2), (1, "", "idlc: 139 OtherBody\n")),
        ("a result cut", reply(SUM[:-2]), (1, "", "idlc: 139 OtherBody\n")),
        ("a forward to nowhere", reply(b"", 3), (1, "", "idlc: 139 OtherBody\n")),
        ("no form of address", reply(struct.pack(">h", 3), 5), (1, "", "idlc: 141 NeedsAddressingMode\n")),
        ("a form of address cut", reply(b"\0", 5), (1, "", "idlc: 139 OtherBody\n")),
        ("an id with octets that aren't printed", reply(text(b"a\n\\\xff") + bytes(8), 2),
         (6, "", "idlc: a\\x0a\\\\\\xff minor 0x00000000 COMPLETED_YES\n")),
    ]
    for what, octets, wanted in rows:
        calls.ask(what, wanted, peer.Peer(saying(octets)), *ADD)


def forwarded_to(calls, port, status=3):
    """A reply that says that the object is at a port: the octets of a reference, whose first four tell its byte order."""
    return reply(bytes.fromhex(calls.ior(port)[4:])[4:], status)


def forwards(calls):
    for count in (1, 8, 9):
        servers = [peer.Peer(saying(reply(SUM)))]
        for turn in range(count):
            servers.append(peer.Peer(saying(forwarded_to(calls, servers[-1].port, 3 + turn % 2))))
        wanted = (0, SAID, "") if count < 9 else (1, "", "idlc: 140 TooManyForwards\n")
        calls.ask(f"{count} forwards", wanted, servers[-1], *ADD)


def profile_of(octets):
    """The tag and the octets of the profile with which a reference in big order ends, which has one."""
    at = 8 + struct.unpack(">I", octets[4:8])[0]
    at += -at % 4 + 4
    return octets[at:]


def target_of(request):
    """The target of a request in big order, behind its number, its flags and three octets."""
    return request[12 + 8:request.index(struct.pack(">I", 4) + b"add\0")]


def addresses(calls):
    """A server that asks for a form of address is asked once more in this form."""
    key = struct.pack(">H2xI4s", 0, 1, b"K")
    for form in (0, 1, 2):
        server = peer.Peer(saying(reply(struct.pack(">h", form), 5)), saying(reply(SUM)))
        reference = bytes.fromhex(calls.ior(server.port)[4:])
        wanted = (key, struct.pack(">H2x", 1) + profile_of(reference), struct.pack(">H2xI", 2, 0) + reference[4:])[form]
        calls.ask(f"asked for the form {form}", (0, SAID, ""), server, *ADD)
        targets = [target_of(octets) for octets in server.asked]
        calls.check(f"the form {form}", [key, wanted + bytes(-len(wanted) % 4)], targets)
    for form in (0, 1, 2):
        server = peer.Peer(saying(reply(struct.pack(">h", form), 5)))
        calls.ask(f"asked for {form} for ever", (1, "", "idlc: 141 NeedsAddressingMode\n"), server, *ADD)
        calls.check(f"asked for {form} twice", 2, len(server.asked))
    there = peer.Peer(saying(reply(struct.pack(">h", 2), 5)), saying(reply(SUM)))
    here = peer.Peer(saying(reply(struct.pack(">h", 1), 5)), saying(forwarded_to(calls, there.port)))
    calls.ask("asked at both objects of a forward", (0, SAID, ""), here, *ADD)
    calls.check("both in that form", ([0, 1], [0, 2]), ([octets[21] for octets in here.asked], [octets[21] for octets in there.asked]))


def closing(calls):
    close = message(peer.CLOSE, b"")
    wanted = (0, SAID, "")
    calls.ask("closed once", wanted, peer.Peer(saying(close), saying(reply(SUM))), *ADD)
    calls.ask("closed behind the reply", wanted, peer.Peer(saying(reply(SUM) + close)), *ADD)
    calls.ask("closed twice", SOCKET, peer.Peer(saying(close), saying(close), saying(reply(SUM))), *ADD)
    calls.ask("ended", SOCKET, peer.Peer(saying()), *ADD)
    calls.ask("ended in the reply", SOCKET, peer.Peer(saying(reply(SUM)[:-1])), *ADD)
    calls.ask("ended before the request", SOCKET, peer.Peer(lambda server, stream: None), *ADD)


def hostile(calls):
    rows = [
        ("no message", b"HTTP/1.1 400 Bad", "131 BadMessage 90 NotGiop"),
        ("a mebioctet of zeros", bytes(1 << 20), "131 BadMessage 90 NotGiop"),
        ("version 1.0", b"GIOP\x01\x00\x00\x01" + bytes(4), "131 BadMessage 91 Version"),
        ("a size past all", b"GIOP\x01\x02\x00\x01\xff\xff\xff\xff", "131 BadMessage 92 TooLong"),
        ("a status past all", reply(SUM, 6), "132 BadReply"),
        ("MessageError", message(peer.ERROR, b""), "133 MessageError"),
        ("a request", message(0, bytes(40)), "131 BadMessage 93 BadHead"),
    ]
    for what, octets, said in rows:
        calls.ask(what, (1, "", f"idlc: {said}\n"), peer.Peer(saying(octets)), *ADD)


def silent(server, stream):
    server.take(stream)
    time.sleep(30)


def dripping(server, stream):
    server.take(stream)
    while True:
        stream.sendall(reply(SUM, number=9))
        time.sleep(0.01)


def flooding(server, stream):
    server.take(stream)
    while True:
        stream.sendall(reply(bytes(60000), number=9))


def deaf(server, stream):
    time.sleep(30)


def waiting(calls):
    for what, script in (("silent", silent), ("dripping", dripping), ("flooding", flooding), ("deaf", deaf)):
        calls.ask(what, SOCKET, peer.Peer(script), *ADD, "--wait", "1", seconds=3)
    calls.ask("a part", SOCKET, peer.Peer(lambda s, stream: (s.take(stream), stream.sendall(reply(SUM)[:30]), time.sleep(30))),
              *ADD, "--wait", "1", seconds=3)
    with socket.socket() as nobody:
        nobody.bind(("127.0.0.1", 0))
        got, took = calls.run("call", calls.table, calls.ior(nobody.getsockname()[1]), *ADD)
    calls.check("nobody listens", (SOCKET, True), (got, took < 3))
    reference = calls.ior(9, host="no.such.host.invalid")
    calls.check("no host", SOCKET, calls.run("call", calls.table, reference, *ADD)[0])


def asked(calls):
    """What servers are asked."""
    name = text(b"add")
    tail = struct.pack(">I", 0) + bytes(4) + struct.pack(">ii", 5, 2)
    header = struct.pack(">IB3xH2xI4s", 1, 3, 0, 1, b"K") + name
    # the body stands at a multiple of 8, counted with the 12 octets of the head
    whole = header + struct.pack(">I", 0)
    whole += bytes(-(12 + len(whole)) % 8) + struct.pack(">ii", 5, 2)
    server = peer.Peer(saying(reply(SUM)))
    calls.ask("a request", (0, SAID, ""), server, *ADD)
    calls.check("its octets", [message(0, whole)], server.asked)
    server = peer.Peer(saying(reply(SUM)))
    calls.ask("a request in little order", (0, SAID, ""), server, *ADD, "--order", "little")
    calls.check("its order", (1, struct.pack("<ii", 5, 2)), (server.asked[0][6], server.asked[0][-8:]))
    server = peer.Peer(silent)
    calls.ask("oneway", (0, "", ""), server, "note", '["hello"]', seconds=3)
    time.sleep(0.2)
    calls.check("its flags", [0], [octets[16] for octets in server.asked])


def largest(calls):
    """A request has at most 1,048,576 octets behind its head."""
    header = struct.pack(">IB3xH2xI4s", 1, 0, 0, 1, b"K") + text(b"note") + struct.pack(">I", 0)
    # then the body without a gap, since it stands at a multiple of 8: the length of a text, its characters, a zero
    calls.check("no gap", 0, (12 + len(header)) % 8)
    most = 1_048_576 - len(header) - 5
    for what, count, wanted, sizes in (
        ("as many octets as may be", most, (0, "", ""), [12 + 1_048_576]),
        ("one octet too many", most + 1, (1, "", "idlc: 92 TooLong\n"), []),
    ):
        (calls.folder / "long.json").write_text(f'["{"a" * count}"]')
        server = peer.Peer(silent)
        calls.ask(what, wanted, server, "note", "@long.json")
        time.sleep(0.5)
        calls.check(f"{what}: what the server was asked", sizes, [len(octets) for octets in server.asked])


def repeated(calls):
    server = peer.Peer(peer.always(SUM))
    got, _ = calls.run("call", calls.table, calls.ior(server.port), *ADD, "--repeat", "20")
    calls.check("twenty calls", (0, SAID), got[:2])
    line = r"idlc: 20 calls, \d+ a second, each of \d+ to \d+ microseconds\n"
    calls.count.add(re.fullmatch(line, got[2]), f"twenty calls: {got[2]}")
    calls.check("on one connection", (1, 20), (server.count, len({octets[12:16] for octets in server.asked})))
    for status, body, wanted in ((1, FULL, (5, RAISED)), (2, FAILURE, (6, "")), (0, b"", (1, ""))):

        def third(server, stream, status=status, body=body):
            for turn in range(9):
                number = server.take(stream)
                stream.sendall(reply(SUM, 0, number) if turn < 2 else reply(body, status, number))

        server = peer.Peer(third)
        got, _ = calls.run("call", calls.table, calls.ior(server.port), *ADD, "--repeat", "20")
        calls.check("the third fails", (wanted, 3), (got[:2], len(server.asked)))


def behind_replies(calls):
    """What stands behind a reply belongs to the connection: it is heard by the next call on it."""
    close = message(peer.CLOSE, b"")

    def closing_each(server, stream):
        number = server.take(stream)
        stream.sendall(reply(SUM, 0, number) + close)

    def late(server, stream):
        other = reply(SUM, number=99)
        stream.sendall(reply(SUM, 0, server.take(stream)) + other[:6])
        number = server.take(stream)
        stream.sendall(other[6:] + reply(SUM, 0, number) + other)
        stream.sendall(reply(SUM, 0, server.take(stream)))

    rows = [
        ("a close behind each reply", (closing_each,), 3),
        ("a close behind a reply, and another before the next", (closing_each, saying(close), closing_each), 4),
        ("a part of another reply behind a reply", (late,), 1),
    ]
    for what, scripts, count in rows:
        server = peer.Peer(*scripts)
        got, _ = calls.run("call", calls.table, calls.ior(server.port), *ADD, "--repeat", "3")
        calls.check(what, (0, SAID, count), (*got[:2], server.count))


def all_of(terminal):
    """What was written to a terminal whose other end is closed; one read may give a part of it."""
    told = b""
    with contextlib.suppress(OSError):
        while octets := os.read(terminal, 65536):
            told += octets
    os.close(terminal)
    return told.decode()


def progress(calls):
    """A line a second on a terminal, where each call takes six tenths of one."""

    def slow(server, stream):
        for _ in range(4):
            number = server.take(stream)
            time.sleep(0.6)
            stream.sendall(reply(SUM, 0, number))

    ours, theirs = pty.openpty()
    words = [str(word) for word in (PROGRAM, "call", calls.table, calls.ior(peer.Peer(slow).port), *ADD, "--repeat", "4")]
    done = subprocess.run(words, stdout=subprocess.PIPE, stderr=theirs, text=True, timeout=60)
    os.close(theirs)
    told = re.findall(r"idlc: (\d+) calls, \d+ a second", all_of(ours))
    calls.check("on a terminal", (0, SAID, ["2", "4", "4"]), (done.returncode, done.stdout, told))


def small(calls):
    """Hostile servers take no more than 4 MiB of memory, where `time` is there to tell."""
    timed = shutil.which("time")
    silences = [bytes(1 << 20), b"GIOP\x01\x02\x00\x01\x00\x10\x00\x00" + bytes(1 << 20), bytes(12)]
    scripts = [silent, dripping, flooding, deaf, *(saying(octets) for octets in silences)]
    for script in scripts if timed else []:
        server = peer.Peer(script)
        words = [timed, "-f", "%M", PROGRAM, "call", calls.table, calls.ior(server.port), *ADD, "--wait", "1"]
        done = subprocess.run([str(word) for word in words], capture_output=True, text=True, timeout=60)
        most = int(done.stderr.split()[-1])
        calls.count.add(done.returncode in (1, 3) and most <= 4096, f"memory: {done.returncode}, {most} KiB")
        server.close()


def named(calls):
    """Operations by names, references and arguments by texts and files."""
    ping = (0, "[]\n", "")
    for what, interface, operation in (
        ("by the id", "Shop::Store", "ping"), ("by the id of a base", "Shop::Base", "ping"), ("in full", "Shop::Store", "Shop::Store::ping"),
        ("inherited, in full", "Shop::Store", "Shop::Store::_get_size"),
    ):
        size = operation.endswith("size")
        server = peer.Peer(saying(reply(struct.pack(">i", 4) if size else b"")))
        got, _ = calls.run("call", calls.table, calls.ior(server.port, interface), operation)
        calls.check(what, (0, '{"_return":4}\n', "") if size else ping, got)
    server = peer.Peer(saying(reply(SUM)))
    (calls.folder / "ior").write_text(f"  {calls.ior(server.port)}\n")
    (calls.folder / "value").write_text('{"b":2,\n"a":5}\n')
    wanted = (0, SAID, "")
    words = ("call", calls.table)
    url = f"corbaloc:iiop:1.2@localhost:{server.port}/K"
    calls.check("files", wanted, calls.run(*words, "@ior", "add", "@value")[0])
    calls.check("the reference from standard input", wanted, calls.run(*words, "-", *ADD, given=calls.ior(server.port))[0])
    calls.check("the arguments from standard input", wanted, calls.run(*words, "@ior", "add", "-", given='[5,2]')[0])
    calls.check("a URL", wanted, calls.run(*words, url, "Shop::Store::add", "[5,2]")[0])
    count = len(server.asked)
    rows = [
        ("a URL has no id", (url, *ADD), "no operation add"),
        ("no operation", ("@ior", "a\nb"), "no operation a\\x0ab"),
        ("a bad URL", ("corbaloc:x", "ping"), "130 BadCorbaloc"),
        ("a bad reference", ("IOR:0", "ping"), "94 BadIor"),
        ("no arguments", ("@ior", "add"), "122 WrongCount line 1 column 2"),
        ("other arguments", ("@ior", "add", '{"a":5,"c":2}'), "119 NoSuchMember line 1 column 8"),
    ]
    for what, more, said in rows:
        calls.check(what, (1, "", f"idlc: {said}\n"), calls.run(*words, *more)[0])
    calls.check("nobody was called", count, len(server.asked))
    calls.check("no file", (3, ""), calls.run(*words, "@none", "ping")[0][:2])
    for more in (("--wait", "0"), ("--wait", "86401"), ("--repeat", "0"), ("--order", "none")):
        calls.check(f"{more}", (2, ""), calls.run(*words, "@ior", *ADD, *more)[0][:2])


def both_ends(calls):
    """`serve` in one process, `call` in another."""
    table = TOP / "examples" / "idl" / "hello.idl"
    with socket.socket() as probe:
        probe.bind(("127.0.0.1", 0))
        port = probe.getsockname()[1]
    words = [PROGRAM, "serve", table, "--port", str(port), "--object", "K=Hello", "--connections", "11"]
    server = subprocess.Popen(words, stdout=subprocess.PIPE, text=True)
    calls.check("serving", f"serving {port}\n", server.stdout.readline())
    reference = calls.ior(port, "Hello", table)
    rows = [
        (("ping",), (0, "[]\n", "")),
        (("_get_visits",), (0, '{"_return":0}\n', "")),
        (("_set_visits", "[41]"), (0, "[]\n", "")),
        (("_get_visits", "--order", "little"), (0, '{"_return":41}\n', "")),
        (("echo", '{"text":"good day"}'), (0, '{"_return":"good day"}\n', "")),
        (("_is_a", '["IDL:Hello:1.0"]'), (0, "[true]\n", "")),
        (("_is_a", '["IDL:Other:1.0"]'), (0, "[false]\n", "")),
        (("_non_existent",), (0, "[false]\n", "")),
        (("_non_existent", "[]"), (0, "[false]\n", "")),
    ]
    for more, wanted in rows:
        calls.check(f"{more}", wanted, calls.run("call", table, reference, *more)[0])
    gone = (6, "", "idlc: IDL:omg.org/CORBA/OBJECT_NOT_EXIST:1.0 minor 0x00000000 COMPLETED_NO\n")
    calls.check("another key", gone, calls.run("call", table, f"corbaloc::localhost:{port}/k", "Hello::ping")[0])
    got, _ = calls.run("call", table, reference, "echo", '["x"]', "--repeat", "1000")
    calls.check("a thousand calls", (0, '{"_return":"x"}\n', True), (*got[:2], got[2].startswith("idlc: 1000 calls, ")))
    server.communicate(timeout=60)
    calls.check("the server's end", 0, server.returncode)


def run(test):
    built = test.call([TOP / "idlc", "check", "builtin"])
    if built.status:
        return Count(0, [built.out + built.err])
    calls = Calls(test)
    parts = (both_ends, results, exceptions, forwards, addresses, closing, hostile, waiting, asked, largest, repeated,
             behind_replies, progress, small, named)
    for part in parts:
        part(calls)
    return calls.count
