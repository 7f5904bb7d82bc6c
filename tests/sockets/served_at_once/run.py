"""Clients of `idlc serve` at the same time, over sockets: what each is answered, and how the program ends. Where omniORB
is installed, eight of its clients too.

`./idlc` proves and builds what is missing of the program.
"""
import concurrent.futures
import os
import pty
import resource
import shutil
import socket
import struct
import subprocess
import time

from driver.suite import Count
from driver.workspace import TOP

PROGRAM = TOP / "crates" / "idlc_main" / "out" / "idlc_main"

CALLS = 1000
CLOSE = b"GIOP\x01\x02\x00\x05\x00\x00\x00\x00"
ERROR = b"GIOP\x01\x02\x00\x06\x00\x00\x00\x00"


def padded(octets, to):
    return octets + bytes(-len(octets) % to)


def request(number, operation, body=b""):
    """A request of GIOP 1.2 in big order to the object `K`."""
    name = operation.encode() + b"\x00"
    header = struct.pack(">IB3xH2xI4sI", number, 3, 0, 1, b"K", len(name)) + name
    header = padded(header, 4) + struct.pack(">I", 0)
    if body:
        # a body stands at a multiple of 8, counted with the 12 octets of the head
        header = padded(header + bytes(4), 8)[: -4]
    return b"GIOP\x01\x02\x00\x00" + struct.pack(">I", len(header + body)) + header + body


def received(stream, count):
    octets = b""
    while len(octets) < count:
        more = stream.recv(count - len(octets))
        if not more:
            raise EOFError
        octets += more
    return octets


def call(stream, number, operation, body=b""):
    """The body of the reply, which tells of no exception."""
    stream.sendall(request(number, operation, body))
    head = received(stream, 12)
    octets = received(stream, struct.unpack(">I", head[8:])[0])
    if head[:8] != b"GIOP\x01\x02\x00\x01" or octets[:8] != struct.pack(">II", number, 0):
        raise ValueError(octets.hex())
    return octets[12:]


def number_in(body):
    return struct.unpack(">i", body)[0]


class Server:
    """The program, which serves the object of `hello.idl`."""

    def __init__(self, table, connections, *words, err=subprocess.PIPE, files=None):
        # another process may take the port that was free a moment ago
        for _ in range(9):
            self.start(table, connections, words, err, files)
            if self.line:
                return
            self.process.communicate(timeout=60)

    def start(self, table, connections, words, err, files):
        with socket.socket() as probe:
            probe.bind(("127.0.0.1", 0))
            self.port = probe.getsockname()[1]
        self.process = subprocess.Popen(
            [PROGRAM, "serve", table, "--port", str(self.port), "--object", "K=Hello", "--connections", str(connections), *words],
            stdout=subprocess.PIPE, stderr=err, text=True,
            preexec_fn=lambda: resource.setrlimit(resource.RLIMIT_NOFILE, (files, files)) if files else None,
        )
        self.line = self.process.stdout.readline()

    def connect(self, room=None):
        """A connection; with room for so few octets that are not read yet."""
        stream = socket.socket()
        stream.settimeout(30)
        if room:
            stream.setsockopt(socket.SOL_SOCKET, socket.SO_RCVBUF, room)
        stream.connect(("127.0.0.1", self.port))
        stream.setsockopt(socket.IPPROTO_TCP, socket.TCP_NODELAY, 1)
        return stream

    def end(self):
        """The status, and whether it printed that it serves and nothing else."""
        out, err = self.process.communicate(timeout=60)
        return self.process.returncode, self.line + out == f"serving {self.port}\n" and not err


def one_silent(table, count):
    server = Server(table, 2, "--at-once", "2")
    with server.connect():
        with server.connect() as other:
            answer = number_in(call(other, 1, "_get_visits"))
    count.add((answer, server.end()) == (0, (0, True)), "beside a silent client")


def visit(server, place):
    """Sets the number of visits so often, and gives those that were read between."""
    found = []
    with server.connect() as stream:
        for turn in range(CALLS):
            call(stream, 2 * turn, "_set_visits", struct.pack(">i", place * CALLS + turn))
            found.append(number_in(call(stream, 2 * turn + 1, "_get_visits")))
    return found


def stale(numbers):
    """Those of the numbers that a client reads that no client has set, or that were set before one that it has read."""
    latest, found = {}, []
    for number in numbers:
        client, turn = divmod(number, CALLS)
        if not 0 <= client < 64 or turn < latest.get(client, 0):
            found.append(number)
        latest[client] = turn
    return found


def sixty_four(table, count):
    """Each reads what some client has set, and of one what it set first it reads no more once it read a later one."""
    server = Server(table, 65, "--at-once", "64")
    with concurrent.futures.ThreadPoolExecutor(64) as pool:
        found = list(pool.map(lambda place: visit(server, place), range(64)))
    for place, numbers in enumerate(found):
        wrong = stale(numbers)
        count.add(len(numbers) == CALLS and not wrong, f"client {place} read {len(numbers)} numbers, wrong are {wrong[:9]}")
    with server.connect() as stream:
        last = number_in(call(stream, 1, "_get_visits"))
    count.add(last % CALLS == CALLS - 1, f"{last} is the last of no client")
    count.add(server.end() == (0, True), "after 64 clients")


def breaking_off(table, count):
    server = Server(table, 3, "--at-once", "3")
    asked = request(1, "ping")
    with server.connect() as first, server.connect() as second:
        first.sendall(asked[:20])
        # what is closed with octets unread is reset
        second.sendall(asked * 200)
    with server.connect() as stream:
        count.add(call(stream, 1, "ping") == b"", "behind clients that broke off")
    count.add(server.end() == (0, True), "after clients that broke off")


def few_files(table, count):
    """More clients than the process may have files: those that can't be accepted wait, and that is told once."""
    server = Server(table, 40, "--at-once", "64", files=16)
    streams = [server.connect() for _ in range(40)]
    for stream in streams:
        count.add(call(stream, 1, "ping") == b"", "where files are wanting")
        stream.close()
    out, err = server.process.communicate(timeout=60)
    told = (server.process.returncode, out, err)
    count.add(told == (0, "", "idlc: no connection can be accepted, trying again\n"), f"where files are wanting: {told}")


def no_files(table, count):
    """A client is served on for longer than accepts are tried again where nobody is there: silent ones have all files."""
    server = Server(table, 32, "--at-once", "64", files=16)
    answers = 0
    with server.connect() as served:
        call(served, 1, "ping")
        silent = [server.connect() for _ in range(30)]
        try:
            for turn in range(90):
                answers += call(served, turn, "ping") == b""
                time.sleep(1)
        except (OSError, EOFError):
            pass
    count.add(answers == 90, f"{answers} calls where files are wanting")
    for stream in silent:
        stream.close()
    if server.process.poll() is None:
        with server.connect() as stream:
            count.add(call(stream, 1, "ping") == b"", "behind those that had all files")
    out, err = server.process.communicate(timeout=60)
    told = (server.process.returncode, out, err)
    count.add(told == (0, "", "idlc: no connection can be accepted, trying again\n"), f"where files are wanting for long: {told}")


def idle(table, count, *words):
    server = Server(table, 2, *words)
    with server.connect() as silent:
        count.add(received(silent, 12) == CLOSE and silent.recv(1) == b"", "a silent client is let go of")
    with server.connect() as stream:
        count.add(call(stream, 1, "ping") == b"", "behind an idle client")
    count.add(server.end() == (0, True), "after an idle client")


def dripping(stream, octets, pause):
    """Sends an octet at a time, until the other side closes."""
    try:
        for octet in octets:
            stream.sendall(bytes([octet]))
            time.sleep(pause)
    except OSError:
        pass


def slow_senders(table, count):
    """Clients that send an octet a second keep one that comes behind them waiting for a few seconds at most."""
    clients = 8
    server = Server(table, clients + 1, "--at-once", str(clients), "--idle", "2")
    slow = [server.connect() for _ in range(clients)]
    with concurrent.futures.ThreadPoolExecutor(clients) as pool:
        drips = [pool.submit(dripping, stream, request(1, "ping"), 1) for stream in slow]
        time.sleep(0.5)
        start = time.monotonic()
        with server.connect() as stream:
            count.add(call(stream, 1, "ping") == b"", "behind slow senders")
        waited = time.monotonic() - start
        count.add(waited < 6, f"it waited for {waited:.1f} seconds behind slow senders")
        for stream in slow:
            count.add(read_to_end(stream) in (CLOSE, None), "a slow sender is let go of")
            stream.close()
        for drip in drips:
            drip.result()
    count.add(server.end() == (0, True), "after slow senders")


def sipping(stream, seconds):
    """Reads a few octets at a time, for so long at most or until the other side closes."""
    got = b""
    end = time.monotonic() + seconds
    try:
        while time.monotonic() < end and (more := stream.recv(2048)):
            got += more
            time.sleep(0.02)
    except OSError:
        pass
    return got


def slow_readers(table, count, clients, *words):
    """The same behind clients that read a large answer slowly."""
    server = Server(table, clients + 1, *words, "--idle", "2")
    slow = [server.connect(room=4096) for _ in range(clients)]
    asked = request(1, "echo", text(bytes([65]) * 1000000))
    with concurrent.futures.ThreadPoolExecutor(clients) as pool:
        list(pool.map(lambda stream: stream.sendall(asked), slow))
        sips = [pool.submit(sipping, stream, 15) for stream in slow]
        start = time.monotonic()
        with server.connect() as stream:
            count.add(call(stream, 1, "ping") == b"", "behind slow readers")
        waited = time.monotonic() - start
        count.add(waited < 5, f"it waited for {waited:.1f} seconds behind slow readers")
        for sip in sips:
            # on a busy host its request may be late before it has an answer
            count.add(sip.result()[:4] == b"GIOP", "a slow reader gets a front of an answer, or CloseConnection")
    for stream in slow:
        stream.close()
    count.add(server.end() == (0, True), "after slow readers")


def read_to_end(stream):
    """What comes until the end; None where the connection is reset."""
    octets = b""
    try:
        while more := stream.recv(65536):
            octets += more
    except ConnectionError:
        return None
    return octets


def unread(table, count, *words):
    """Who sends more behind what is no message gets the answer to that, and the end."""
    server = Server(table, 2, *words)
    for _ in range(2):
        with server.connect() as stream:
            stream.sendall(request(1, "ping") + b"GIOP\x01\x00\x00\x00" + bytes(300000))
            got = read_to_end(stream)
        count.add(got is not None and got[-12:] == ERROR, f"behind what is no message: {got}")
    count.add(server.end() == (0, True), "after octets that stay unread")


def text(octets):
    """A text as it stands in a body."""
    return struct.pack(">I", len(octets) + 1) + octets + b"\x00"


def highest(process):
    """The most octets of memory that the process has held."""
    with open(f"/proc/{process.pid}/status") as status:
        line = next(line for line in status if line.startswith("VmHWM:"))
    return int(line.split()[1]) * 1024


def bounded(table, count):
    """64 clients whose large answers wait, since none of them reads."""
    server = Server(table, 64, "--at-once", "64")
    streams = [server.connect(room=4096) for _ in range(64)]
    for stream in streams:
        call(stream, 0, "ping")
    before = highest(server.process)
    asked = request(1, "echo", text(bytes([65]) * 1000000))
    with concurrent.futures.ThreadPoolExecutor(64) as pool:
        list(pool.map(lambda stream: stream.sendall(asked), streams))
        # what is behind the head says that the answer was made
        list(pool.map(lambda stream: received(stream, 12), streams))
        held = (highest(server.process) - before) / 64
        count.add(held <= 3 * 2**20, f"{held:.0f} octets of memory for a client")
        behind = list(pool.map(lambda stream: received(stream, 12 + 4 + 1000001), streams))
    count.add(all(octets[-3:] == b"AA\x00" for octets in behind), "large answers that had to wait")
    for stream in streams:
        stream.close()
    count.add(server.end() == (0, True), "after 64 large requests")


def status_line(table, count, *words):
    """Who looks at a terminal is told how much was served."""
    terminal, err = pty.openpty()
    server = Server(table, 2, *words, err=err)
    with server.connect() as stream:
        call(stream, 1, "ping")
        stream.sendall(request(2, "none"))
        received(stream, struct.unpack(">I", received(stream, 12)[8:])[0])
    with server.connect() as stream:
        stream.sendall(b"GIOP\x01\x00\x00\x00" + bytes(4))
        read_to_end(stream)
    server.process.communicate(timeout=60)
    os.close(err)
    told = os.read(terminal, 4096).decode()
    os.close(terminal)
    wanted = "idlc: served: connections 2, requests 3, answers 2, refused 2\r\n"
    count.add(told == wanted, f"it told {told!r}")


def orb(table, count, room):
    """Eight clients of omniORB, each with calls and a text in fragments; one at a time, and all at the same time."""
    folder = os.path.dirname(os.path.abspath(__file__))
    subprocess.run(["omniidl", "-bcxx", TOP / "examples" / "idl" / "hello.idl"], cwd=room, check=True)
    words = ["g++", "-o", "orb_client", f"{folder}/orb_client.cc", "helloSK.cc", "-I.", "-lomniORB4", "-lomnithread"]
    subprocess.run(words, cwd=room, check=True)
    for clients in (1, 8):
        server = Server(table, 8, "--at-once", str(clients))
        words = ["ior", table, "--host", "127.0.0.1", "--port", str(server.port), "--object", "K=Hello"]
        reference = subprocess.run([PROGRAM, *words], check=True, capture_output=True, text=True).stdout.strip()
        with concurrent.futures.ThreadPoolExecutor(clients) as pool:
            asked = [room / "orb_client", reference]
            found = list(pool.map(lambda _: subprocess.run(asked, capture_output=True, text=True).stdout, range(8)))
        count.add(found == ["101\n"] * 8, f"{clients} clients of omniORB: {found}")
        count.add(server.end() == (0, True), f"after {clients} clients of omniORB")


def usage(table, count):
    words = ["serve", table, "--port", "0", "--object", "K=Hello", "--connections", "0"]
    for option in ("--at-once", "--idle"):
        for value in ("x", "-1", "0", "65", "86401", ""):
            done = subprocess.run([PROGRAM, *words, option, value], capture_output=True, text=True)
            is_right = (option, value) in (("--idle", "0"), ("--idle", "65"))
            wanted = (0, "serving 0\n", True) if is_right else (2, "", False)
            count.add((done.returncode, done.stdout, not done.stderr) == wanted, f"{option} {value}: {done}")


SCENARIOS = (
    (one_silent,),
    (sixty_four,),
    (bounded,),
    (breaking_off,),
    (few_files,),
    (idle, "--idle", "1"),
    (idle, "--idle", "1", "--at-once", "2"),
    (slow_senders,),
    (slow_readers, 8, "--at-once", "8"),
    (slow_readers, 1),
    (unread,),
    (unread, "--at-once", "2"),
    (status_line,),
    (status_line, "--at-once", "2"),
    (usage,),
)


def tried(table, scenario):
    """A scenario is one case, which passes where all that it looks at is right."""
    part, *given = scenario
    seen = Count(0, [])
    part(table, seen, *given)
    label = " ".join([part.__name__, *map(str, given)])
    return Count(int(seen.passed > 0 and not seen.failures), [f"{label}: {failure}" for failure in seen.failures])


def run(test):
    built = test.call([TOP / "idlc", "check", "builtin"])
    if built.status:
        return Count(0, [built.out + built.err])
    table = test.room / "hello.table"
    made = test.call([PROGRAM, "compile", TOP / "examples" / "idl" / "hello.idl", "-o", table])
    count = Count(0, [f"hello.idl: {made.err}"] if made.status else [])
    scenarios = [*SCENARIOS, *([(orb, test.room)] if shutil.which("omniidl") and shutil.which("g++") else [])]
    with concurrent.futures.ThreadPoolExecutor(1) as pool:
        # it takes a minute, and next to no processor
        long = pool.submit(tried, table, (no_files,))
        found = [tried(table, scenario) for scenario in scenarios]
        found.append(long.result())
    count.passed += sum(it.passed for it in found)
    count.failures += [failure for it in found for failure in it.failures]
    return count
