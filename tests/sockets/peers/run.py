"""Runs `idlc` beside omniORB and tshark: calls of its naming service and of an object of its own, what references and
captures say.

Debian's packages are omniorb, omniorb-nameserver, omniidl, omniorb-idl, libomniorb4-dev and tshark. A capture is made of
the loopback device, where that is allowed. `./idlc` proves and builds what is missing of the program.
"""
import json
import os
import pathlib
import re
import signal
import socket
import subprocess
import time

from driver.suite import Count
from driver.workspace import TOP

PROGRAM = pathlib.Path(os.environ.get("IDLC", TOP / "crates" / "idlc_main" / "out" / "idlc_main"))
FOLDER = pathlib.Path(__file__).parent
NAMING = "/usr/share/idl/omniORB/COS/CosNaming.idl"
ECHO = "/usr/share/idl/omniORB/echo.idl"
CONTEXT = "CosNaming::NamingContext"
KINDS = ["Request", "Reply", "CancelRequest", "LocateRequest", "LocateReply", "CloseConnection", "MessageError", "Fragment"]
FIELDS = ["giop.type", "giop.request_id", "giop.request_op"]


def free_port():
    with socket.create_server(("127.0.0.1", 0)) as one:
        return one.getsockname()[1]


def name(text):
    return [{"id": text, "kind": ""}]


class Peers:
    """Servers of omniORB in a scratch folder, and what is run beside them, counted."""

    def __init__(self, test):
        self.folder = test.room / "files"
        self.folder.mkdir()
        self.count = Count(0, [])
        self.port = free_port()
        self.servers = []
        self.root = f"corbaloc:iiop:1.2@127.0.0.1:{self.port}/NameService"

    def start(self, *words, **how):
        how = {"stderr": subprocess.DEVNULL, "text": True, **how}
        self.servers.append(subprocess.Popen([str(word) for word in words], cwd=self.folder, **how))
        return self.servers[-1]

    def stop(self):
        for server in self.servers:
            server.kill()
            server.wait()

    def tool(self, *words):
        return subprocess.run([str(word) for word in words], cwd=self.folder, capture_output=True, text=True, timeout=120)

    def idlc(self, *words):
        return self.tool(PROGRAM, *words)

    def check(self, what, wanted, got):
        self.count.add(got == wanted, f"{what}: {got}, wanted {wanted}")

    def call(self, table, reference, operation, value):
        """The status of a call, and what is printed, as JSON."""
        done = self.idlc("call", table, reference, operation, json.dumps(value))
        return done.returncode, json.loads(done.stdout) if done.stdout else done.stderr


def wait_for(port):
    for _ in range(100):
        try:
            socket.create_connection(("127.0.0.1", port)).close()
            return
        except OSError:
            time.sleep(0.1)


def table_of(peers, source, name):
    """The IDL of omniORB behind a preprocessor, without pragmas that are omniidl's own."""
    done = peers.tool("cpp", "-P", source)
    table = peers.folder / name
    table.write_text("".join(line for line in done.stdout.splitlines(True) if not line.startswith("#pragma hh")))
    return table


def start_names(peers):
    end = f"giop:tcp:127.0.0.1:{peers.port}"
    peers.start("omniNames", "-start", peers.port, "-logdir", peers.folder, "-always", "-ORBendPoint", end)
    wait_for(peers.port)
    return table_of(peers, NAMING, "naming.idl")


def start_echo(peers):
    peers.tool("omniidl", "-bcxx", ECHO)
    built = peers.tool("g++", "-o", "echo", FOLDER / "echo.cc", "echoSK.cc", "-I.", "-lomniORB4", "-lomnithread", "-lpthread")
    peers.check("echo.cc", 0, built.returncode)
    server = peers.start("./echo", "-ORBendPoint", "giop:tcp:127.0.0.1:", stdout=subprocess.PIPE)
    return server.stdout.readline().strip()


def told_by_catior(reference):
    """What catior tells of a reference, in whatever byte order it is written."""
    return subprocess.run(["catior", "-x", reference], capture_output=True, text=True).stdout


def naming(peers, table, reference):
    """Names are bound, resolved and listed, the last of them by an iterator."""
    root, count = peers.root, 5
    for number in range(count):
        got = peers.call(table, root, f"{CONTEXT}::bind", {"n": name(f"n{number}"), "obj": reference})
        peers.check("bind", (0, []), got)
    status, found = peers.call(table, root, f"{CONTEXT}::resolve", {"n": name("n1")})
    peers.check("resolve", (0, told_by_catior(reference)), (status, told_by_catior(found["_return"])))
    seen = peers.tool("nameclt", "-ORBInitRef", f"NameService={peers.root}", "resolve", "n1").stdout.strip()
    peers.check("nameclt", reference, seen)
    status, found = peers.call(table, root, f"{CONTEXT}::resolve", {"n": name("none")})
    peers.check("not found", (5, "IDL:omg.org/CosNaming/NamingContext/NotFound:1.0"), (status, found["_id"]))
    status, found = peers.call(table, root, f"{CONTEXT}::bind", {"n": name("n1"), "obj": reference})
    peers.check("already bound", (5, "IDL:omg.org/CosNaming/NamingContext/AlreadyBound:1.0"), (status, found["_id"]))
    status, found = peers.call(table, root, f"{CONTEXT}::list", {"how_many": 2})
    listed = [binding["binding_name"][0]["id"] for binding in found["bl"]]
    iterator = found["bi"]
    for _ in range(count):
        status, more = peers.call(table, iterator, "next_n", {"how_many": 2})
        listed += [binding["binding_name"][0]["id"] for binding in more["bl"]]
        if not more["_return"]:
            break
    peers.check("list", [f"n{number}" for number in range(count)], sorted(listed))
    peers.check("destroy", (0, []), peers.call(table, iterator, "destroy", []))
    peers.check("_is_a", (0, [True]), peers.call(table, reference, "_is_a", ["IDL:Echo:1.0"]))
    return iterator


def echoes(peers, reference):
    table = table_of(peers, ECHO, "plain_echo.idl")
    for said in ("hello", "", "x" * 100_000):
        (peers.folder / "said").write_text(json.dumps({"mesg": said}))
        done = peers.idlc("call", table, reference, "echoString", "@said")
        peers.check("echoString", (0, {"_return": said}), (done.returncode, json.loads(done.stdout)))


def told_of(text):
    """What catior or `idlc reference` tells: the id, and of each profile of IIOP its version, place and key."""
    kind = re.search(r'^(?:Type ID: "|type )([^"\n]*)', text, re.MULTILINE)[1]
    there = re.findall(r"^\d+\. IIOP (\S+) (\S+) (\d+) 0x([0-9a-f]+)", text, re.MULTILINE)
    if not there:
        there = re.findall(r"^profile \d+ IIOP (\S+) .*\n  host (.*)\n  port (.*)\n  key ([0-9a-f]+)", text, re.MULTILINE)
    return kind, there


def references(peers, *references):
    for reference in references:
        ours = peers.idlc("reference", reference).stdout
        theirs = peers.tool("catior", "-x", reference).stdout
        peers.check("reference", told_of(theirs), told_of(ours))
        components = re.findall(r"TAG_(?:ORB_TYPE|CODE_SETS)", theirs)
        peers.check("components", components, re.findall(r"TAG_(?:ORB_TYPE|CODE_SETS)", ours))
    ours = peers.idlc("reference", peers.root).stdout
    theirs = peers.tool("catior", "-x", ours.splitlines()[0]).stdout
    peers.check("a URL", told_of(theirs), told_of(ours))


def dissected(peers, port):
    """The messages of the capture as tshark's dissector tells them: kind, number, operation, stream by stream."""
    words = ["tshark", "-r", "calls.pcap", "-d", f"tcp.port=={port},giop", "-Y", "giop", "-T", "fields", "-e", "tcp.stream"]
    for field in FIELDS:
        words += ["-e", field]
    streams = {}
    for line in peers.tool(*words).stdout.splitlines():
        stream, kinds, numbers, operations = line.split("\t")
        numbers, operations = numbers.split(","), operations.split(",")
        for kind in kinds.split(","):
            kind = KINDS[int(kind, 0)]
            number = numbers.pop(0) if kind not in ("CloseConnection", "MessageError") else ""
            operation = operations.pop(0) if kind == "Request" else ""
            streams.setdefault(int(stream), []).append((kind, number, operation))
    return streams


def dumped(peers, table, stream):
    """The same as `idlc dump` tells them, and how many of them it couldn't read."""
    text = peers.tool("tshark", "-q", "-r", "calls.pcap", "-z", f"follow,tcp,raw,{stream}").stdout
    (peers.folder / "stream").write_text(text)
    done = peers.idlc("dump", table, "stream")
    rows = []
    for line in done.stdout.splitlines():
        found = re.match(r'[<>] \d+ \d+ (\w+)(?: id (\d+))?(?:.* operation "(\w+)")?', line)
        if found:
            rows.append((found[1], found[2] or "", found[3] or ""))
    return rows, len(re.findall(r"^  \d+ [A-Z]", done.stdout, re.MULTILINE)), done.returncode


def captures(peers, table, reference):
    """A capture of calls by nameclt, told by both. Where nothing may be captured, nothing is counted."""
    words = ("tshark", "-q", "-i", "lo", "-f", f"tcp port {peers.port}", "-w", "calls.pcap")
    watch = peers.start(*words, stderr=subprocess.PIPE)
    for line in watch.stderr:
        if "Capture started" in line:
            break
    for words in (["bind_new_context", "captured"], ["list"], ["resolve", "captured"], ["resolve", "none"], ["unbind", "captured"]):
        peers.tool("nameclt", "-ORBInitRef", f"NameService={peers.root}", *words)
    time.sleep(2)
    watch.send_signal(signal.SIGINT)
    watch.wait()
    if not (peers.folder / "calls.pcap").exists():
        return
    streams = dissected(peers, peers.port)
    peers.count.add(len(streams) >= 5, f"captures: {len(streams)} streams")
    for stream, wanted in streams.items():
        peers.check(f"stream {stream}", (wanted, 0, 0), dumped(peers, table, stream))


def run(test):
    peers = Peers(test)
    try:
        table = start_names(peers)
        reference = start_echo(peers)
        echoes(peers, reference)
        iterator = naming(peers, table, reference)
        references(peers, reference, iterator)
        captures(peers, table, reference)
    finally:
        peers.stop()
    return peers.count
