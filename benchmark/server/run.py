"""Measures round trips over a loopback socket: of calls to an object that is served, and of as many octets sent to a
server that sends back what comes; then pings of 1, 8 and 64 clients that are served at once. Both servers are one
program, which is proved; the client is a program in C. Where omniORB is installed, its client calls both our server and
one of omniORB in turn, with 64 KiB and with 1,000,000 octets.
"""
import shutil
import socket
import subprocess
import sys
import time

CLIENTS = (1, 8, 64)
CALLS = ("ping", "_get_n", "_set_n", "octets")
SIZES = (65536, 1000000)


def free_port():
    """A port that nothing listens on."""
    with socket.socket() as probe:
        probe.bind(("127.0.0.1", 0))
        return str(probe.getsockname()[1])


def trips(program, client, words, mode, call):
    """The round trips a second of a call: the most of five connections to one server."""
    port = free_port()
    server = subprocess.Popen([program, "serve", port, "5", *words])
    asked = [client, port, mode, call, "1000"]
    found = [int(subprocess.run(asked, check=True, capture_output=True, text=True).stdout) for _ in range(5)]
    server.wait()
    return max(found)


def trips_at_once(program, client, table, count):
    """The pings a second of so many clients at once, over all: the most of three servers."""
    most = 0
    for _ in range(3):
        port = free_port()
        server = subprocess.Popen([program, "serve", port, str(count), table, str(count)])
        asked = [client, port, "giop", "ping", "1000"]
        clients = [subprocess.Popen(asked, stdout=subprocess.PIPE, text=True) for _ in range(count)]
        most = max(most, sum(int(one.communicate()[0]) for one in clients))
        server.wait()
    return most


def build_orb(benchmark):
    """The folder of the server and the client in C++ over omniORB."""
    room = benchmark.room / "orb"
    shutil.copytree(benchmark.folder / "orb", room, dirs_exist_ok=True)
    subprocess.run(["omniidl", "-bcxx", "echo.idl"], cwd=room, check=True)
    for name in ("server", "client"):
        words = ["g++", "-O2", "-o", name, f"{name}.cc", "echoSK.cc", "-lomniORB4", "-lomnithread"]
        subprocess.run(words, cwd=room, check=True)
    return room


def orb_trips(client, port, size):
    return float(subprocess.run([client, port, str(size), "1000"], check=True, capture_output=True, text=True).stdout)


def trips_beside_orb(program, room, table, size):
    """The round trips a second of omniORB's client to our server and to omniORB's: the most of five, in turn."""
    port, other_port = free_port(), free_port()
    ours = subprocess.Popen([program, "serve", port, "5", table])
    orb = subprocess.Popen([room / "server", other_port], stdin=subprocess.PIPE, stdout=subprocess.PIPE)
    orb.stdout.readline()
    time.sleep(0.2)
    found = [(orb_trips(room / "client", port, size), orb_trips(room / "client", other_port, size)) for _ in range(5)]
    orb.communicate()
    ours.wait()
    return max(one for one, _ in found), max(other for _, other in found)


def tell_beside_orb(benchmark, program, table):
    if not shutil.which("omniidl"):
        return
    room = build_orb(benchmark)
    print("\n| octets to and from omniORB's client | round trips a second | of omniORB's server | part of them |")
    print("|---:|---:|---:|---:|")
    for size in SIZES:
        ours, orb = trips_beside_orb(program, room, table, size)
        print(f"| {size} | {ours:.0f} | {orb:.0f} | {ours / orb:.2f} |")
        sys.stdout.flush()


def run(benchmark):
    program, _ = benchmark.build()
    client, table = benchmark.room / "client", benchmark.room / "table"
    subprocess.run(["gcc", "-O2", "-o", client, benchmark.folder / "client.c"], check=True)
    table.write_bytes(bytes.fromhex("".join((benchmark.folder / "table.hex").read_text().split())))
    print("| call | round trips a second | of the echo server | part of them | µs a round trip | of the echo server |")
    print("|---|---:|---:|---:|---:|---:|")
    for call in CALLS:
        served = trips(program, client, [table], "giop", call)
        echoed = trips(program, client, [], "echo", call)
        times = f"{1e6 / served:.1f} | {1e6 / echoed:.1f}"
        print(f"| {call} | {served} | {echoed} | {served / echoed:.2f} | {times} |")
        sys.stdout.flush()
    print("\n| clients at once | pings a second, over all | of the echo server with one client | part of them |")
    print("|---:|---:|---:|---:|")
    echoed = trips(program, client, [], "echo", "ping")
    for count in CLIENTS:
        served = trips_at_once(program, client, table, count)
        print(f"| {count} | {served} | {echoed} | {served / echoed:.2f} |")
        sys.stdout.flush()
    tell_beside_orb(benchmark, program, table)
