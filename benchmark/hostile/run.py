"""Measures `idlc check` of hostile table files: of each kind the worst that is known, and the slowest of files made at
random. `./idlc` proves and builds what is missing of the program.
"""
import pathlib
import subprocess
import sys
import tempfile

from driver.program import PROGRAM
from driver.workspace import TOP

sys.path[:0] = [str(pathlib.Path(__file__).resolve().parent), str(TOP / "examples")]

from files import KINDS  # noqa: E402
from search import made  # noqa: E402

# a run longer than this many seconds is done so often, and the quickest counts
LONG, TIMES = 1, 5

# how many files are made at random, and how many of them are told
SEEDS = 300
TOLD = 3


def measured(room, octets):
    """What is found of a file, of several long runs in the quickest."""
    found = measured_once(room, octets)
    times = TIMES - 1 if found[1] > LONG else 0
    return min([found] + [measured_once(room, octets) for _ in range(times)], key=lambda it: it[1])


def measured_once(room, octets):
    """What the command says of a file, seconds of a processor, and MiB that it holds at most."""
    path = pathlib.Path(room) / "hostile.table"
    path.write_bytes(octets)
    # a process counts what it held before its program began, so a small one starts it
    words = ["time", "-f", "%U %S %M", PROGRAM, "check", path]
    done = subprocess.run(words, capture_output=True, text=True)
    *said, used = (done.stdout + done.stderr).splitlines()
    user, system, kibi = used.split()
    answer = next(line for line in said if not line.startswith("Command exited"))
    return answer.removeprefix("idlc: "), float(user) + float(system), int(kibi) / 1024


def row(name, octets, found, empty):
    """What is held beside the file and what the program has at its start tells of files of a MiB at least."""
    answer, seconds, mebi = found
    size = len(octets) / 2**20
    held = f"{max(0, mebi - empty - size) / size:.1f}" if size >= 1 else ""
    return f"| {name} | {len(octets):,} | {answer} | {seconds:.2f} | {mebi:.0f} | {held} |"


def searched(room):
    """The slowest of the files made at random, with their numbers."""
    found = []
    for seed in range(SEEDS):
        name, octets = made(seed)
        found.append((measured(room, octets), f"at random, {seed}: {name}", octets))
    found.sort(key=lambda it: -it[0][1])
    return found[:TOLD]


def run(_benchmark):
    subprocess.run([TOP / "idlc", "check", "builtin"], check=True, stdout=subprocess.DEVNULL)
    print("| file | octets | answer | seconds | MiB at most | beside the file, octets an octet |")
    print("|---|---:|---|---:|---:|---:|", flush=True)
    with tempfile.TemporaryDirectory() as room:
        empty = measured(room, b"")[2]
        for name, make in KINDS.items():
            octets = make()
            print(row(name, octets, measured(room, octets), empty), flush=True)
        for told, name, octets in searched(room):
            print(row(name, octets, told, empty))
