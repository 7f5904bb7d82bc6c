"""Measures the whole command `idlc compile` over the file of 4,000 structures of benchmark/model and over files of a
quarter of it and of none: wall time and processor time, the least of 400 runs, since a host that others use is quick
for seconds at a time, and the memory that a run holds at most. `./idlc` proves and builds what is missing of the
program.
"""
import os
import pathlib
import subprocess
import tempfile
import time

from driver.program import PROGRAM
from driver.workspace import TOP

MEMBERS = ["long first", "unsigned short second", "string third", "octet fourth", "boolean fifth", "long long sixth"]


def run_once(source, table):
    """Seconds that a run takes, and seconds of a processor."""
    start = time.perf_counter()
    process = subprocess.Popen([PROGRAM, "compile", source, "-o", table], stdout=subprocess.DEVNULL)
    _, status, used = os.wait4(process.pid, 0)
    wall = time.perf_counter() - start
    process.returncode = os.waitstatus_to_exitcode(status)
    if process.returncode:
        raise SystemExit(process.returncode)
    return wall, used.ru_utime + used.ru_stime


def memory_of(source, table):
    """KiB that a run holds at most. A process counts what it held before its program began, so a small one starts it."""
    words = ["time", "-f", "%M", PROGRAM, "compile", source, "-o", table]
    done = subprocess.run(words, stdout=subprocess.DEVNULL, stderr=subprocess.PIPE, text=True)
    if done.returncode:
        raise SystemExit(done.stderr)
    return int(done.stderr)


def source_of(count):
    members = "".join(f"  {member};\n" for member in MEMBERS)
    return "".join(f"struct Type{at} {{\n{members}}};\n" for at in range(count))


def run(_benchmark):
    subprocess.run([TOP / "idlc", "check", "builtin"], check=True, stdout=subprocess.DEVNULL)
    print("| structures | octets of the file | octets of the table | ms | ms of a processor | MiB at most |")
    print("|---:|---:|---:|---:|---:|---:|")
    with tempfile.TemporaryDirectory() as room:
        source, table = pathlib.Path(room) / "types.idl", pathlib.Path(room) / "types.table"
        for count in (0, 1000, 4000):
            source.write_text(source_of(count))
            runs = [run_once(source, table) for _ in range(400)]
            wall, busy = (min(run[at] for run in runs) * 1000 for at in (0, 1))
            most = max(memory_of(source, table) for _ in range(7)) / 1024
            octets = f"{source.stat().st_size:,} | {table.stat().st_size:,}"
            print(f"| {count:,} | {octets} | {wall:.1f} | {busy:.1f} | {most:.1f} |")
