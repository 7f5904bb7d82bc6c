"""Measures texts of values, printed and read, and Python's json on the same texts."""
import json
import os
import pathlib
import subprocess
import tempfile
import time

TIMES = 5
# what a value is called, its kind, and how many parts it has; IDLC_PARTS=100 takes a hundredth of them, for a try
VALUES = (("1,000,000 long longs", "longs", 1_000_000), ("4 MiB of octets", "octets", 1 << 22),
          ("200,000 structures with names", "structures", 200_000))


def least(call, value):
    """The least milliseconds of processor time, and the answer."""
    best, answer = float("inf"), None
    for _ in range(TIMES):
        start = time.thread_time_ns()
        answer = call(value)
        best = min(best, time.thread_time_ns() - start)
    return best / 1e6, answer


def octets_of(text):
    return bytes.fromhex(json.loads(text))


def text_of(octets):
    return json.dumps(octets.hex())


def compact(value):
    return json.dumps(value, separators=(",", ":"), ensure_ascii=False)


def run(benchmark):
    program, head = benchmark.build()
    print(head, end="", flush=True)
    parts = int(os.environ.get("IDLC_PARTS", "1"))
    with tempfile.TemporaryDirectory() as room:
        path = pathlib.Path(room) / "text"
        for name, kind, count in VALUES:
            told = subprocess.run([program, kind, str(count // parts), path], check=True, capture_output=True, text=True)
            printed, read = (int(word) / 1e6 for word in told.stdout.split())
            text = path.read_text()
            reading, value = least(octets_of if kind == "octets" else json.loads, text)
            printing, again = least(text_of if kind == "octets" else compact, value)
            assert again == text, "Python prints the same"
            print(f"| {name} | {len(text)} | {printed:.0f} | {printing:.0f} | {read:.0f} | {reading:.0f} |", flush=True)
