"""Compares the first fault of names that the proved program tells of each file with that of reading.py. Faults of types
come behind all of names, so a file that gets one of those has none of names.

`./idlc` proves and builds what is missing of the program.
"""
import collections
import importlib.util
import re
import sys

from driver.suite import Count
from driver.workspace import TOP

PROGRAM = TOP / "crates" / "idlc_main" / "out" / "idlc_main"

FILES = 5000

# each fault of names has to come this often, and this part of all files has to be refused
EACH, PART = 50, 3


def load(folder, name):
    spec = importlib.util.spec_from_file_location(name, folder / f"{name}.py")
    module = importlib.util.module_from_spec(spec)
    sys.modules[name] = module
    spec.loader.exec_module(module)
    return module


def asked(test, source):
    """What the program answers of a file: the number and the line of its fault of names, or zeros."""
    done = test.call([PROGRAM, "check", source])
    said = re.match(r"idlc: (\d+) \w+ line (\d+)$", done.err, re.MULTILINE)
    number, line = (int(said[1]), int(said[2])) if said else (0, 0)
    if done.status not in (0, 1) or (done.status == 1) != bool(re.match(r"idlc: \d+ ", done.err)) or 0 < number < 20:
        raise ValueError(f"{source.read_text()}\n{done.err}")
    return (number, line) if 20 <= number < 30 else (0, 0)


def run(test):
    files, reading = load(test.folder, "files"), load(test.folder, "reading")
    built = test.call([TOP / "idlc", "check", "builtin"])
    if built.status:
        return Count(0, [built.out + built.err])
    source, files_made = test.room / "source.idl", int(test.part or FILES)
    count, told = Count(0, []), collections.Counter()
    for seed in range(files_made):
        definitions, text = files.make(seed)
        source.write_text(text)
        answer, wanted = asked(test, source), reading.fault_of(definitions)
        told[wanted[0]] += 1
        count.add(answer == wanted, f"wanted {wanted}, said {answer}:\n{text}")
    print("  " + ", ".join(f"{number}: {times}" for number, times in sorted(told.items())), flush=True)
    if not test.part:
        count.add(files_made - told[0] >= FILES // PART, f"only {files_made - told[0]} are refused")
        for number in range(20, 30):
            count.add(told[number] >= EACH, f"{number} comes {told[number]} times")
    return count
