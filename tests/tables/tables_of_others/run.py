"""Has idlc's code judge tables of another maker, and compares with a plain reader and writer of CDR in Python.

A part is `TABLES` or `TABLES-SEED`: how many tables are made at random, and from which seed.
"""
import collections
import re
import sys

from driver.suite import Count
from driver.workspace import TOP

EXAMPLES = TOP / "examples"


def judged(test, crate, folder):
    """What the code answers about each file of a folder; the interpreter would be given up after its steps."""
    return test.call(["rt", "try", "--steps", 1, "--cases", folder], cwd=crate)


def add_own(count, wanted, said):
    """The tables of examples/own_table.py, whose files come last: each is compared with its lines."""
    answers = [line.partition(" ") for line in wanted.splitlines()]
    said = re.findall(r"^[01] .*", said, re.MULTILINE)[-len(answers) :]
    cases = collections.defaultdict(list)
    for (name, _, answer), line in zip(answers, said):
        cases[name].append((answer, line))
    if not cases or len(said) < len(answers):
        count.failures.append(f"{len(said)} answers about own tables, not {len(answers)}")
    for name, rows in cases.items():
        wrong = [f"wanted {answer}, said {line}" for answer, line in rows if answer != line]
        count.add(not wrong, "\n".join([f"table {name}", *wrong[:9]]))


def run(test):
    """All questions are asked in one run of `rt try`, since each builds the crates."""
    count, folder, said = Count(0, []), test.room / "cases", test.room / "said"
    tables, _, seed = (test.part or "3000").partition("-")
    script = [sys.executable, "-B", EXAMPLES / "random_tables.py"]
    made = test.call([*script, "write", folder, tables, seed or 0])
    own = test.call([sys.executable, "-B", test.folder / "own_tables.py", EXAMPLES, folder])
    done = judged(test, test.workspace().add_crate("judge", test.sources()), folder)
    said.write_text(done.out)
    compared = test.call([*script, "compare", tables, seed or 0], stdin=said)
    print("  " + compared.out.strip().replace("\n", "\n  "), flush=True)
    if made.status or own.status or done.status or compared.status:
        count.failures.append((made.err + own.err + done.err + compared.out + compared.err)[-4000:])
    else:
        count.passed += int(tables)
        add_own(count, own.out, done.out)
    return count
