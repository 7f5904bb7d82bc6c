"""Questions about the tables of examples/own_table.py, and the answers that are wanted.

    python3 own_tables.py EXAMPLES FOLDER

writes a file of questions for each table to the folder, and prints the answers that are wanted, file by file as they are
sorted: lines `NAME ANSWER`. What is wanted of the tables that lie is read off the table in EXAMPLES/README.md; what is
wanted of values is that of the plain reader and writer.
"""
import random
import re
import sys

EXAMPLES, FOLDER = sys.argv[1:]
sys.path.insert(0, EXAMPLES)

from own_table import DECEPTIONS, NAMES, NODES, table  # noqa: E402
from plain_cdr import tape_of, write  # noqa: E402
from random_tables import ValueMaker  # noqa: E402

ROW = re.compile(r"^\| `([a-z-]+)` \| .* \| `(idlc: .*)` \|$", re.MULTILINE)


def put(name, asked):
    with open(f"{FOLDER}/{name}", "w") as file:
        file.writelines(f"{question}\n" for question, _ in asked)


def values():
    """A value of each name at each place, in both orders, and back again."""
    rng = random.Random("own")
    for name, node, _ in NAMES:
        for pos in range(8):
            for order in ("big", "little"):
                value = ValueMaker(NODES, rng).get(node)
                tape = tape_of(NODES, node, value)
                octets = write(NODES, node, value, order, pos)
                yield f"encode {name} {order} {pos} {tape.hex()}", f"0 {octets.hex()}"
                yield f"decode {name} {order} {pos} {octets.hex()}", f"0 {len(octets)} {tape.hex()}"


def main():
    with open(f"{EXAMPLES}/README.md") as file:
        lines = dict(ROW.findall(file.read()))
    if set(lines) != set(DECEPTIONS):
        sys.exit("README.md has other deceptions than own_table.py")
    files = {"own": [(f"table {table().octets().hex()}", None), ("check", "0 accepted 6"), *values()]}
    for word, line in lines.items():
        files[word] = [(f"table {table(word).octets().hex()}", None), ("check", f"1 {line}")]
    for name, asked in sorted(files.items()):
        put(name, asked)
        print("".join(f"{name} {answer}\n" for _, answer in asked if answer is not None), end="")


main()
