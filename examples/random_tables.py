"""Random tables, judged by idlc, whose octets are compared with those of a plain reader and writer.

    python3 random_tables.py write FOLDER TABLES [SEED]      the questions, 50 tables a file
    python3 random_tables.py compare TABLES [SEED] < SAID    the answers, compared
    python3 random_tables.py table FILE NUMBER [SEED]        one of the tables, as a file

Every second table is right and has to be accepted. The others have a change in their programs, and may
be accepted or refused; but what is accepted has to write and read as the standard says. A question is a
line: `table` with the octets of one, and then of that table what is asked of idlc, without its name.
An answer is a line: the status and what was printed. `tests/run tables_of_others` runs all this.
"""
import os
import random
import re
import sys
from collections import Counter

import plain_cdr as cdr
from random_programs import changed_octets, kind, random_table

TABLES_A_FILE = 50


class ValueMaker:
    """A value of a node, with at most so many elements of sequences in it."""

    def __init__(self, nodes, rng):
        self.nodes, self.rng = nodes, rng
        # sometimes one as deep as it may be, or deeper
        self.is_deep = rng.random() < 0.1
        self.elements = 70 if self.is_deep else 12

    def get(self, number):
        node = self.nodes[number]
        return getattr(self, kind(node))(node)

    def whole(self, node):
        n = self.rng.choice((self.rng.randrange(256 ** node.width), self.rng.randrange(4)))
        return n - 256 ** node.width if node.signed and 2 * n >= 256 ** node.width else n

    def octet(self, node):
        return self.rng.randrange(256)

    char = octet

    def boolean(self, node):
        return self.rng.randrange(2)

    def enum(self, node):
        return self.rng.randrange(node.n)

    def string(self, node):
        most = min(node.bound or 6, self.elements)
        return bytes(self.rng.randrange(1, 256) for _ in range(self.rng.randint(0, most)))

    def sequence(self, node):
        count = 1 if self.is_deep else self.rng.choice((0, 1, 2, 3))
        count = min(count, self.elements)
        self.elements -= count
        return [self.get(node.elem) for _ in range(count)]

    def array(self, node):
        return [self.get(node.elem) for _ in range(node.n)]

    def struct(self, node):
        return [self.get(member) for member in node.members]

    frame = struct

    def union(self, node):
        disc = self.get(node.switch)
        if node.arms and self.rng.random() < 0.7:
            disc = self.rng.choice(node.arms)[0]
        arm = cdr.switch_arm(node, disc)
        return disc, None if arm is None else self.get(arm)


def spoilt(octets, rng):
    """The octets cut, with one that is another, with some behind them, or as they are."""
    octets = bytearray(octets)
    place = rng.randrange(len(octets) + 1)
    which = rng.randrange(4)
    if which == 0:
        del octets[place:]
    elif which == 1:
        octets += rng.randbytes(rng.randrange(4))
    elif place < len(octets):
        octets[place] = rng.choice((0, 1, 2, 255, rng.randrange(256)))
    return bytes(octets)


REFUSED = "refused"


def written(nodes, node, order, pos, tape):
    """What `encode` has to answer."""
    try:
        return "0 " + cdr.write(nodes, node, cdr.of_tape(nodes, node, tape), order, pos).hex()
    except cdr.NoValue:
        return REFUSED


def read(nodes, node, order, pos, octets):
    """What `decode` has to answer."""
    try:
        value, taken = cdr.read(nodes, node, order, pos, octets)
        return f"0 {taken} {cdr.tape_of(nodes, node, value).hex()}"
    except cdr.NoValue:
        return REFUSED


def asked_of(nodes, name, node, rng):
    """Questions about one value, each with its answer."""
    value = ValueMaker(nodes, rng).get(node)
    order = rng.choice(("big", "little"))
    pos = rng.choice((rng.randrange(8), rng.randrange(2 ** 64), 2 ** 64 - 1 - rng.randrange(40)))
    tape = cdr.tape_of(nodes, node, value)
    octets = cdr.write(nodes, node, value, order, pos, rng.randbytes) + rng.randbytes(rng.randrange(3))
    for tape in (tape, spoilt(tape, rng)):
        yield f"encode {name} {order} {pos} {tape.hex()}", written(nodes, node, order, pos, tape)
    for octets in (octets, spoilt(octets, rng)):
        yield f"decode {name} {order} {pos} {octets.hex()}", read(nodes, node, order, pos, octets)


def case(seed, number):
    """The octets of a table, whether it has to be accepted, and questions with their answers."""
    rng = random.Random(f"{seed} {number}")
    table = random_table(rng)
    is_right = number % 2 == 0
    octets = table.octets() if is_right else changed_octets(table, rng)
    asked = []
    for name, node, _ in table.names:
        for _ in range(2):
            asked += asked_of(table.nodes, name, node, rng)
    return octets, is_right, asked


def lines_of(seed, number):
    octets, _, asked = case(seed, number)
    yield f"table {octets.hex()}"
    yield "check"
    yield "upgrade"
    for question, _ in asked:
        yield question


def write_questions(folder, tables, seed):
    os.makedirs(folder, exist_ok=True)
    for start in range(0, tables, TABLES_A_FILE):
        with open(os.path.join(folder, f"{start:07}"), "w") as file:
            for number in range(start, min(tables, start + TABLES_A_FILE)):
                file.writelines(f"{line}\n" for line in lines_of(seed, number))


def agrees(said, wanted):
    if wanted is REFUSED:
        return re.fullmatch(r"1 idlc: 6[0-8] \w+", said) is not None
    return said.rstrip() == wanted.rstrip()


def compare_one(seed, number, said, counts):
    """Compares the answers about one table, and prints where one isn't as it has to be."""
    octets, is_right, asked = case(seed, number)
    verdict, upgraded = next(said), next(said)
    answers = [next(said) for _ in asked]
    counts["tables"] += 1
    wrong = []
    if verdict.startswith("0 accepted "):
        counts["accepted, right" if is_right else "accepted, changed"] += 1
        counts["answers compared"] += len(asked)
        wrong += [(q, a, w) for (q, w), a in zip(asked, answers) if not agrees(a, w)]
        if upgraded != f"0 {octets.hex()}":
            wrong.append(("upgrade", upgraded, octets.hex()))
    elif is_right or re.fullmatch(r"1 idlc: (5[0-5]|8[0-5]) .*", verdict) is None:
        wrong.append(("check", verdict, "accepted"))
    else:
        counts["refused by " + " ".join(verdict.split()[2:4])] += 1
    for question, answer, wanted in wrong:
        print(f"table {number} of seed {seed}: {question}\n    said   {answer}\n    wanted {wanted}")
    counts["disagreements"] += len(wrong)


def compare(tables, seed):
    said = (line.rstrip("\n") for line in sys.stdin if re.match(r"[01] ", line))
    counts = Counter(disagreements=0)
    for number in range(tables):
        compare_one(seed, number, said, counts)
    for what, count in sorted(counts.items()):
        print(f"{count:8} {what}")
    return 1 if counts["disagreements"] or counts["tables"] != tables else 0


def main(words):
    what, *rest = words or [""]
    if what == "write" and len(rest) in (2, 3):
        write_questions(rest[0], int(rest[1]), *rest[2:] or ["0"])
    elif what == "compare" and len(rest) in (1, 2):
        return compare(int(rest[0]), *rest[1:] or ["0"])
    elif what == "table" and len(rest) in (2, 3):
        with open(rest[0], "wb") as file:
            file.write(case((rest[2:] or ["0"])[0], int(rest[1]))[0])
    else:
        return __doc__
    return 0


if __name__ == "__main__":
    sys.exit(main(sys.argv[1:]))
