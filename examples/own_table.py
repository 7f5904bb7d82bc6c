"""Writes the table of a drawing, with routines of its own making.

    python3 own_table.py FILE [DECEPTION]

The types, as IDL has them:

    struct Point { long x; long y; };
    struct Line { Point from; Point to; long width; };
    struct Extent { unsigned long height; unsigned long long area; };
    struct Item { long long id; long kind; Extent extent; };
    typedef sequence<Item> Items;
    struct Drawing { octet layer; Line border; boolean visible; string title; Items items; };

With a DECEPTION, a word of those at the end of this file, the table lies in one place, and a run of
it would write or read something else than the standard says. `idlc check` refuses each of them.
"""
import sys
from dataclasses import replace

from table_file import (Align, Boolean, Bools, Call, Octet, Octets, Routine, SeqOf, Sequence, String,
                        Struct, Table, Text, Whole, Words, at)

# ---- the types, by their numbers ----

NODES = (
    Octet(),                # 0
    Boolean(),              # 1
    Whole(4, True),         # 2  long
    Whole(4, False),        # 3  unsigned long
    Whole(8, True),         # 4  long long
    Whole(8, False),        # 5  unsigned long long
    String(),               # 6
    Struct((2, 2)),         # 7  Point
    Struct((7, 7, 2)),      # 8  Line
    Struct((3, 5)),         # 9  Extent
    Struct((4, 2, 9)),      # 10 Item
    Sequence(10),           # 11 Items
    Struct((0, 8, 1, 6, 11)),  # 12 Drawing
)
LINE, EXTENT, ITEM, ITEMS, DRAWING = 8, 9, 10, 11, 12
NAMES = (("Line", LINE, 0), ("Item", ITEM, 0), ("Items", ITEMS, 0), ("Drawing", DRAWING, 0))


def ends(places):
    """The exits of a routine that ends, by the place where it starts, at one place of `places`."""
    return tuple(at(places[p]) if p in places else 0 for p in range(8))


# ---- the routines ----

# Two points and a width are a run of five words, across the structures.
line = Routine(LINE, (Align(4), Words(4, 5)),
               exits=ends({0: 4, 1: 0, 2: 0, 3: 0, 4: 0, 5: 4, 6: 4, 7: 4}))

# An extent stands behind a long long and a long, so it always starts at 4 and has no gaps at all.
extent_at_4 = Routine(EXTENT, (Words(4, 1), Words(8, 1)), entry=at(4), exits=ends({4: 0}))

# One Align serves the id, the kind and both parts of the extent.
item = Routine(ITEM, (Align(8), Words(8, 1), Words(4, 1), Call(1)), exits=(at(0),) * 8, rank=1)

# The elements of a sequence start at multiples of 8, as the gap before the first leads there.
item_at_0 = Routine(ITEM, (Words(8, 1), Words(4, 1), Call(1)), entry=at(0), exits=ends({0: 0}), rank=1)
items = Routine(ITEMS, (Align(4), SeqOf(0, 8, 3)), exits=(at(0, 4),) * 8)

# Behind the string any place is possible.
drawing = Routine(DRAWING, (Octets(1), Call(0), Bools(1), Align(4), Text(), Align(4), SeqOf(0, 8, 3)),
                  exits=(at(0, 4),) * 8, rank=1)

ROUTINES = (line, extent_at_4, item, item_at_0, items, drawing)


# ---- the deceptions: each the routine's number, and what is put in its place ----

DECEPTIONS = {
    # without its gap, a line that starts at 1 would be written where no reader looks for it
    "no-gap": (0, replace(line, code=(Words(4, 5),))),
    # the gap to 8 is the right one at 0 and from 5 to 7, and from 1 to 4 it is 4 octets too long
    "other-gap": (0, replace(line, code=(Align(8), Words(4, 5)))),
    # four words are no line of five
    "short-run": (0, replace(line, code=(Align(4), Words(4, 4)))),
    # six words are no line of five
    "long-run": (0, replace(line, code=(Align(4), Words(4, 6)))),
    # the boolean would be any octet
    "any-octet": (5, replace(drawing, code=(Octets(1), Call(0), Octets(1), *drawing.code[3:]))),
    # the sequence would have at most ten elements, and the type has no bound
    "bound": (4, replace(items, code=(Align(4), SeqOf(10, 8, 3)))),
    # without the gap before the first element it starts at 4 too, where its routine may not start
    "no-first-gap": (4, replace(items, code=(Align(4), SeqOf(0, 1, 3)))),
    # the extent would start at 0, for which it has no gap
    "wrong-entry": (2, replace(item, code=(Align(8), Words(8, 1), Words(4, 1), Align(8), Call(1)))),
    # an item from 0 ends at 0, and whoever calls it would leave out a gap
    "wrong-exit": (3, replace(item_at_0, exits=ends({0: 4}))),
    # a line that starts anywhere is wanted by its name
    "not-everywhere": (0, replace(line, entry=at(0, 4))),
    # the last member is left out
    "member-left-out": (5, replace(drawing, code=drawing.code[:5])),
}


def table(deception=None):
    routines = list(ROUTINES)
    if deception is not None:
        number, routine = DECEPTIONS[deception]
        routines[number] = routine
    return Table(NODES, NAMES, tuple(routines))


if __name__ == "__main__":
    if not 2 <= len(sys.argv) <= 3 or sys.argv[2:3] and sys.argv[2] not in DECEPTIONS:
        sys.exit(f"usage: own_table.py FILE [{' | '.join(DECEPTIONS)}]")
    with open(sys.argv[1], "wb") as file:
        file.write(table(*sys.argv[2:]).octets())
