"""Table files, version 2, written from the description of the format alone.

A word is 4 octets, big end first. A list is a word that counts its parts, and the parts. A text is a
list of ASCII octets, a flag an octet 0 or 1, a label 16 octets, big end first, in two's complement.
What may be missing is a flag, and where that is 1 the thing itself.

    table     = 49 44 4C 54 02, list node, list name, list interface, list operation,
                list exception, first program, second program, a flag for each name
    node      = 00 width signed-flag | 01 octet | 02 char | 03 boolean | 04 word enumerators
              | 05 word bound (string) | 06 word element, word bound (sequence)
              | 07 word element, word n (array) | 08 list word (structure)
              | 09 word switch, list (label, word), maybe word (union) | 0A list word (frame)
    name      = text, word node
    program   = list routine
    routine   = word node, octet entry, 8 octets exits, word rank, list instruction
    the instructions: see the classes below, whose fields stand in the file in that order

A name's flag says by which program it is served. This maker writes no interfaces.
"""
from dataclasses import dataclass
from typing import Optional, Tuple


def word(n):
    return n.to_bytes(4, "big")


def listed(parts):
    parts = list(parts)
    return word(len(parts)) + b"".join(parts)


def text(letters):
    return word(len(letters)) + letters.encode("ascii")


def maybe(number):
    return b"\0" if number is None else b"\1" + word(number)


def arms(pairs):
    return listed(label.to_bytes(16, "big", signed=True) + word(to) for label, to in pairs)


# ---- nodes of the graph of types: a number is the place of another node ----


@dataclass(frozen=True)
class Whole:
    width: int
    signed: bool

    def octets(self):
        return bytes([0, self.width, self.signed])


@dataclass(frozen=True)
class Octet:
    def octets(self):
        return b"\x01"


@dataclass(frozen=True)
class Char:
    def octets(self):
        return b"\x02"


@dataclass(frozen=True)
class Boolean:
    def octets(self):
        return b"\x03"


@dataclass(frozen=True)
class Enum:
    n: int

    def octets(self):
        return b"\x04" + word(self.n)


@dataclass(frozen=True)
class String:
    bound: int = 0

    def octets(self):
        return b"\x05" + word(self.bound)


@dataclass(frozen=True)
class Sequence:
    elem: int
    bound: int = 0

    def octets(self):
        return b"\x06" + word(self.elem) + word(self.bound)


@dataclass(frozen=True)
class Array:
    elem: int
    n: int

    def octets(self):
        return b"\x07" + word(self.elem) + word(self.n)


@dataclass(frozen=True)
class Struct:
    members: Tuple[int, ...]

    def octets(self):
        return b"\x08" + listed(map(word, self.members))


@dataclass(frozen=True)
class Union:
    switch: int
    arms: Tuple[Tuple[int, int], ...]
    default: Optional[int] = None

    def octets(self):
        return b"\x09" + word(self.switch) + arms(self.arms) + maybe(self.default)


@dataclass(frozen=True)
class Frame:
    members: Tuple[int, ...]

    def octets(self):
        return b"\x0a" + listed(map(word, self.members))


# ---- instructions: each relates a piece of the tape with octets; a routine is its number ----


@dataclass(frozen=True)
class Align:
    """The gap to the next multiple of `to`, which is 2, 4 or 8."""
    to: int

    def octets(self):
        return bytes([0x00, self.to])


@dataclass(frozen=True)
class Octets:
    n: int

    def octets(self):
        return b"\x01" + word(self.n)


@dataclass(frozen=True)
class Words:
    width: int
    n: int

    def octets(self):
        return bytes([0x02, self.width]) + word(self.n)


@dataclass(frozen=True)
class Bools:
    n: int

    def octets(self):
        return b"\x03" + word(self.n)


@dataclass(frozen=True)
class EnumWord:
    limit: int

    def octets(self):
        return b"\x04" + word(self.limit)


@dataclass(frozen=True)
class Text:
    bound: int = 0

    def octets(self):
        return b"\x05" + word(self.bound)


@dataclass(frozen=True)
class SeqOctets:
    bound: int = 0

    def octets(self):
        return b"\x06" + word(self.bound)


@dataclass(frozen=True)
class SeqBools:
    bound: int = 0

    def octets(self):
        return b"\x07" + word(self.bound)


@dataclass(frozen=True)
class SeqWords:
    """A count; where it isn't 0 the gap to `first`, which is 1, 2, 4 or 8; so many words."""
    width: int
    first: int
    bound: int = 0

    def octets(self):
        return bytes([0x08, self.width, self.first]) + word(self.bound)


@dataclass(frozen=True)
class SeqOf:
    """The same, and `routine` for each element."""
    bound: int
    first: int
    routine: int

    def octets(self):
        return b"\x09" + word(self.bound) + bytes([self.first]) + word(self.routine)


@dataclass(frozen=True)
class Times:
    n: int
    routine: int

    def octets(self):
        return b"\x0a" + word(self.n) + word(self.routine)


@dataclass(frozen=True)
class Call:
    routine: int

    def octets(self):
        return b"\x0b" + word(self.routine)


@dataclass(frozen=True)
class Switch:
    """The discriminator `disc`, which is a node; then the routine of its label, or `otherwise`."""
    disc: object
    arms: Tuple[Tuple[int, int], ...]
    otherwise: Optional[int] = None

    def octets(self):
        return b"\x0c" + disc(self.disc) + arms(self.arms) + maybe(self.otherwise)


def disc(node):
    if isinstance(node, Char):
        return b"\x00"
    if isinstance(node, Boolean):
        return b"\x01"
    if isinstance(node, Whole):
        return bytes([2, node.width, node.signed])
    return b"\x03" + word(node.n)


# ---- routines and tables ----

EVERYWHERE = 0xFF


def at(*places):
    """A set of positions modulo 8, as an octet: bit p for position p."""
    return sum(1 << place for place in set(places))


@dataclass(frozen=True)
class Routine:
    """How values of a node are marshalled: `exits` says for each position at which it may start,
    modulo 8, the set of those where it may end. `rank` is above that of each routine that it calls
    outside a sequence."""
    node: int
    code: Tuple[object, ...]
    entry: int = EVERYWHERE
    exits: Tuple[int, ...] = (EVERYWHERE,) * 8
    rank: int = 0

    def octets(self):
        head = word(self.node) + bytes([self.entry, *self.exits]) + word(self.rank)
        return head + listed(instr.octets() for instr in self.code)


@dataclass(frozen=True)
class Table:
    """`names` gives each name its node, and the program by which it is served, 0 or 1."""
    nodes: Tuple[object, ...]
    names: Tuple[Tuple[str, int, int], ...]
    first: Tuple[Routine, ...]
    second: Tuple[Routine, ...] = ()

    def model(self):
        nodes = listed(node.octets() for node in self.nodes)
        return nodes + listed(text(name) + word(node) for name, node, _ in self.names) + 3 * word(0)

    def programs(self):
        return b"".join(listed(routine.octets() for routine in p) for p in (self.first, self.second))

    def octets(self):
        uses = bytes(use for _, _, use in self.names)
        return b"IDLT\2" + self.model() + self.programs() + uses
