"""Table files that take much to check: of many small parts, and programs whose instructions take many pieces."""
from table_file import (Align, Array, Boolean, Bools, Call, Char, Frame, Octet, Octets, Routine, String, Struct, Switch,
                        Text, Times, listed, text, word)

# as long as a file may be
ROOM = 16 * 1024 * 1024

MOST = 2 ** 32 - 1
LONGEST = 2 ** 20
MAX_INSTRS = 65536
NONE = word(0)


def many(count, octets):
    """A list of so many parts, which have these octets."""
    return word(count) + octets


def same(part, room):
    """A list of as many such parts as there is room for."""
    return many(room // len(part), part * (room // len(part)))


def file(nodes, names=NONE, interfaces=NONE, operations=NONE, exceptions=NONE, first=NONE, second=NONE, uses=b""):
    return b"IDLT\2" + nodes + names + interfaces + operations + exceptions + first + second + uses


def octets_of(parts):
    return listed(part.octets() for part in parts)


OCTET = octets_of([Octet()])
ONE_ROUTINE = octets_of([Routine(0, (Octets(1),))])

# the nodes of a text, of an empty frame and of one that begins with an id, and their names
DECLARED = octets_of([String(), Frame(()), Frame((0,))])
DECLARED_NAMES = listed(text(letters) + word(node) for letters, node in (("a", 1), ("b", 2)))


def programs(nodes, routines):
    """A file with these routines as both programs."""
    routines = octets_of(routines)
    return file(octets_of(nodes), first=routines, second=routines)


# ---- many small parts ----


def many_nodes():
    room = ROOM - 64
    return file(many(room, b"\1" * room))


def many_members():
    return file(word(2) + b"\1" + b"\x08" + same(word(0), ROOM - 64))


def head_of_routine(count):
    return word(0) + b"\xff" + b"\xff" * 8 + word(0) + word(count)


def one_long_routine():
    count = (ROOM - 128) // 2
    return file(OCTET, first=word(1) + head_of_routine(count) + Align(2).octets() * count)


def many_long_routines():
    routine = head_of_routine(MAX_INSTRS) + Align(2).octets() * MAX_INSTRS
    return file(OCTET, first=same(routine, ROOM - 128))


def full_programs():
    routine = word(1) + head_of_routine(MAX_INSTRS) + Align(2).octets() * MAX_INSTRS
    return file(OCTET, first=routine, second=routine)


def letters(at):
    """The text of a number, of three octets."""
    return bytes([at % 128, at // 128 % 128, at // 16384])


def names(room):
    count = room // 12
    listed_names = b"".join(word(3) + letters(at) + word(0) for at in range(count))
    return many(count, listed_names), bytes(count)


def many_names():
    found, uses = names(ROOM - 256)
    return file(OCTET, names=found, first=ONE_ROUTINE, uses=uses)


def names_and_a_long_program():
    found, uses = names(ROOM - 2 ** 18)
    routine = word(1) + head_of_routine(MAX_INSTRS + 1) + Align(2).octets() * (MAX_INSTRS + 1)
    return file(OCTET, names=found, first=routine, uses=uses)


def many_bases():
    bases = same(text("a"), ROOM - 128)
    return file(OCTET, interfaces=word(1) + 2 * NONE + bases + NONE)


def many_interfaces():
    return file(OCTET, interfaces=same(4 * NONE, ROOM - 64))


def declared(**parts):
    """Operations or exceptions over two named frames, which are served."""
    routines = octets_of([Routine(1, ()), Routine(2, (Align(4), Text()))])
    return file(DECLARED, names=DECLARED_NAMES, first=routines, uses=bytes(2), **parts)


def many_operations():
    return declared(operations=same(NONE + b"\0" + word(1) + word(1) + NONE, ROOM - 512))


def many_exceptions():
    return declared(exceptions=same(2 * NONE + word(2), ROOM - 512))


def arms(room, routines):
    """As many arms as there is room for, of routines in turn."""
    count = room // 20
    return tuple((label, routines[label % len(routines)]) for label in range(count))


def many_arms():
    code = (Switch(Char(), arms(ROOM - 256, (1,))),)
    routines = [Routine(0, code, rank=1), Routine(0, (Octets(1),))]
    return file(OCTET, first=octets_of(routines))


def arms_of_late_work():
    """Arms of two routines that begin with as many gaps as there may be."""
    late = (Align(2),) * 32000 + (Octets(1),)
    code = (Switch(Char(), arms(ROOM - 2 ** 18, (1, 2))),)
    routines = [Routine(0, code, rank=1), Routine(0, late), Routine(0, late)]
    return file(OCTET, first=octets_of(routines))


def many_paths():
    """64 levels, each of as many parts of the next as there may be in all, and their plain program."""
    nodes = [Octet()] + [Struct((below,) * 512) for below in range(63)]
    routines = [Routine(0, (Octets(1),))]
    routines += [Routine(node, (Call(node - 1),) * 512, rank=node) for node in range(1, 64)]
    return programs(nodes, routines)


# ---- programs ----


def arrays():
    return [Octet(), Array(0, LONGEST), Array(1, LONGEST), Array(2, LONGEST)]


def doubles(levels):
    return [Octet()] + [Struct((below, below)) for below in range(levels - 1)]


def octets_over_arrays():
    return programs(arrays(), [Routine(3, (Octets(MOST),) * MAX_INSTRS)])


def times_in_each_routine():
    behind = tuple(1 << (place + 1) % 8 for place in range(8))
    routines = [Routine(0, (Octets(1),), exits=behind)] + [Routine(1, (Times(LONGEST, 0),), rank=1)] * 8191
    return programs(arrays(), routines)


def octets_over_doubles():
    return programs(doubles(64), [Routine(63, (Octets(MOST),) * MAX_INSTRS)])


def whole_double():
    return programs(doubles(48), [Routine(47, (Octets(MOST),) * 32768 + (Octets(32768),))])


def times_over(nodes):
    return programs(nodes, [Routine(0, (Octets(1),)), Routine(len(nodes) - 1, (Times(LONGEST, 0),) * 65535, rank=1)])


def wrapped_octets():
    return times_over([Octet(), Array(0, 1), Array(1, LONGEST), Array(2, 65535)])


def doubled_octets():
    return times_over([*doubles(21), Array(20, 65535)])


def members_in_turn():
    """Runs of octets over as many members as there may be, which end with a boolean."""
    nodes = [Octet(), Char(), Boolean()]
    nodes += [Struct(tuple(member % 2 for member in range(1023)) + (last,)) for last in range(2, 34)]
    nodes.append(Array(34, 32767))
    return programs(nodes, [Routine(35, (Octets(32 * 1023), Bools(1)) * 32767)])


def wrapped_members():
    """The same, where each octet is an array of one of arrays of one, and is done by its routine."""
    nodes = [Octet(), Boolean()] + [Array(below if below > 1 else 0, 1) for below in range(1, 29)]
    wrapped, structure = len(nodes) - 1, len(nodes)
    for at in range(32):
        nodes.append(Struct((wrapped,) * 1023 + (structure + at - 1 if at else 1,)))
    nodes.append(Array(len(nodes) - 1, 32767))
    code = (Times(32 * 1023, 0), Bools(1)) * 32767
    return programs(nodes, [Routine(0, (Octets(1),)), Routine(len(nodes) - 1, code, rank=1)])


KINDS = {
    "16,777,152 nodes": many_nodes,
    "a structure of 4,194,288 members": many_members,
    "a routine of 8,388,544 instructions": one_long_routine,
    "127 routines of 65,536 instructions": many_long_routines,
    "two programs of 65,536 `Align 2`": full_programs,
    "1,398,080 names": many_names,
    "1,376,256 names, and an instruction too many": names_and_a_long_program,
    "an interface with 3,355,417 bases": many_bases,
    "1,048,572 interfaces": many_interfaces,
    "986,864 operations": many_operations,
    "1,398,058 exceptions": many_exceptions,
    "a `Switch` of 838,848 arms": many_arms,
    "825,753 arms of routines that begin with 32,000 gaps": arms_of_late_work,
    "64 levels of structures of 512 members, by calls": many_paths,
    "65,536 times `Octets 4294967295` over arrays of arrays of 2^20": octets_over_arrays,
    "`Times 1048576` in each of 8,192 routines": times_in_each_routine,
    "65,536 times `Octets 4294967295` over structures that hold each other twice": octets_over_doubles,
    "32,768 times over a structure of 2^47 octets, and its end": whole_double,
    "65,535 times `Times 1048576` over arrays of one element": wrapped_octets,
    "65,535 times `Times 1048576` over structures that hold each other twice": doubled_octets,
    "32,767 times `Octets 32736`, `Bools 1` over 32,768 members": members_in_turn,
    "32,767 times `Times 32736`, `Bools 1` over as many, each in 28 arrays of one": wrapped_members,
}
