"""Models made at random, programs for them with routines of many cuts, and changes of such programs.

A program is made from the types alone: for each routine it is followed which positions modulo 8 are
possible (`places`), and every alignment that is right at all of these may be the one that is taken,
none among them. Structures and arrays stand in place, or are called, or are `Times` of a routine; a
routine starts everywhere or at some places only; runs are joined or not.
"""
from dataclasses import fields, replace

import table_file as t
from plain_cdr import gap, switch_arm

ALL = frozenset(range(8))
ALIGNMENTS = (1, 2, 4, 8)


def kind(node):
    return type(node).__name__.lower()


def moved(places, size, n=0):
    """Behind the gap to a multiple of a size, and n octets more."""
    return frozenset((p + gap(p, size) + n) % 8 for p in places)


# ---- models ----

BASIC = tuple(t.Whole(w, s) for w in (2, 4, 8) for s in (True, False)) + (
    t.Octet(), t.Char(), t.Boolean(), t.Enum(1), t.Enum(3), t.String(), t.String(4))


def labels_of(switch, rng):
    """Labels of a discriminator, and whether they are all its values."""
    if kind(switch) == "whole":
        least = -2 ** (8 * switch.width - 1) if switch.signed else 0
        most = least + 2 ** (8 * switch.width) - 1
        found = {least, most, least + 1, 7, rng.randint(least, most)}
        return sorted(rng.sample(sorted(found), rng.randint(1, len(found)))), False
    n = {"octet": 256, "char": 256, "boolean": 2}.get(kind(switch)) or switch.n
    count = min(n, rng.randint(1, 3))
    return sorted(rng.sample(range(n), count)), count == n


class ModelMaker:
    """Nodes, each of which holds lower ones, or is a sequence of any."""

    def __init__(self, rng):
        self.rng = rng
        self.nodes = rng.sample(BASIC, rng.randint(5, len(BASIC)))
        # so many leaves at most a value has outside sequences
        self.leaves = [1] * len(self.nodes)
        self.end = len(self.nodes) + rng.randint(3, 9)

    def lower(self, most):
        return self.rng.choice([n for n, size in enumerate(self.leaves) if size <= most])

    def union(self):
        switches = [n for n, node in enumerate(self.nodes)
                    if kind(node) in ("whole", "char", "boolean", "enum")]
        if not switches:
            return t.Struct((self.lower(1),))
        switch = self.rng.choice(switches)
        labels, are_all = labels_of(self.nodes[switch], self.rng)
        default = None if are_all or self.rng.random() < 0.5 else self.lower(30)
        return t.Union(switch, tuple((label, self.lower(30)) for label in labels), default)

    def composite(self):
        rng = self.rng
        which = rng.choice(("struct", "struct", "struct", "sequence", "sequence", "array", "union"))
        if which == "struct":
            return t.Struct(tuple(self.lower(30) for _ in range(rng.randint(1, 6))))
        if which == "sequence":
            return t.Sequence(rng.randrange(self.end), rng.choice((0, 0, 0, 3)))
        if which == "array":
            elem = self.lower(10)
            return t.Array(elem, rng.choice((1, 2, 3, 5, 9, 40)))
        return self.union()

    def size(self, node):
        if kind(node) in ("struct", "frame"):
            return sum(self.leaves[m] for m in node.members)
        if kind(node) == "array":
            return node.n * self.leaves[node.elem]
        if kind(node) == "union":
            held = [arm for _, arm in node.arms] + [node.default or 0]
            return 1 + max(self.leaves[m] for m in held)
        return 1

    def make(self):
        while len(self.nodes) < self.end:
            node = self.composite()
            self.leaves.append(self.size(node))
            self.nodes.append(node)
        for _ in range(self.rng.randrange(3)):
            members = [self.rng.randrange(self.end) for _ in range(self.rng.randrange(4))]
            self.nodes.append(t.Frame(tuple(members)))
        return tuple(self.nodes)


# ---- where values may end ----


def lead(nodes, number):
    """The alignment with which a node's octets begin."""
    node = nodes[number]
    if kind(node) == "whole":
        return node.width
    if kind(node) in ("enum", "string", "sequence"):
        return 4
    below = {"array": lambda: node.elem, "struct": lambda: node.members[0], "union": lambda: node.switch}
    return lead(nodes, below[kind(node)]()) if kind(node) in below else 1


def covers(nodes, union):
    """Whether the labels of a union are all values of its discriminator."""
    switch = nodes[union.switch]
    n = {"char": 256, "boolean": 2, "whole": 2 ** 64}.get(kind(switch)) or switch.n
    return len(union.arms) == n


class Ends:
    """For each node and each place where a value of it starts those where it may end: the least sets
    that agree with each other, and all places for the nodes of which nothing shall be known."""

    def __init__(self, nodes, loose):
        self.nodes = nodes
        self.table = [[ALL if n in loose else frozenset()] * 8 for n in range(len(nodes))]
        while any([self.grow(n, p) for n in range(len(nodes)) for p in range(8)]):
            pass

    def grow(self, number, place):
        found = self.once(self.nodes[number], {place}) - self.table[number][place]
        self.table[number][place] |= found
        return bool(found)

    def of(self, number, places):
        return frozenset().union(*(self.table[number][p] for p in places))

    def closed(self, number, places):
        """These places, and those where values start that follow one another from there."""
        while not self.of(number, places) <= places:
            places |= self.of(number, places)
        return places

    def once(self, node, places):
        if not places:
            return frozenset()
        return getattr(self, kind(node), self.octet)(node, places)

    def octet(self, node, places):
        return moved(places, 1, 1)

    def whole(self, node, places):
        return moved(places, node.width, node.width)

    def enum(self, node, places):
        return moved(places, 4, 4)

    def string(self, node, places):
        return ALL

    def sequence(self, node, places):
        counted = moved(places, 4, 4)
        return counted | self.of(node.elem, self.closed(node.elem, counted))

    def array(self, node, places):
        for _ in range(node.n):
            places = self.of(node.elem, places)
        return places

    def struct(self, node, places):
        for member in node.members:
            places = self.of(member, places)
        return places

    frame = struct

    def union(self, node, places):
        behind = self.of(node.switch, places)
        arms = {arm for _, arm in node.arms} | {node.default} - {None}
        ends = frozenset().union(*(self.of(arm, behind) for arm in arms))
        return ends if node.default is not None or covers(self.nodes, node) else ends | behind


# ---- programs ----


class CodeMaker:
    """The code of one routine, and the places that are possible behind it."""

    def __init__(self, maker, places):
        self.maker, self.rng, self.nodes, self.ends = maker, maker.rng, maker.nodes, maker.ends
        self.places = frozenset(places)
        self.code = []

    def chance(self, share):
        return self.rng.random() < share

    def choose(self, places, due, may_be_none=False):
        """An alignment whose gap is the one that is due, at each of the places."""
        right = [k for k in ALIGNMENTS if all(
            gap(p, k) == gap(p, due) or may_be_none and gap(p, k) == 0 for p in places)]
        return 1 if 1 in right and self.chance(0.75) else self.rng.choice(right)

    def align(self, due, may_be_none=False):
        to = self.choose(self.places, due, may_be_none)
        around = [t.Align(k) for k in (2, 4) if k < to and self.chance(0.1)]
        if to > 1:
            self.code += self.rng.choice(([*around, t.Align(to)], [t.Align(to), *around]))
        self.places = moved(self.places, to)

    def run(self, instr):
        last = self.code[-1] if self.code else None
        if isinstance(last, type(instr)) and replace(last, n=instr.n) == instr and self.chance(0.85):
            instr = replace(instr, n=last.n + instr.n)
            self.code.pop()
        self.code.append(instr)

    def leaf(self, number, n=1):
        """A run of n octets, characters, booleans or whole numbers."""
        node = self.nodes[number]
        width = node.width if kind(node) == "whole" else 1
        self.align(width)
        if kind(node) == "whole":
            self.run(t.Words(width, n))
        else:
            self.run(t.Bools(n) if kind(node) == "boolean" else t.Octets(n))
        self.places = moved(self.places, width, width * n)

    def put(self, number):
        """A value of the node, in place."""
        before = self.places
        getattr(self, kind(self.nodes[number]))(number)
        self.places = self.ends.of(number, before)

    whole = octet = char = boolean = leaf

    def enum(self, number):
        self.align(4)
        self.code.append(t.EnumWord(self.nodes[number].n))

    def string(self, number):
        self.align(4)
        self.code.append(t.Text(self.nodes[number].bound))

    def sequence(self, number):
        node = self.nodes[number]
        self.align(4)
        counted = moved(self.places, 1, 4)
        only = self.nodes[self.maker.only(node.elem)]
        if kind(only) in ("octet", "char", "boolean", "whole") and self.chance(0.6):
            self.code.append(self.plain_sequence(only, counted, node.bound))
            return
        first = self.choose(counted, lead(self.nodes, node.elem), True)
        starts = self.ends.closed(node.elem, moved(counted, first))
        self.code.append(t.SeqOf(node.bound, first, self.maker.routine(node.elem, starts)))

    def plain_sequence(self, only, counted, bound):
        if kind(only) == "whole":
            return t.SeqWords(only.width, self.choose(counted, only.width), bound)
        return t.SeqBools(bound) if kind(only) == "boolean" else t.SeqOctets(bound)

    def array(self, number):
        node = self.nodes[number]
        if kind(self.nodes[node.elem]) in ("octet", "char", "boolean", "whole"):
            self.leaf(node.elem, node.n)
        elif node.n <= 3 and self.chance(0.6):
            self.parts([node.elem] * node.n)
        else:
            self.times(node.n, node.elem)

    def struct(self, number):
        self.parts(self.nodes[number].members)

    frame = struct

    def union(self, number):
        node = self.nodes[number]
        switch = self.nodes[node.switch]
        self.align(lead(self.nodes, node.switch))
        behind = self.ends.of(node.switch, self.places)
        arms = tuple((label, self.maker.routine(arm, behind)) for label, arm in node.arms)
        other = None if node.default is None else self.maker.routine(node.default, behind)
        self.code.append(t.Switch(switch, arms, other))

    def times(self, n, number):
        """n values of the node, by a routine."""
        before = self.places
        self.align(lead(self.nodes, number), True)
        starts, places = self.places, self.places
        for _ in range(n - 1):
            places = self.ends.of(number, places)
            starts |= places
        called = self.maker.routine(number, starts)
        self.code.append(t.Call(called) if n == 1 and self.chance(0.7) else t.Times(n, called))
        self.places = before
        for _ in range(n):
            self.places = self.ends.of(number, self.places)

    def parts(self, members):
        members = list(members)
        while members:
            same = next((n for n, m in enumerate(members) if m != members[0]), len(members))
            n = same if self.chance(0.3) else 1
            is_leaf = kind(self.nodes[members[0]]) not in ("struct", "array", "union", "sequence")
            if self.chance(0.1 if is_leaf else 0.35):
                self.times(n, members[0])
            else:
                n = 1
                self.put(members[0])
            del members[:n]

    def finish(self):
        """Sometimes an alignment that does nothing."""
        idle = [k for k in (2, 4, 8) if moved(self.places, k) == self.places]
        if idle and self.chance(0.05):
            self.code.append(t.Align(self.rng.choice(idle)))
        return tuple(self.code)


class ProgramMaker:
    MANY = 40

    def __init__(self, nodes, rng):
        self.nodes, self.rng = nodes, rng
        share = rng.choice((0, 0, 0.2, 1))
        self.ends = Ends(nodes, {n for n in range(len(nodes)) if rng.random() < share})
        self.made = []  # the node, the places where it may start, and the code, once that is there

    def only(self, number):
        """The node of which this one is made, and of nothing else, once."""
        node = self.nodes[number]
        if kind(node) == "struct" and len(node.members) == 1:
            return self.only(node.members[0])
        if kind(node) == "array" and node.n == 1:
            return self.only(node.elem)
        return number

    def routine(self, number, places):
        """A routine of the node that may start at these places, and maybe at others."""
        there = [n for n, (node, entry, _) in enumerate(self.made) if node == number and places <= entry]
        if there and (len(self.made) > self.MANY or self.rng.random() < 0.75):
            return self.rng.choice(there)
        more = frozenset(p for p in ALL if self.rng.random() < 0.3)
        entries = (ALL,) if len(self.made) > self.MANY else (places, places, places | more, ALL)
        return self.new(number, self.rng.choice(entries))

    def new(self, number, entry):
        place = len(self.made)
        self.made.append((number, entry, None))
        code = CodeMaker(self, entry)
        if place < self.MANY and kind(self.nodes[number]) != "frame" and self.rng.random() < 0.05:
            code.align(lead(self.nodes, number), True)
            code.code.append(t.Call(self.new(number, code.places)))
            code.places = self.ends.of(number, code.places)
        else:
            code.put(number)
        self.made[place] = (number, entry, code.finish())
        return place

    def rank(self, number):
        called = {to for instr in self.made[number][2] if not isinstance(instr, t.SeqOf)
                  for to in routines_of(instr)}
        return 1 + max((self.rank(to) for to in called), default=-1)

    def exits(self, number, entry):
        known = {p: self.ends.of(number, {p}) for p in entry}
        return tuple(t.at(*known[p]) if p in known else self.rng.randrange(256) for p in range(8))

    def program(self):
        """The routines, in any order."""
        order = list(range(len(self.made)))
        self.rng.shuffle(order)
        new_place = {old: new for new, old in enumerate(order)}
        found = []
        for old in order:
            number, entry, code = self.made[old]
            code = tuple(with_routines(instr, new_place.get) for instr in code)
            found.append(t.Routine(number, code, t.at(*entry), self.exits(number, entry), self.rank(old)))
        return tuple(found)


def routines_of(instr):
    """The numbers of the routines that an instruction names."""
    if isinstance(instr, t.Switch):
        return [to for _, to in instr.arms] + [to for to in (instr.otherwise,) if to is not None]
    return [instr.routine] if hasattr(instr, "routine") else []


def with_routines(instr, new):
    """The instruction with other numbers in the place of those of routines."""
    if isinstance(instr, t.Switch):
        arms = tuple((label, new(to)) for label, to in instr.arms)
        return replace(instr, arms=arms, otherwise=None if instr.otherwise is None else new(instr.otherwise))
    return replace(instr, routine=new(instr.routine)) if hasattr(instr, "routine") else instr


def random_table(rng):
    """A table whose programs are right."""
    nodes = ModelMaker(rng).make()
    named = sorted(rng.sample(range(len(nodes)), rng.randint(1, 3)))
    names = tuple((f"T{node}", node, rng.randrange(2)) for node in named)
    programs = []
    for which in (0, 1):
        maker = ProgramMaker(nodes, rng)
        for _, node, use in names:
            if use == which:
                maker.new(node, ALL)
        if rng.random() < 0.2:
            maker.new(rng.randrange(len(nodes)), frozenset({rng.randrange(8)}))
        programs.append(maker.program())
    return t.Table(nodes, names, *programs)


# ---- changes of programs ----


def other_number(n, rng):
    return max(0, rng.choice((n + 1, n - 1, 2 * n, n // 2, 0, 1, 2, 4, 8)))


def with_other_field(instr, rng):
    """The instruction with another number in one of its fields."""
    field = rng.choice([f.name for f in fields(instr)])
    value = getattr(instr, field)
    if isinstance(value, int):
        return replace(instr, **{field: other_number(value, rng)})
    if field == "arms":
        place = rng.randrange(len(value)) if value else 0
        label, to = value[place] if value else (0, 0)
        put = rng.choice(((), ((label + 1, to),), ((label, other_number(to, rng)),)))
        return replace(instr, arms=value[:place] + put + value[place + 1:])
    if field == "otherwise":
        return replace(instr, otherwise=rng.randrange(4))
    return replace(instr, disc=rng.choice((t.Char(), t.Boolean(), t.Enum(2), t.Whole(4, False))))


def with_other_code(code, rng):
    code = list(code)
    place = rng.randrange(len(code)) if code else 0
    which = rng.choice(("drop", "double", "swap", "field", "field", "field", "align"))
    if which == "align" or not code:
        code.insert(place, t.Align(rng.choice((2, 4, 8))))
    elif which == "drop":
        del code[place]
    elif which == "double":
        code.insert(place, code[place])
    elif which == "swap":
        code.insert(0, code.pop(place))
    else:
        code[place] = with_other_field(code[place], rng)
    return tuple(code)


def with_other_routine(routine, rng):
    which = rng.choice(("code", "code", "code", "entry", "exits", "node", "rank"))
    if which == "code":
        return replace(routine, code=with_other_code(routine.code, rng))
    if which == "entry":
        return replace(routine, entry=routine.entry ^ 1 << rng.randrange(8))
    if which == "exits":
        place = rng.randrange(8)
        exits = list(routine.exits)
        exits[place] ^= 1 << rng.randrange(8)
        return replace(routine, exits=tuple(exits))
    return replace(routine, **{which: other_number(getattr(routine, which), rng)})


def changed_program(program, rng):
    """The program with one change, or two."""
    program = list(program)
    for _ in range(rng.choice((1, 1, 2))):
        if program:
            place = rng.randrange(len(program))
            program[place] = with_other_routine(program[place], rng)
    return tuple(program)


def changed_octets(table, rng):
    """The octets of a table with a change in its programs, of a routine or of a single octet."""
    if rng.random() < 0.6:
        table = replace(table, first=changed_program(table.first, rng),
                        second=changed_program(table.second, rng))
        return table.octets()
    octets = bytearray(table.octets())
    behind_model = 5 + len(table.model())
    octets[rng.randrange(behind_model, len(octets))] = rng.choice((0, 1, 2, 4, 8, rng.randrange(256)))
    return bytes(octets)
