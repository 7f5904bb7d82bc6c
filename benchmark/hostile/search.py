"""Programs made at random: a graph of one kind of leaf in levels of arrays and structures, and a routine that does its
work by runs of random length, over and over. They are right as far as there is work, so the checker has much to do."""
import random

import table_file as t

MAX_INSTRS = 65536

# leaves, what their runs are done by, and by which instruction a gap is made before the first
RUNS = {
    "octets": (t.Octet(), t.Octets, None),
    "booleans": (t.Boolean(), t.Bools, None),
    "shorts": (t.Whole(2, True), lambda n: t.Words(2, n), 2),
    "longs": (t.Whole(4, False), lambda n: t.Words(4, n), 4),
    "long longs": (t.Whole(8, True), lambda n: t.Words(8, n), 8),
}

# leaves that are done one by one
SINGLES = {
    "enumerators": (t.Enum(3), (t.Align(4), t.EnumWord(3))),
    "texts": (t.String(5), (t.Align(4), t.Text(5))),
}

# leaves that are sequences of the node before them, which is an octet, a boolean or a long
SEQUENCES = {
    "sequences of octets": (t.Octet(), (t.Align(4), t.SeqOctets())),
    "sequences of booleans": (t.Boolean(), (t.Align(4), t.SeqBools())),
    "sequences of longs": (t.Whole(4, True), (t.Align(4), t.SeqWords(4, 4))),
    "sequences by a routine": (t.Char(), (t.Align(4), t.SeqOf(0, 1, 0))),
}


def sizes(rng):
    return rng.choice([1, 2, 3, rng.randint(2, 64), rng.randint(2, 1024), rng.randint(2, 2 ** 20), 2 ** 20])


class Graph:
    """Levels over a leaf, and how many leaves each node has."""

    def __init__(self, rng, leaves):
        self.rng = rng
        self.nodes = list(leaves)
        self.leaf = len(leaves) - 1
        self.counts = [0] * self.leaf + [1]
        self.left = 32768
        for _ in range(rng.randint(1, 62)):
            self.add()

    def lower(self):
        """A node of the last levels more often than another."""
        most = len(self.nodes) - 1
        return max(self.leaf, most - self.rng.choice([0, 0, 0, 1, 2, self.rng.randint(0, most)]))

    def add(self):
        count = self.rng.choice([1, 2, 2, 3, self.rng.randint(1, 1024), 1024])
        if self.rng.random() < 0.4 or count > self.left:
            below, n = self.lower(), sizes(self.rng)
            self.nodes.append(t.Array(below, n))
            self.counts.append(self.counts[below] * n)
            return
        few = [self.lower() for _ in range(self.rng.randint(1, 3))]
        members = tuple(few[at % len(few)] for at in range(count))
        self.left -= count
        self.nodes.append(t.Struct(members))
        self.counts.append(sum(self.counts[member] for member in members))


def pattern(rng, graph, run):
    """Runs that are done over and over."""
    near = [count + by for count in rng.sample(graph.counts, min(3, len(graph.counts))) for by in (-1, 0, 1)]
    found = [n for n in (*near, 1, sizes(rng), 2 ** 32 - 1) if 0 < n < 2 ** 32]
    return [run(rng.choice(found)) for _ in range(rng.randint(1, 3))]


def by_routines(rng, graph, code):
    """Routines of a lower node, and `Times` and `Call` of them in place of some of the work."""
    lower = [node for node in range(graph.leaf, len(graph.nodes)) if graph.counts[node] < 2 ** 16]
    node = rng.choice(lower)
    calls = [t.Call(1), t.Times(sizes(rng), 1), t.Times(2 ** 20, 1)]
    return node, [rng.choice([instr, *calls]) for instr in code]


def made(seed):
    """What a file is of, and its octets."""
    rng = random.Random(seed)
    name = rng.choice([*RUNS, *RUNS, *SINGLES, *SEQUENCES])
    if name in RUNS:
        leaf, run, gap = RUNS[name]
        graph = Graph(rng, [leaf])
        code, first = pattern(rng, graph, run), [t.Align(gap)] if gap else []
        one = [*first, run(1)]
    elif name in SINGLES:
        leaf, one = SINGLES[name]
        graph, code, first = Graph(rng, [leaf]), list(one), []
    else:
        below, one = SEQUENCES[name]
        graph, code, first = Graph(rng, [below, t.Sequence(0)]), list(one), []
    top = len(graph.nodes) - 1
    node, code = by_routines(rng, graph, code) if rng.random() < 0.3 else (graph.leaf, code)
    low = [t.Routine(0, (t.Octets(1),)), t.Routine(node, tuple(one), rank=0)]
    room = MAX_INSTRS - 4 - len(one)
    whole = first + (code * (room // len(code) + 1))[:room]
    routines = (*low, t.Routine(top, tuple(whole), rank=1))
    return f"{name}, {len(graph.nodes)} nodes", t.Table(tuple(graph.nodes), (), routines, routines).octets()
