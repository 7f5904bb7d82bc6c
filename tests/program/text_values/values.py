"""Random types and values, with their IDL, their JSON and their CDR octets (ISO/IEC 19500-2), by plain reading of the rules."""
import json

INTEGERS = {
    "short": (2, True),
    "unsigned short": (2, False),
    "long": (4, True),
    "unsigned long": (4, False),
    "long long": (8, True),
    "unsigned long long": (8, False),
}


class Octets:
    """Octets of CDR from a position on: each number stands at a multiple of its length."""

    def __init__(self, order, position):
        self.order = order
        self.position = position
        self.all = bytearray()

    def number(self, value, length, signed):
        self.all += bytes(-(self.position + len(self.all)) % length)
        self.all += value.to_bytes(length, self.order, signed=signed)


class Integer:
    def __init__(self, word):
        self.idl = word
        self.length, self.signed = INTEGERS[word]

    def random(self, rng):
        bits = 8 * self.length
        low = -(1 << (bits - 1)) if self.signed else 0
        high = low + (1 << bits) - 1
        return rng.choice([low, high, 0, 1, rng.randint(low, high)])

    def write(self, octets, value):
        octets.number(value, self.length, self.signed)


class Octet:
    idl = "octet"

    def random(self, rng):
        return rng.randint(0, 255)

    def write(self, octets, value):
        octets.number(value, 1, False)


class Boolean:
    idl = "boolean"

    def random(self, rng):
        return rng.random() < 0.5

    def write(self, octets, value):
        octets.number(int(value), 1, False)


class Char:
    idl = "char"

    def random(self, rng):
        return chr(rng.randint(0, 255))

    def write(self, octets, value):
        octets.number(ord(value), 1, False)


class Text:
    def __init__(self, bound):
        self.bound = bound
        self.idl = f"string<{bound}>" if bound else "string"

    def random(self, rng):
        return "".join(chr(rng.randint(1, 255)) for _ in range(rng.randint(0, self.bound or 20)))

    def write(self, octets, value):
        octets.number(len(value) + 1, 4, False)
        octets.all += value.encode("latin-1") + b"\0"


class Reference:
    """An object reference: `IOR:` and the digits of its encapsulation in big order."""

    idl = "Object"

    def __init__(self):
        self.parts = {}

    def random(self, rng):
        profiles = [(rng.randint(0, (1 << 32) - 1), rng.randbytes(rng.randint(0, 9))) for _ in range(rng.randint(0, 3))]
        parts = Text(0).random(rng), profiles
        encapsulation = Octets("big", 1)
        self.write_parts(encapsulation, *parts)
        text = f"IOR:00{encapsulation.all.hex()}"
        self.parts[text] = parts
        return text

    def write_parts(self, octets, type_id, profiles):
        Text(0).write(octets, type_id)
        octets.number(len(profiles), 4, False)
        for tag, data in profiles:
            octets.number(tag, 4, False)
            octets.number(len(data), 4, False)
            octets.all += data

    def write(self, octets, value):
        self.write_parts(octets, *self.parts[value])


class Enumeration:
    def __init__(self, idl, names):
        self.idl = idl
        self.names = names
        self.declared = f"enum {idl} {{{', '.join(names)}}};"

    def random(self, rng):
        return rng.choice(self.names)

    def write(self, octets, value):
        octets.number(self.names.index(value), 4, False)


class Elements:
    """A sequence, or an array where it has a length. Octets are digits, characters a string."""

    def __init__(self, idl, element, length):
        self.idl = idl
        self.element = element
        self.length = length
        of = f"typedef {element.idl} {idl}[{length}];"
        self.declared = of if length else f"typedef sequence<{element.idl} > {idl};"

    def random(self, rng):
        count = self.length or rng.randint(0, 4)
        values = [self.element.random(rng) for _ in range(count)]
        if isinstance(self.element, Octet):
            return bytes(values).hex()
        if isinstance(self.element, Char):
            return "".join(values)
        return values

    def write(self, octets, value):
        values = list(bytes.fromhex(value)) if isinstance(self.element, Octet) else list(value)
        if not self.length:
            octets.number(len(values), 4, False)
        for one in values:
            self.element.write(octets, one)


class Structure:
    def __init__(self, idl, members):
        self.idl = idl
        self.members = members
        inner = " ".join(f"{kind.idl} {name};" for name, kind in members)
        self.declared = f"struct {idl} {{{inner}}};"

    def random(self, rng):
        return {name: kind.random(rng) for name, kind in self.members}

    def write(self, octets, value):
        for name, kind in self.members:
            kind.write(octets, value[name])


class Union:
    """The last enumerator has no member."""

    def __init__(self, idl, switch, kinds):
        self.idl = idl
        self.switch = switch
        self.kinds = dict(zip(switch.names, kinds))
        arms = " ".join(f"case {label}: {kind.idl} m_{label};" for label, kind in self.kinds.items())
        self.declared = f"union {idl} switch({switch.idl}) {{{arms}}};"

    def random(self, rng):
        label = rng.choice(self.switch.names)
        return [label, self.kinds[label].random(rng)] if label in self.kinds else [label]

    def write(self, octets, value):
        self.switch.write(octets, value[0])
        if len(value) > 1:
            self.kinds[value[0]].write(octets, value[1])


def simple(rng):
    whole = Integer(rng.choice(list(INTEGERS)))
    return rng.choice([whole, Octet(), Boolean(), Char(), Text(0), Text(rng.randint(1, 9)), Reference()])


def types(rng, count):
    """So many declared types, each of those before it or of simple ones."""
    declared = []
    for number in range(count):
        def part():
            return rng.choice(declared) if declared and rng.random() < 0.4 else simple(rng)

        name = f"T{number}"
        kind = rng.randint(0, 4)
        if kind == 0:
            made = Enumeration(name, [f"e{number}_{place}" for place in range(rng.randint(2, 5))])
        elif kind == 1:
            made = Elements(name, part(), rng.choice([0, 0, rng.randint(1, 4)]))
        elif kind == 2 and any(isinstance(it, Enumeration) for it in declared):
            switch = rng.choice([it for it in declared if isinstance(it, Enumeration)])
            made = Union(name, switch, [part() for _ in switch.names[:-1]])
        else:
            made = Structure(name, [(f"m{place}", part()) for place in range(rng.randint(1, 5))])
        declared.append(made)
    return declared


def text(rng, value):
    """A text of the value, with members in another order and blanks, as anybody may write it."""
    if isinstance(value, dict):
        names = list(value)
        rng.shuffle(names)
        return "{ " + ", ".join(f"{json.dumps(name)} :{text(rng, value[name])}" for name in names) + "\t}"
    if isinstance(value, list):
        return "[" + " ,".join(text(rng, one) for one in value) + "]"
    return json.dumps(value, ensure_ascii=rng.random() < 0.5)
