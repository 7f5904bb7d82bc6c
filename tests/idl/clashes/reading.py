"""The first fault of the names of a file, by a plain reading of the rules of OMG IDL (ISO/IEC 19500-1, 7.20 and 7.21).

It reads a file as files.py makes it from front to back, keeps a flat list of what is declared, and looks each name up by
walking scopes and bases. It is meant to be read beside the rules and is as slow as it likes.
"""
from files import Name

UNKNOWN, COLLIDES, CASE, AMBIGUOUS, NOT_A_TYPE = 20, 21, 22, 23, 24
ID_TWICE, BAD_CONSTANT, BAD_BASE, PREFIX_IN_SCOPE, PREFIX_DIFFERS = 25, 26, 27, 28, 29

TYPES = ("interface", "struct", "union", "enum", "typedef")
FEATURES = ("operation", "attribute")
# the name of such a scope isn't declared directly inside it
NAMED_SCOPES = ("module", "interface", "struct", "union", "exception")
RANGES = {"octet": (0, 255), "short": (-(2**15), 2**15 - 1), "long": (-(2**31), 2**31 - 1)}


class Fault(Exception):
    """A rule that is broken, and the line."""

    def __init__(self, number, line):
        super().__init__(number, line)
        self.number = number
        self.line = line


class Entry:
    """What is declared: its scope (None is the file), its word and kind, where it stood first, the prefix then."""

    def __init__(self, scope, word, kind, line, prefix):
        self.scope = scope
        self.word = word
        self.kind = kind
        self.line = line
        self.prefix = prefix
        self.is_defined = False
        self.bases = []
        # of a constant its value and its type, of a typedef or enum the type that it stands for in the end
        self.value = None
        self.type = None


def same(one, other):
    return one.lower() == other.lower()


class Reading:
    """Reads a file and stops at the first fault."""

    def __init__(self):
        self.entries = []
        # the names of members and parameters, by what they are members of
        self.members = []
        self.ids = {}
        self.prefix = ""
        self.being_read = []

    # what a name finds

    def own(self, scope, word):
        return [it for it in self.entries if it.scope is scope and same(it.word, word)][:1]

    def within(self, scope, word):
        """What a scope itself has, or else what its bases give, each entry once."""
        found = self.own(scope, word)
        if not found and scope is not None:
            for base in scope.bases:
                found += [it for it in self.within(base, word) if it not in found]
        return found

    def outwards(self, scope, word):
        found = self.within(scope, word)
        while not found and scope is not None:
            scope = scope.scope
            found = self.within(scope, word)
        return found

    def resolve(self, scope, name, line=None):
        line = name.line if line is None else line
        found = self.within(None, name.words[0]) if name.is_rooted else self.outwards(scope, name.words[0])
        entry = self.one(found, name.words[0], line)
        for word in name.words[1:]:
            entry = self.one(self.within(entry, word), word, line)
        return entry

    def one(self, found, word, line):
        if not found:
            raise Fault(UNKNOWN, line)
        if len(found) > 1:
            raise Fault(AMBIGUOUS, line)
        if found[0].word != word:
            raise Fault(CASE, line)
        return found[0]

    # what is declared

    def is_own_name(self, scope, word):
        return scope is not None and scope.kind in NAMED_SCOPES and same(scope.word, word)

    def has_member(self, scope, word):
        return any(it is scope and same(name, word) for it, name in self.members)

    def declare(self, scope, identifier, kind):
        """The entry of an identifier: a new one, or one that may appear again."""
        word, line = identifier.word, identifier.line
        if self.is_own_name(scope, word) or self.has_member(scope, word):
            raise Fault(COLLIDES, line)
        for there in self.own(scope, word):
            if kind not in ("module", "interface", "struct", "union") or there.kind != kind or there.word != word:
                raise Fault(COLLIDES, line)
            if kind != "module" and there.prefix != self.prefix:
                raise Fault(PREFIX_DIFFERS, line)
            return there
        entry = Entry(scope, word, kind, line, self.prefix)
        self.entries.append(entry)
        return entry

    def define(self, scope, identifier, kind):
        """A declaration with a body, of which there is one."""
        entry = self.declare(scope, identifier, kind)
        if entry.is_defined:
            raise Fault(COLLIDES, identifier.line)
        entry.is_defined = True
        return entry

    def add_member(self, scope, identifier):
        word = identifier.word
        if self.is_own_name(scope, word) or self.has_member(scope, word) or self.own(scope, word):
            raise Fault(COLLIDES, identifier.line)
        self.members.append((scope, word))

    # constants: a value is a number, or the entry of an enumerator

    def constant_named(self, scope, name):
        entry = self.resolve(scope, name)
        if entry.kind not in ("const", "enumerator"):
            raise Fault(BAD_CONSTANT, name.line)
        return entry if entry.kind == "enumerator" else entry.value

    def value(self, scope, expression):
        """What an expression is worth: all its names are judged first."""
        values = [it if isinstance(it, int) else self.constant_named(scope, it) for it in expression["terms"]]
        if len(values) == 1:
            return values[0]
        if not all(isinstance(value, int) for value in values):
            raise Fault(BAD_CONSTANT, expression["line"])
        return sum(values)

    def size(self, scope, expression):
        value = self.value(scope, expression)
        if not isinstance(value, int) or value < 1:
            raise Fault(BAD_CONSTANT, expression["line"])

    def has_value(self, kind, value):
        """Whether a type has a constant's value."""
        if isinstance(kind, Entry):
            return isinstance(value, Entry) and value.type is kind
        return kind in RANGES and isinstance(value, int) and RANGES[kind][0] <= value <= RANGES[kind][1]

    # types: what a type stands for in the end, a basic type's text or an enumeration's entry, or None

    def named_type(self, scope, name):
        entry = self.resolve(scope, name)
        if entry.kind not in TYPES:
            raise Fault(NOT_A_TYPE, name.line)
        return entry.type

    def type(self, scope, it):
        kind = it["kind"]
        if kind == "basic":
            return it["text"]
        if kind == "name":
            return self.named_type(scope, it["name"])
        if kind == "sequence":
            self.type(scope, it["element"])
            if it["bound"]:
                self.size(scope, it["bound"])
            return None
        return self.definition(scope, it)

    def sizes(self, scope, declarator):
        for size in declarator["sizes"]:
            self.size(scope, size)

    def members_of(self, scope, members):
        for member in members:
            self.type(scope, member["type"])
            for declarator in member["declarators"]:
                self.add_member(scope, declarator["identifier"])
                self.sizes(scope, declarator)

    # definitions and exports

    def definition(self, scope, it):
        return getattr(self, it["kind"].replace(" ", "_"))(scope, it)

    def typedef(self, scope, it):
        stands_for = self.type(scope, it["type"])
        for declarator in it["declarators"]:
            entry = self.declare(scope, declarator["identifier"], "typedef")
            entry.type = None if declarator["sizes"] else stands_for
            self.sizes(scope, declarator)

    def struct(self, scope, it):
        self.members_of(self.define(scope, it["identifier"], "struct"), it["members"])

    def union(self, scope, it):
        entry = self.define(scope, it["identifier"], "union")
        self.type(entry, it["switch"])
        for case in it["cases"]:
            if isinstance(case["label"], Name):
                self.constant_named(entry, case["label"])
            self.type(entry, case["type"])
            self.add_member(entry, case["declarator"]["identifier"])
            self.sizes(entry, case["declarator"])

    def enum(self, scope, it):
        entry = self.declare(scope, it["identifier"], "enum")
        entry.type = entry
        for enumerator in it["enumerators"]:
            self.declare(scope, enumerator, "enumerator").type = entry
        return entry

    def exception(self, scope, it):
        self.members_of(self.declare(scope, it["identifier"], "exception"), it["members"])

    def const(self, scope, it):
        kind = self.type(scope, it["type"])
        # a constant is found from its end on, but its name's own faults come where it stands
        word = it["identifier"].word
        if self.is_own_name(scope, word) or self.has_member(scope, word) or self.own(scope, word):
            raise Fault(COLLIDES, it["identifier"].line)
        value = self.value(scope, it["value"])
        if not self.has_value(kind, value):
            raise Fault(BAD_CONSTANT, it["value"]["line"])
        self.declare(scope, it["identifier"], "const").value = value

    def struct_ahead(self, scope, it):
        self.declare(scope, it["identifier"], "struct")

    def union_ahead(self, scope, it):
        self.declare(scope, it["identifier"], "union")

    def interface_ahead(self, scope, it):
        self.declare(scope, it["identifier"], "interface")

    def module(self, scope, it):
        self.parts(self.declare(scope, it["identifier"], "module"), it["definitions"])

    def interface(self, scope, it):
        entry = self.define(scope, it["identifier"], "interface")
        self.being_read.append(entry)
        for name in it["bases"]:
            self.add_base(scope, entry, name)
        self.being_read.remove(entry)
        self.parts(entry, it["exports"])

    def add_base(self, scope, entry, name):
        base = self.resolve(scope, name)
        is_ready = base.kind == "interface" and base.is_defined and base not in self.being_read
        if not is_ready or base in entry.bases:
            raise Fault(BAD_BASE, name.line)
        for one in self.inherited(entry):
            for other in self.features(base):
                if one is not other and same(one.word, other.word):
                    raise Fault(BAD_BASE, name.line)
        entry.bases.append(base)

    def features(self, interface):
        """The operations and attributes of an interface: those of its bases, each once, and its own."""
        own = [it for it in self.entries if it.scope is interface and it.kind in FEATURES]
        return self.inherited(interface) + own

    def inherited(self, interface):
        found = []
        for base in interface.bases:
            found += [it for it in self.features(base) if it not in found]
        return found

    def feature(self, scope, identifier, kind):
        if any(same(it.word, identifier.word) for it in self.inherited(scope)):
            raise Fault(COLLIDES, identifier.line)
        return self.declare(scope, identifier, kind)

    def raised(self, scope, names):
        for name in names:
            if self.resolve(scope, name).kind != "exception":
                raise Fault(NOT_A_TYPE, name.line)

    def operation(self, scope, it):
        if it["result"]:
            self.type(scope, it["result"])
        entry = self.feature(scope, it["identifier"], "operation")
        for parameter in it["parameters"]:
            self.type(scope, parameter["type"])
            self.add_member(entry, parameter["identifier"])
        self.raised(scope, it["raises"])

    def attribute(self, scope, it):
        self.type(scope, it["type"])
        for identifier in it["identifiers"]:
            self.feature(scope, identifier, "attribute")
        self.raised(scope, it["raises"])

    # pragmas

    def prefix_pragma(self, scope, it):
        if scope is not None:
            raise Fault(PREFIX_IN_SCOPE, it["line"])
        self.prefix = it["text"]

    def id_pragma(self, scope, it):
        entry = self.resolve(scope, it["name"], it["line"])
        given = (it["kind"], it["text"])
        if self.ids.setdefault(entry, given) != given:
            raise Fault(ID_TWICE, it["line"])

    def parts(self, scope, parts):
        for it in parts:
            if it["kind"] == "prefix":
                self.prefix_pragma(scope, it)
            elif it["kind"] in ("id", "version"):
                self.id_pragma(scope, it)
            else:
                self.definition(scope, it)

    def file(self, definitions):
        self.parts(None, definitions)
        for entry in self.entries:
            if entry.kind in ("struct", "union") and not entry.is_defined:
                raise Fault(UNKNOWN, entry.line)


def fault_of(definitions):
    """The number and the line of the first fault, or (0, 0)."""
    try:
        Reading().file(definitions)
    except Fault as fault:
        return fault.number, fault.line
    return 0, 0
