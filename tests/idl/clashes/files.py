"""Files of IDL made at random, dense in clashes: few names, interfaces with several bases, types that hide operations.

A file is a list of definitions. Each is a dictionary with its `kind` and its parts; a name is a list of words, of which
the first is empty where it begins with `::`; what is declared is an identifier with its line.
"""
import random

# words of one name differ only in case
WORDS = ["a", "A", "b", "c", "f", "F", "g", "S", "s", "T", "t", "M", "I", "J", "K", "L", "x", "y"]


class Identifier:
    """A word that is declared, and the line on which it stands."""

    def __init__(self, word):
        self.word = word
        self.line = 0


class Name:
    """A scoped name: its words, whether it begins with `::`, and the line of its first token."""

    def __init__(self, words, is_rooted):
        self.words = words
        self.is_rooted = is_rooted
        self.line = 0


class Maker:
    """Makes one file. It mostly names what it declared before, by words that lead there."""

    def __init__(self, seed):
        self.random = random.Random(seed)
        # where words are taken, and what was declared there, as paths
        self.taken = []
        self.types, self.interfaces, self.exceptions, self.constants, self.features = [], [], [], [], []
        # structures and interfaces that are declared ahead, and what pragmas named, to come back to
        self.ahead = []
        self.given = []

    def chance(self, percent):
        return self.random.randrange(100) < percent

    def pick(self, items):
        return self.random.choice(items)

    def new(self, path, kept=None):
        """An identifier in the scope of a path: mostly a word that isn't taken there."""
        own = path[-1:] and path[-1].lower()
        free = [word for word in WORDS if word.lower() != own and [*path, word.lower()] not in self.taken]
        word = self.pick(free if free and self.chance(98) else WORDS)
        self.taken.append([*path, word.lower()])
        if kept is not None:
            kept.append([*path, word])
        return Identifier(word)

    def name(self, kept, path):
        """A name of what was kept, mostly."""
        if not kept or self.chance(3):
            return Name([self.pick(WORDS)], self.chance(5))
        words = self.pick(kept[-5:])
        if self.chance(3):
            words = [*words[:-1], words[-1].swapcase()]
        if self.chance(8):
            # by a word alone, as inherited ones are named
            return Name(words[-1:], False)
        if words[: len(path)] == path and len(words) > len(path) and self.chance(70):
            return Name(words[len(path) :], False)
        return Name(words, self.chance(40))

    def basic(self):
        return {"kind": "basic", "text": self.pick(["long", "short", "octet", "boolean", "string"])}

    def named(self, path):
        """A name where a type has to stand."""
        kept = self.pick([self.exceptions, self.constants, self.features]) if self.chance(5) else self.types
        return {"kind": "name", "name": self.name(kept, path)}

    def simple(self, path):
        """A type that declares nothing."""
        if self.chance(50) or not self.types:
            return self.basic()
        if self.chance(12):
            bound = self.expression(path) if self.chance(50) else None
            return {"kind": "sequence", "element": self.simple(path), "bound": bound}
        return self.named(path)

    def parameter_type(self, path):
        return self.named(path) if self.types and self.chance(40) else self.basic()

    def expression(self, path):
        """Numbers and names of constants, added; a small number mostly."""
        terms = [self.term(path)]
        while self.chance(20):
            terms.append(self.term(path))
        return {"terms": terms, "line": 0}

    def term(self, path):
        if self.constants and self.chance(30):
            return self.name(self.constants, path)
        return self.pick([1, 1, 2, 2, 3, 3, 4, 5, 6, 0 if self.chance(20) else 7, 70000 if self.chance(20) else 8])

    def declarator(self, path, kept=None):
        sizes = [self.expression(path)] if self.chance(12) else []
        return {"identifier": self.new(path, kept), "sizes": sizes}

    def member(self, path, depth):
        declared = [self.declarator(path)]
        if self.chance(20):
            declared.append(self.declarator(path))
        return {"type": self.type(path, depth), "declarators": declared}

    def type(self, path, depth):
        if depth < 2 and self.chance(8):
            return self.enumeration(path) if self.chance(50) else self.structure(path, depth + 1)
        return self.simple(path)

    def enumeration(self, path):
        made = {"kind": "enum", "identifier": self.new(path, self.types)}
        made["enumerators"] = [self.new(path, self.constants) for _ in range(self.random.randint(1, 2))]
        return made

    def structure(self, path, depth):
        made = {"kind": "struct", "identifier": self.new_or_ahead("struct", path)}
        inner = [*path, made["identifier"].word]
        made["members"] = [self.member(inner, depth) for _ in range(self.random.randint(1, 3))]
        return made

    def union(self, path, depth):
        made = {"kind": "union", "identifier": self.new(path, self.types)}
        inner = [*path, made["identifier"].word]
        made["switch"] = self.switch(inner)
        made["cases"] = [self.case(inner, depth) for _ in range(self.random.randint(1, 2))]
        return made

    def switch(self, path):
        if self.chance(20):
            return self.enumeration(path)
        return self.named(path) if self.types and self.chance(30) else {"kind": "basic", "text": "long"}

    def case(self, path, depth):
        label = self.name(self.constants, path) if self.chance(30) else self.random.randrange(9)
        return {"label": label, "type": self.type(path, depth), "declarator": self.declarator(path)}

    def exception(self, path):
        made = {"kind": "exception", "identifier": self.new(path, self.exceptions)}
        inner = [*path, made["identifier"].word]
        made["members"] = [self.member(inner, 1) for _ in range(self.random.randint(0, 2))]
        return made

    def constant(self, path):
        kind = self.named(path) if self.types and self.chance(6) else self.basic()
        if kind.get("text") in ("boolean", "string"):
            kind["text"] = "long"
        value = self.expression(path)
        return {"kind": "const", "type": kind, "identifier": self.new(path, self.constants), "value": value}

    def typedef(self, path, depth):
        made = {"kind": "typedef", "type": self.type(path, depth)}
        made["declarators"] = [self.declarator(path, self.types) for _ in range(1 + self.chance(20))]
        return made

    def declaration(self, path):
        makers = [self.typedef, self.structure, self.union]
        kind = self.random.randrange(10)
        if kind < 5:
            return self.pick(makers)(path, 0)
        if kind < 7:
            return self.constant(path)
        if kind == 7:
            return self.exception(path)
        if kind == 8:
            return self.declared_ahead("struct", path) if not path or self.chance(10) else self.structure(path, 0)
        return self.enumeration(path)

    def declared_ahead(self, kind, path):
        made = {"kind": f"{kind} ahead", "identifier": self.new(path, self.types)}
        self.ahead.append((kind, path, made["identifier"].word))
        return made

    def new_or_ahead(self, kind, path):
        """The identifier of a definition: of what is declared ahead in this scope, where there is such."""
        for at, (other, where, word) in enumerate(self.ahead):
            if (kind, path) == (other, where) and self.chance(90):
                if self.chance(80):
                    del self.ahead[at]
                return Identifier(word)
        return self.new(path, self.types)

    def pragma(self, path):
        if self.chance(8 if path else 70):
            return {"kind": "prefix", "text": self.pick(["p", "q", ""]), "line": 0}
        if not self.given or self.chance(50):
            self.given.append(self.name(self.types, path))
        last = self.given[-1]
        name = Name(last.words, last.is_rooted)
        if self.chance(50):
            return {"kind": "id", "name": name, "text": self.pick(["IDL:a:1.0", "IDL:b:1.0"]), "line": 0}
        return {"kind": "version", "name": name, "text": self.pick(["1.1", "1.2"]), "line": 0}

    def raises(self, path):
        return [self.name(self.exceptions, path)] if self.exceptions and self.chance(30) else []

    def operation(self, path):
        made = {"kind": "operation", "result": self.parameter_type(path) if self.chance(40) else None}
        made["identifier"] = self.new(path, self.features)
        made["parameters"] = []
        for _ in range(self.random.choice([0, 0, 1, 2])):
            kind = self.parameter_type(path)
            made["parameters"].append({"type": kind, "identifier": self.new([*path, made["identifier"].word, "("])})
        made["raises"] = self.raises(path)
        return made

    def attribute(self, path):
        made = {"kind": "attribute", "type": self.parameter_type(path), "raises": []}
        made["identifiers"] = [self.new(path) for _ in range(1 + self.chance(20))]
        if len(made["identifiers"]) == 1:
            made["raises"] = self.raises(path)
        return made

    def export(self, path):
        kind = self.random.randrange(20)
        if kind < 10:
            return self.operation(path)
        if kind < 14:
            return self.attribute(path)
        return self.pragma(path) if kind == 14 else self.declaration(path)

    def interface(self, path):
        if self.chance(12):
            return self.declared_ahead("interface", path)
        bases, left = [], [it for it in self.interfaces if self.chance(90)]
        while left and len(bases) < 3 and self.chance(65):
            base = left.pop() if self.chance(95) else left[-1]
            bases.append(self.name([base], path))
        made = {"kind": "interface", "identifier": self.new_or_ahead("interface", path), "bases": bases}
        inner = [*path, made["identifier"].word]
        self.interfaces.append(inner)
        made["exports"] = [self.export(inner) for _ in range(self.random.randint(0, 3))]
        return made

    def diamond(self):
        """Interfaces of which one has the others as bases; they have types and operations of few words."""
        made = []
        for at in range(4):
            identifier = self.new([], self.types)
            before = self.interfaces[-3:] if made else []
            bases = [self.name([it], []) for it in before if self.chance((0, 30, 50, 95)[at])]
            self.interfaces.append([identifier.word])
            exports = [self.inherited([identifier.word], at == 3) for _ in range(self.random.randint(0, 2))]
            made.append({"kind": "interface", "identifier": identifier, "bases": bases, "exports": exports})
        return made

    def inherited(self, path, is_last):
        word = self.pick(["T", "T", "f"])
        kind = self.random.randrange(10)
        if kind < 3 and not is_last:
            operation = {"kind": "operation", "result": None, "identifier": Identifier(word), "parameters": []}
            return {**operation, "raises": []}
        if kind < 8 and not is_last:
            self.types.append([*path, word])
            declarator = {"identifier": Identifier(word), "sizes": []}
            return {"kind": "typedef", "type": self.basic(), "declarators": [declarator]}
        named = {"kind": "name", "name": Name([word], False)}
        return {"kind": "attribute", "type": named, "raises": [], "identifiers": [self.new(path)]}

    def module(self, path):
        made = {"kind": "module", "identifier": self.new(path)}
        inner = [*path, made["identifier"].word]
        made["definitions"] = [self.definition(inner) for _ in range(self.random.randint(1, 3))]
        return made

    def definition(self, path):
        kind = self.random.randrange(20)
        if kind < 11:
            return self.interface(path)
        if kind < 13 and len(path) < 2:
            return self.module(path)
        return self.pragma(path) if kind < 16 else self.declaration(path)

    def file(self):
        made = [self.definition([]) for _ in range(self.random.randint(2, 7))]
        if self.chance(70):
            made += self.diamond()
        while self.ahead and self.chance(90):
            kind, path, _ = self.ahead[0]
            if path:
                break
            made.append(self.structure(path, 0) if kind == "struct" else self.interface(path))
        return made


class Printer:
    """Writes a file as text, and notes the line of each identifier, name, expression and pragma."""

    def __init__(self):
        self.lines = [[]]

    def text(self):
        return "\n".join(" ".join(words) for words in self.lines)

    def put(self, *words):
        self.lines[-1] += words

    def end_line(self):
        self.lines.append([])

    def line(self):
        return len(self.lines)

    def identifier(self, identifier):
        identifier.line = self.line()
        self.put(identifier.word)

    def name(self, name):
        name.line = self.line()
        self.put(("::" if name.is_rooted else "") + "::".join(name.words))

    def names(self, names):
        for at, name in enumerate(names):
            if at:
                self.put(",")
                self.end_line()
            self.name(name)

    def term(self, term):
        if isinstance(term, int):
            self.put(str(term))
        else:
            self.name(term)

    def expression(self, expression):
        expression["line"] = self.line()
        for at, term in enumerate(expression["terms"]):
            if at:
                self.put("+")
            self.term(term)

    def type(self, it):
        kind = it["kind"]
        if kind == "basic":
            self.put(it["text"])
        elif kind == "name":
            self.name(it["name"])
        elif kind == "sequence":
            self.put("sequence", "<")
            self.type(it["element"])
            if it["bound"]:
                self.put(",")
                self.expression(it["bound"])
            self.put(">")
        else:
            self.definition(it)

    def declarator(self, declarator):
        self.identifier(declarator["identifier"])
        for size in declarator["sizes"]:
            self.put("[")
            self.expression(size)
            self.put("]")

    def declarators(self, declarators):
        for at, declarator in enumerate(declarators):
            if at:
                self.put(",")
                self.end_line()
            self.declarator(declarator)

    def body(self, parts, put):
        self.put("{")
        self.end_line()
        for part in parts:
            put(part)
            self.end_line()
        self.put("}")

    def member(self, member):
        self.type(member["type"])
        self.end_line()
        self.declarators(member["declarators"])
        self.put(";")

    def case(self, case):
        self.put("case")
        self.term(case["label"])
        self.put(":")
        self.type(case["type"])
        self.end_line()
        self.declarator(case["declarator"])
        self.put(";")

    def parameters(self, parameters):
        for at, parameter in enumerate(parameters):
            if at:
                self.put(",")
                self.end_line()
            self.put("in")
            self.type(parameter["type"])
            self.identifier(parameter["identifier"])

    def raises(self, word, names):
        if names:
            self.end_line()
            self.put(word, "(")
            self.names(names)
            self.put(")")

    def full(self, it):
        """A definition or an export, with its end."""
        if it["kind"] in ("prefix", "id", "version"):
            self.pragma(it)
        else:
            self.definition(it)
            self.put(";")

    def pragma(self, it):
        if self.lines[-1]:
            self.end_line()
        it["line"] = self.line()
        if it["kind"] == "prefix":
            self.put("#pragma", "prefix", f'"{it["text"]}"')
        else:
            name = ("::" if it["name"].is_rooted else "") + "::".join(it["name"].words)
            text = it["text"] if it["kind"] == "version" else f'"{it["text"]}"'
            self.put("#pragma", {"id": "ID"}.get(it["kind"], it["kind"]), name, text)
        self.end_line()

    def definition(self, it):
        getattr(self, it["kind"].replace(" ", "_"))(it)

    def typedef(self, it):
        self.put("typedef")
        self.type(it["type"])
        self.end_line()
        self.declarators(it["declarators"])

    def struct(self, it):
        self.put("struct")
        self.identifier(it["identifier"])
        self.body(it["members"], self.member)

    def union(self, it):
        self.put("union")
        self.identifier(it["identifier"])
        self.put("switch", "(")
        self.type(it["switch"])
        self.put(")")
        self.body(it["cases"], self.case)

    def enum(self, it):
        self.put("enum")
        self.identifier(it["identifier"])
        self.put("{")
        for at, enumerator in enumerate(it["enumerators"]):
            if at:
                self.put(",")
                self.end_line()
            self.identifier(enumerator)
        self.put("}")

    def exception(self, it):
        self.put("exception")
        self.identifier(it["identifier"])
        self.body(it["members"], self.member)

    def const(self, it):
        self.put("const")
        self.type(it["type"])
        self.end_line()
        self.identifier(it["identifier"])
        self.put("=")
        self.end_line()
        self.expression(it["value"])

    def struct_ahead(self, it):
        self.put("struct")
        self.identifier(it["identifier"])

    def union_ahead(self, it):
        self.put("union")
        self.identifier(it["identifier"])

    def interface_ahead(self, it):
        self.put("interface")
        self.identifier(it["identifier"])

    def interface(self, it):
        self.put("interface")
        self.identifier(it["identifier"])
        if it["bases"]:
            self.put(":")
            self.end_line()
            self.names(it["bases"])
        self.body(it["exports"], self.full)

    def module(self, it):
        self.put("module")
        self.identifier(it["identifier"])
        self.body(it["definitions"], self.full)

    def operation(self, it):
        if it["result"]:
            self.type(it["result"])
        else:
            self.put("void")
        self.end_line()
        self.identifier(it["identifier"])
        self.put("(")
        self.parameters(it["parameters"])
        self.put(")")
        self.raises("raises", it["raises"])

    def attribute(self, it):
        self.put("attribute")
        self.type(it["type"])
        for at, identifier in enumerate(it["identifiers"]):
            if at:
                self.put(",")
            self.end_line()
            self.identifier(identifier)
        self.raises("getraises", it["raises"])


def make(seed):
    """A file made from a seed: its definitions and its text."""
    definitions = Maker(seed).file()
    printer = Printer()
    for definition in definitions:
        printer.full(definition)
        printer.end_line()
    return definitions, printer.text()
