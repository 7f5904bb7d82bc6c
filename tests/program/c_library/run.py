"""Builds the library for C by c/build, and calls it from C, C++, Rust and Python.

What is proved already isn't proved again. The program that is compared with is the one that `./idlc` runs. Of clang,
valgrind, the sanitizers and rustc what is installed is used.
"""
import importlib.util
import json
import random
import re
import shutil
import sys

from driver.suite import Count
from driver.workspace import TOP

PROGRAM = TOP / "crates" / "idlc_main" / "out" / "idlc_main"
NAMES = [
    "idlc_compile", "idlc_decode", "idlc_decode_text", "idlc_encode", "idlc_encode_text", "idlc_find", "idlc_free",
    "idlc_load", "idlc_name", "idlc_read_message", "idlc_share", "idlc_write_reply", "idlc_write_request",
]
SOURCE = "struct S { octet a; unsigned long b; string c; };\n"
TAPE, OCTETS = "0700000001000000026869", "070000000000000100000003686900"
TEXT = '{"a":7,"b":1,"c":"hi"}'
# the same with a text of a hundred letters: more than goes without memory
LONG_TAPE, LONG_OCTETS = "070000000100000064" + "68" * 100, "070000000000000100000065" + "68" * 100 + "00"
# what messages.c prints: a request and a reply with the value of OCTETS, in big and in little order
MESSAGES = "".join(f"^{line}\\n" for line in (
    "47494f5001020000" "00000033" "00000001" "03000000" "0000" "0000" "00000001" "4b" "000000" "00000005" "70696e6700"
    "000000" "00000000" + OCTETS,
    "47494f5001020101" "1b000000" "07000000" "01000000" "00000000" "07000000" "01000000" "03000000" "686900",
)) + r"[1-9]\d* [1-9]\d* [1-9]\d*$"
STRICT = ["-Wall", "-Wextra", "-Werror", "-pedantic"]
WRAPS = ["-Wl,--wrap=malloc", "-Wl,--wrap=realloc", "-Wl,--wrap=free"]
SANITIZERS = ["-g", "-fsanitize=address,undefined", "-fno-sanitize-recover=all"]
COMPILERS = [cc for cc in ("gcc", "clang") if shutil.which(cc)]
TABLES, VALUES = 250, 1000


def module(name, path):
    """The module of a file."""
    sys.path.insert(0, str(path.parent))
    spec = importlib.util.spec_from_file_location(name, path)
    found = importlib.util.module_from_spec(spec)
    spec.loader.exec_module(found)
    return found


class Library:
    """The library as it was built, and programs that use it."""

    def __init__(self, test):
        self.test = test
        self.room = test.room
        self.folder = test.room / "c"
        self.count = Count(0, [])

    def call(self, what, *words):
        """Runs a command that has to end with 0. Returns what it said, or None."""
        done = self.test.call(words, cwd=self.room)
        self.count.add(done.status == 0, f"{what}: status {done.status}, {(done.out + done.err)[-2000:]}")
        return done.out if done.status == 0 else None

    def expect(self, what, wanted, *words):
        said = self.call(what, *words)
        self.count.add(said == wanted, f"{what}: {said!r}, wanted {wanted!r}")

    def compile(self, cc, source, program, *flags, folder=None):
        archive = (folder or self.folder) / "libidlc.a"
        words = [*STRICT, f"-I{self.folder}", f"-I{TOP}/c/examples", source, archive, *flags]
        self.call(f"{cc} {source.name}", cc, *words, "-o", self.room / program)

    def table(self, api, octets):
        return api.Table(octets, str(self.folder / "libidlc.so.0"))


def check_header(library):
    """The header alone, as C and as C++, by each compiler that is there."""
    alone = library.room / "alone.c"
    alone.write_text("#include <idlc.h>\n#include <idlc.h>\nint main(void) { return sizeof(struct idlc_table) != 16; }\n")
    for cc in COMPILERS:
        library.call(cc, cc, *STRICT, "-std=c99", f"-I{library.folder}", alone, "-o", library.room / "alone")
        library.call(f"{cc} alone", library.room / "alone")
    library.call("g++", "g++", *STRICT, "-x", "c++", f"-I{library.folder}", "-c", alone, "-o", library.room / "alone.o")


def check_documents(library):
    """The program at the head of the header, and the lines of Python in docs/EMBEDDING.md."""
    comment = (TOP / "c" / "idlc.h").read_text().partition("*/")[0]
    lines = [line[7:] for line in comment.splitlines() if line.startswith(" *     ")]
    body = "".join(f"{line}\n" for line in lines)
    head = "#include <idlc.h>\n#include <stdio.h>\n#include <stdlib.h>\nint main(void)\n{\n"
    (library.room / "head.c").write_text(f"{head}{body}return 0;\n}}\n")
    for cc in COMPILERS:
        words = [flag for flag in STRICT if flag != "-pedantic"]
        library.call(f"{cc} head", cc, *words, f"-I{library.folder}", "head.c", library.folder / "libidlc.a", "-o", "head")
        library.expect(f"head {cc}", "00000003fffffffc\n", "sh", "-c", "./head | od -An -v -tx1 | tr -d ' '")
    document = (TOP / "docs" / "EMBEDDING.md").read_text().partition("In Python:")[2].partition("##")[0]
    session = "".join(f"{line.strip()}\n" for line in document.splitlines()).replace("dist/c", str(library.folder))
    found = {}
    exec(session, found)
    value = {"x": 3, "y": -4}
    library.count.add(found["octets"].hex() == "00000003fffffffc" and found["value"] == value, "Python of EMBEDDING.md")


def check_names(library):
    """The shared object has these names and no others, and wants none but the C library's."""
    said = library.call("nm", "nm", "-D", "--defined-only", library.folder / "libidlc.so.0") or ""
    found = sorted(re.findall(r"^[0-9a-f]+ T (\w+)", said, re.MULTILINE))
    library.count.add(found == NAMES, f"names: {found}")
    release = f'#define IDLC_RELEASE "{(TOP / "VERSION").read_text().strip()}"'
    library.count.add(release in (library.folder / "idlc.h").read_text(), f"the header that was made lacks {release}")
    header = (TOP / "c" / "idlc.h").read_text()
    library.count.add(sorted(set(re.findall(r"^(?:uint32_t|void) (idlc_\w+)\(", header, re.MULTILINE))) == NAMES, "header")


def check_numbers(library):
    """Each number of the header is one that the program explains."""
    # but for the kinds of messages
    header = re.sub(r"enum {\n    IDLC_REQUEST.*?};", "", (TOP / "c" / "idlc.h").read_text(), flags=re.DOTALL)
    numbers = {int(number) for number in re.findall(r"IDLC_\w+ = (\d+)", header)}
    said = library.call("explain", PROGRAM, "explain") or ""
    known = {int(number) for number in re.findall(r"^(\d+) ", said, re.MULTILINE)}
    library.count.add(numbers - {0} <= known, f"numbers: {sorted(numbers - known)}")


def check_calls(library, table):
    """All calls from C by each compiler, with each allocation refused in turn; sanitized; under valgrind."""
    words, small = [table, "S", LONG_TAPE, LONG_OCTETS], [table, "S", TAPE, OCTETS]
    for cc in COMPILERS:
        for name, given in (("calls", words), ("calls", small), ("texts", []), ("messages", [])):
            library.compile(cc, library.test.folder / f"{name}.c", f"{name}-{cc}", *WRAPS)
            said = library.call(f"{name} {cc}", library.room / f"{name}-{cc}", *given) or ""
            wanted = {"calls": r"^S \d+$", "texts": r"^[1-9]\d* [1-9]\d* [1-9]\d*$", "messages": MESSAGES}[name]
            library.count.add(re.search(wanted, said, re.MULTILINE), f"{name} {cc}: {said}")
        library.compile(cc, library.test.folder / "threads.c", f"threads-{cc}", "-pthread")
        library.call(f"threads {cc}", library.room / f"threads-{cc}")
    library.compile("gcc", library.test.folder / "calls.c", "calls-sane", *WRAPS, *SANITIZERS)
    library.call("calls sanitized", library.room / "calls-sane", *words)
    for name in ("texts", "messages"):
        library.compile("gcc", library.test.folder / f"{name}.c", f"{name}-sane", *WRAPS, *SANITIZERS)
        library.call(f"{name} sanitized", library.room / f"{name}-sane")
    if shutil.which("valgrind"):
        checked = ["valgrind", "-q", "--error-exitcode=9", "--leak-check=full"]
        library.call("valgrind calls", *checked, library.room / "calls-gcc", *words)
        for name in ("texts", "messages"):
            library.call(f"valgrind {name}", *checked, library.room / f"{name}-gcc")


def check_other_backend(library, table):
    """The same calls over what Rattle's own compiler makes in the place of LLVM."""
    folder = library.room / "other"
    if library.call("build by rattle", TOP / "c" / "build", "--folder", folder, "--backend", "rattle") is None:
        return
    for name, given in (("calls", [table, "S", LONG_TAPE, LONG_OCTETS]), ("texts", []), ("messages", [])):
        library.compile("gcc", library.test.folder / f"{name}.c", f"{name}-other", *WRAPS, folder=folder)
        library.call(f"{name} by rattle", library.room / f"{name}-other", *given)


def check_examples(library, table):
    """The examples in C, C++ and Rust against the program."""
    library.compile("gcc", TOP / "c" / "examples" / "encode.c", "encode")
    for order in ("big", "little"):
        for pos in ("0", "3", "18446744073709551615"):
            words = ["S", order, pos, TAPE]
            wanted = library.call("idlc", PROGRAM, "encode", table, *words)
            library.expect(f"encode {order} {pos}", wanted, library.room / "encode", table, *words)
    library.compile("g++", library.test.folder / "use.cpp", "use", "-std=c++17")
    library.expect("C++", f"{OCTETS}\n15 {TEXT}\n", library.room / "use", table, "S")
    if shutil.which("rustc"):
        words = ["-D", "warnings", "-L", library.folder, "-l", "static=idlc", TOP / "c" / "examples" / "idlc.rs"]
        library.call("rustc", "rustc", "--edition", "2021", *words, "-o", library.room / "rust")
        wanted = f"{OCTETS}\n15 {TEXT}\n"
        library.expect("Rust", wanted, library.room / "rust", library.room / "s.idl", "S", '{"c":"hi","a":7,"b":1}')


def refusal(api, call):
    """The number, line and column of what is refused, None where nothing is."""
    try:
        call()
        return None
    except api.Refused as refused:
        return refused.number, refused.line, refused.column


def check_python(library, api, table):
    """The class of Python: by names where IDL was compiled, by places where a table was loaded."""
    shared = str(library.folder / "libidlc.so.0")
    named, loaded = api.Table.compile(SOURCE, shared), library.table(api, table.read_bytes())
    value, octets = {"a": 7, "b": 1, "c": "hi"}, bytes.fromhex(OCTETS)
    library.count.add(named.encode("S", value) == octets, "Python encodes")
    library.count.add(loaded.encode("S", [7, 1, "hi"]) == octets, "Python encodes by places")
    library.count.add(named.decode("S", octets + b"more") == (value, 15), "Python decodes")
    library.count.add(loaded.decode("S", octets) == ([7, 1, "hi"], 15), "Python decodes by places")
    library.count.add(loaded.encode_tape("S", bytes.fromhex(TAPE)) == octets, "Python encodes a tape")
    library.count.add(loaded.decode_tape("S", octets) == (bytes.fromhex(TAPE), 15), "Python decodes a tape")
    other = named.another()
    del named
    named = other
    library.count.add(named.encode("S", value) == octets, "Python shares")
    rows = [
        (lambda: loaded.encode_tape("S", b""), (60, 0, 0)),
        (lambda: loaded.encode("T", 1), (44, 0, 0)),
        (lambda: loaded.encode("S", value), (118, 1, 1)),
        (lambda: named.encode("S", {"a": 256}), (111, 1, 7)),
        (lambda: named.decode("S", octets[:-1]), (60, 0, 0)),
        (lambda: library.table(api, b""), (50, 0, 0)),
        (lambda: api.Table.compile("struct S {\n longer x; };", shared), (20, 2, 0)),
    ]
    for place, (call, wanted) in enumerate(rows):
        library.count.add(refusal(api, call) == wanted, f"Python refuses {place}: {refusal(api, call)}")


def answer(api, call):
    """What a call gives, as the program prints it, or that it is refused."""
    try:
        return "0 " + call()
    except api.Refused as refused:
        return "refused" if 60 <= refused.number <= 68 else str(refused.number)


def asked(api, table, question):
    """The answer to a question of examples/random_tables.py."""
    what, name, order, pos, *digits = question.split(" ")
    octets, place = bytes.fromhex("".join(digits)), {"little": order == "little", "pos": int(pos)}
    if what == "encode":
        return answer(api, lambda: table.encode_tape(name, octets, **place).hex())

    def decoded():
        tape, taken = table.decode_tape(name, octets, **place)
        return f"{taken} {tape.hex()}"

    return answer(api, decoded)


def check_tables(library, api):
    """Tables of random types and programs: each answer is that of plain CDR, and some are compared with the program's."""
    tables = module("random_tables", TOP / "examples" / "random_tables.py")
    file = library.room / "random.table"
    for number in range(0, 2 * TABLES, 2):
        octets, _, questions = tables.case("c", number)
        table = library.table(api, octets)
        file.write_bytes(octets)
        for question, wanted in questions:
            said = asked(api, table, question)
            library.count.add(said.rstrip() == wanted.rstrip(), f"table {number}: {question}: {said}, wanted {wanted}")
        for question, _ in random.Random(number).sample(questions, min(4, len(questions))):
            what, name, *rest = question.split(" ")
            done = library.test.call([PROGRAM, what, file, name, *rest], cwd=library.room)
            program = f"0 {done.out}".rstrip() if done.status == 0 else "refused"
            library.count.add(asked(api, table, question).rstrip() == program, f"table {number}: {question}: {done.out}")
    for number in range(1, 2 * TABLES, 2):
        octets, _, _ = tables.case("c", number)
        file.write_bytes(octets)
        done = library.test.call([PROGRAM, "check", file], cwd=library.room)
        told = refusal(api, lambda: library.table(api, octets))
        wanted = None if done.status == 0 else (int(re.match(r"idlc: (\d+) ", done.err)[1]), 0, 0)
        library.count.add(told == wanted, f"table {number}: {told}, wanted {done.err}")


def check_values(library, api):
    """Random values of random IDL, as texts: the octets are those of plain CDR and of the program, and they come back."""
    values, rng = module("values", TOP / "tests" / "text_values" / "values.py"), random.Random(54)
    source, shared = library.room / "random.idl", str(library.folder / "libidlc.so.0")
    for _ in range(VALUES // 20):
        declared = values.types(rng, 20)
        source.write_text("".join(f"{it.declared}\n" for it in declared))
        table = api.Table.compile(source.read_text(), shared)
        for kind in declared:
            value, order, pos = kind.random(rng), rng.choice(["big", "little"]), rng.choice([0, 1, 3, 12, 2**40 + 5])
            octets = values.Octets(order, pos)
            kind.write(octets, value)
            place = {"little": order == "little", "pos": pos}
            library.count.add(table.encode(kind.idl, value, **place) == octets.all, f"{kind.declared} {value}")
            back, taken = table.decode(kind.idl, bytes(octets.all), **place)
            library.count.add(back == value and taken == len(octets.all), f"{kind.declared} {value}: {back}")
            words = ["encode", source, kind.idl, order, str(pos), f"--text={json.dumps(value)}"]
            program = library.test.call([PROGRAM, *words], cwd=library.room)
            library.count.add(program.out == f"{octets.all.hex()}\n", f"{kind.declared} {value}: {program.out}{program.err}")


def run(test):
    library = Library(test)
    if library.call("build", TOP / "c" / "build", "--folder", library.folder) is None:
        return library.count
    (test.room / "s.idl").write_text(SOURCE)
    table = test.room / "s.table"
    library.call("idlc", TOP / "idlc", "compile", test.room / "s.idl", "-o", table)
    api = module("idlc", TOP / "c" / "examples" / "idlc.py")
    check_header(library)
    check_documents(library)
    check_names(library)
    check_numbers(library)
    check_calls(library, table)
    check_other_backend(library, table)
    check_examples(library, table)
    check_python(library, api, table)
    check_tables(library, api)
    check_values(library, api)
    return library.count
