"""Runs `idl-cpp`: what it writes with the preprocessors that are here, with one that prints given lines, and with none;
the ids that the program gives of it; the rules for make and CMake that docs/FROM_OTHER_COMPILERS.md has.

`tests/run idl_cpp/texts` needs no program. For the rest `./idlc` proves and builds what is missing of it.
"""
import importlib.util
import os
import pathlib
import re
import shutil
import subprocess

from driver.suite import Count
from driver.workspace import TOP


def sibling(name):
    """The module of that name in this folder."""
    spec = importlib.util.spec_from_file_location(name, pathlib.Path(__file__).with_name(f"{name}.py"))
    module = importlib.util.module_from_spec(spec)
    spec.loader.exec_module(module)
    return module


CASES = sibling("cases").CASES

PROGRAM = TOP / "crates" / "idlc_main" / "out" / "idlc_main"
IDL_CPP = TOP / "idl-cpp"
PREPROCESSORS = [words for words in ("cpp", "gcc -E", "clang -E") if shutil.which(words.split()[0])]

MARKER = re.compile(r'# (\d+) "((?:[^"\\]|\\.)*)"[ \d]*')
PREFIX = re.compile(r'#pragma prefix "[^"]*"')


class Runs:
    """Runs in a scratch folder, counted."""

    def __init__(self, test, name):
        self.test = test
        self.folder = test.room / name
        self.folder.mkdir()
        self.count = Count(0, [])

    def write(self, files):
        for name, text in files.items():
            path = self.folder / name
            path.parent.mkdir(exist_ok=True)
            path.write_text(text)

    def run(self, command, *words, cpp=None, stdin=None):
        env = {**os.environ, "CPP": cpp or ""}
        return self.test.call([command, *words], cwd=self.folder, env=env, stdin=stdin)

    def check(self, what, wanted, got):
        self.count.add(got == wanted, f"{what}: {got!r}, wanted {wanted!r}")


def told(text):
    """The lines but markers and empty ones, each with its file and number, which a pragma `prefix` goes without."""
    found, file, number = [], "", 1
    for line in text.splitlines():
        marker = MARKER.fullmatch(line)
        if marker:
            number, file = int(marker[1]), marker[2].rpartition("/")[2]
            continue
        if PREFIX.fullmatch(line):
            found.append(line)
        elif line.strip():
            found.append(f"{file}:{number} {line.strip()}")
        number += 1
    return found


def without_put(plain, text):
    """The text without the pragmas that were put in before a marker where the plain one has none, and without a marker
    that was put in behind one."""
    found, lines, left = [], text.splitlines(True), plain.splitlines(True)
    for at, line in enumerate(lines):
        if left and line == left[0]:
            found.append(left.pop(0))
            continue
        is_pragma = PREFIX.fullmatch(line.rstrip("\n")) and at + 1 < len(lines) and MARKER.match(lines[at + 1])
        is_marker = MARKER.match(line) and PREFIX.fullmatch(lines[at - 1].rstrip("\n"))
        if not (is_pragma or is_marker):
            found.append(line)
    return "".join(found)


def cases(runs):
    """Each case with each preprocessor: the lines with their places, and nothing of the plain text lost or moved."""
    for case in CASES:
        case_runs = Runs(runs.test, f"texts of {case.name}")
        case_runs.write(case.files)
        for cpp in PREPROCESSORS:
            what = f"{case.name}, {cpp}"
            done = case_runs.run(IDL_CPP, *case.words, "a.idl", cpp=cpp)
            plain = case_runs.run(*cpp.split(), "-undef", *case.words, "-x", "c", "a.idl").out
            case_runs.check(what, (0, ""), (done.status, done.err))
            case_runs.check(what, [line.strip() for line in case.told.strip().splitlines()], told(done.out))
            case_runs.check(f"{what}: the rest", plain, without_put(plain, done.out))
            if case.is_plain:
                case_runs.check(f"{what}: nothing put in", plain, done.out)
        runs.count.passed += case_runs.count.passed
        runs.count.failures += case_runs.count.failures


# Answers the question for flags, else prints the file `printed`.
PRINTER = """#!/bin/sh
for last in "$@"; do :; done
if [ "$last" = - ]; then printf '# 1 "/dev/null" 1\\n# 2 "<stdin>" 2\\n'; else cat printed; fi
"""

# what a preprocessor prints, and what comes out, octet by octet
PRINTED = [
    ("", ""),
    ("interface A {};", "interface A {};"),
    # a file of the system, flags behind 1 and 2, no line end at the end
    (
        '#pragma prefix "a"\n# 1 "s.idl" 1 3 4\ninterface S {};\n# 2 "a.idl" 2 3\ninterface A {};',
        '#pragma prefix "a"\n#pragma prefix ""\n# 1 "s.idl" 1 3 4\ninterface S {};\n#pragma prefix "a"\n'
        '# 2 "a.idl" 2 3\ninterface A {};',
    ),
    # a marker without flags enters nothing, even if it names another file; a file that wasn't entered isn't left
    (
        '# 1 "a.idl"\n#pragma prefix "a"\n# 20 "b.idl"\ninterface B {};\n# 3 "a.idl" 2\ninterface A {};\n',
        '# 1 "a.idl"\n#pragma prefix "a"\n# 20 "b.idl"\ninterface B {};\n# 3 "a.idl" 2\ninterface A {};\n',
    ),
    # a number of lines that ends in 1 or 2 is no flag, and a marker in a text is none
    (
        '#pragma prefix "a"\n# 1 "b.idl" 31\nconst string S = "# 1 \\"c.idl\\" 1";\n# 2 "b.idl" 12\n',
        '#pragma prefix "a"\n# 1 "b.idl" 31\nconst string S = "# 1 \\"c.idl\\" 1";\n# 2 "b.idl" 12\n',
    ),
    # pragmas of another form than idlc's set no prefix
    (
        '# 1 "b.idl" 1\n#pragma prefix b\n#pragma Prefix "b"\n#pragma prefixes "b"\n//#pragma prefix "b"\n# 2 "a.idl" 2\n',
        '# 1 "b.idl" 1\n#pragma prefix b\n#pragma Prefix "b"\n#pragma prefixes "b"\n//#pragma prefix "b"\n# 2 "a.idl" 2\n',
    ),
    # a prefix inside braces is none of the file's, and a brace in another pragma is none
    (
        '#pragma prefix "a"\nmodule M {\n#pragma prefix "m"\n};\n#pragma note {\n# 1 "b.idl" 1\n# 6 "a.idl" 2\n',
        '#pragma prefix "a"\nmodule M {\n#pragma prefix "m"\n};\n#pragma note {\n#pragma prefix ""\n# 1 "b.idl" 1\n'
        '#pragma prefix "a"\n# 6 "a.idl" 2\n',
    ),
    # octets that aren't ASCII, and carriage returns, stay
    (
        '# 1 "b.idl" 1\r\n#pragma prefix "\xe9"\r\n# 2 "a.idl" 2\r\n',
        '# 1 "b.idl" 1\r\n#pragma prefix "\xe9"\r\n#pragma prefix ""\n# 2 "a.idl" 2\r\n',
    ),
    # the pragma waits for the end of a definition, and a marker behind it says the next line
    (
        '# 1 "b.idl" 1\n#pragma prefix "b"\nmodule M {\n# 2 "a \\"1\\".idl" 2\n\n};\n\ninterface A {};\n',
        '# 1 "b.idl" 1\n#pragma prefix "b"\nmodule M {\n# 2 "a \\"1\\".idl" 2\n\n};\n#pragma prefix ""\n'
        '# 4 "a \\"1\\".idl"\n\ninterface A {};\n',
    ),
]


def printed(runs):
    """What comes of lines that a preprocessor may print."""
    runs.write({"printer": PRINTER})
    (runs.folder / "printer").chmod(0o755)
    for given, wanted in PRINTED:
        (runs.folder / "printed").write_bytes(given.encode("latin-1"))
        env = {**os.environ, "CPP": "./printer"}
        done = subprocess.run([IDL_CPP, "a.idl"], cwd=runs.folder, env=env, capture_output=True)
        runs.check(f"printed {given!r}", (0, wanted.encode("latin-1"), b""), (done.returncode, done.stdout, done.stderr))


def refusals(runs):
    """One line and a status; what a preprocessor tells itself; nothing on standard output."""
    runs.write({"a.idl": "interface A {};\n", "b.idl": '#include "none.idl"\n', "c.idl": "#error in c\n"})
    for name, flag in (("flagless", "[12]"), ("endless", "2")):
        runs.write({name: f"#!/bin/sh\ncpp \"$@\" | sed '/^#/s/ {flag}$//'\n"})
        (runs.folder / name).chmod(0o755)
    flags = "prints no line markers with the flags 1 and 2"
    for cpp, line in (
        ("none-such -E", "cannot run none-such"),
        ("./a.idl", "cannot run ./a.idl"),
        ("cat", f"cat {flags}"),
        ("false", f"false {flags}"),
        ("cpp -P", f"cpp {flags}"),
        ("./flagless", f"./flagless {flags}"),
        ("./endless", f"./endless {flags}"),
        ("cpp '", "CPP has a quote without its end"),
    ):
        done = runs.run(IDL_CPP, "a.idl", cpp=cpp)
        runs.check(f"CPP={cpp}", (3, "", f"idl-cpp: {line}\n"), (done.status, done.out, done.err))
    for words in ("", "a.idl b.idl", "-Q a.idl", "--help-me a.idl", "a.idl -I", "-MMD a.idl", "-M a a.idl", "-M .d a.idl"):
        done = runs.run(IDL_CPP, *words.split())
        is_line = re.fullmatch(r"idl-cpp: .+\n", done.err)
        runs.count.add((done.status, done.out) == (2, "") and is_line, f"usage {words}: {done}")
    for file, what in (("none.idl", "none.idl"), ("b.idl", "none.idl"), ("c.idl", "in c")):
        done = runs.run(IDL_CPP, file)
        is_its_own = what in done.err and "idl-cpp" not in done.err
        runs.count.add((done.status, done.out) == (1, "") and is_its_own, f"{file}: {done}")
    full = runs.run("bash", "-c", f"'{IDL_CPP}' a.idl >/dev/full")
    runs.check("a full device", (3, "idl-cpp: cannot write\n"), (full.status, full.err))
    done = runs.run(IDL_CPP, "--help")
    runs.count.add(done.status == 0 and "-M FILE" in done.out and not done.err, f"--help: {done}")


def other_inputs(runs):
    """Standard input, a call from another folder by a link, and the dependency file."""
    runs.write({"in/lib.idl": "interface L {};\n", "a.idl": '#include "lib.idl"\ninterface A {};\n'})
    (runs.folder / "link").symlink_to(IDL_CPP)
    lines = ["lib.idl:1 interface L {};", "<stdin>:2 interface A {};"]
    done = runs.run("./link", "-Iin", "-", stdin=runs.folder / "a.idl")
    runs.check("standard input", (0, lines, ""), (done.status, told(done.out), done.err))
    for cpp in PREPROCESSORS:
        for file, target in (("a.table.d", "a.table"), ("in/my a.i.dep", "in/my\\ a.i")):
            done = runs.run(IDL_CPP, "-M", file, "-Iin", "a.idl", cpp=cpp)
            runs.check(f"-M {file}, {cpp}", (0, ""), (done.status, done.err))
            rules = (runs.folder / file).read_text().replace("\\\n", " ").split("\n")
            found = [" ".join(rule.split()) for rule in rules if rule.strip()]
            runs.check(f"-M {file}, {cpp}", [f"{target}: a.idl in/lib.idl", "in/lib.idl:"], found)
            (runs.folder / file).unlink()
    runs.run(IDL_CPP, "-M", "a.table.d", "a.idl")
    runs.check("-M of a file that is refused", False, (runs.folder / "a.table.d").exists())


def id_of(runs, table, name):
    """The repository id in a reference to an object of the interface."""
    at = ("--host", "h", "--port", "1", "--object", f"K={name}")
    reference = runs.run(PROGRAM, "ior", table, *at).out.strip()
    return runs.run(PROGRAM, "reference", reference).out.partition("\n")[0].removeprefix("type ")


def ids(runs):
    """The repository ids of the interfaces of each case, or the fault and its place."""
    for case in CASES:
        case_runs = Runs(runs.test, f"ids of {case.name}")
        case_runs.write(case.files)
        (case_runs.folder / "a.i").write_text(case_runs.run(IDL_CPP, *case.words, "a.idl").out)
        done = case_runs.run(PROGRAM, "compile", "a.i", "-o", "a.table", "--explain")
        if case.fault:
            fault, place = case.fault.split("\n")
            is_told = re.match(rf"idlc: {fault} line \d+\n{place}", done.err)
            runs.count.add(done.status == 1 and is_told, f"{case.name}: {done}")
            continue
        runs.check(f"{case.name}: compile", (0, ""), (done.status, done.err))
        found = {name: id_of(case_runs, "a.table", name) for name in case.ids}
        runs.check(f"{case.name}: ids", case.ids, found)


def ids_without(runs):
    """With a preprocessor alone the prefix goes on, as the document says."""
    case = next(case for case in CASES if case.name == "set within")
    runs.write(case.files)
    (runs.folder / "alone.i").write_text(runs.run("cpp", "-undef", "a.idl").out)
    runs.check("cpp alone", "IDL:acme.com/App/Job:1.0", id_of(runs, "alone.i", "App::Job"))


def rule(language):
    """The rule that the document has in this language."""
    text = (TOP / "docs" / "FROM_OTHER_COMPILERS.md").read_text()
    found = re.search(rf"^```{language}\n(.*?)^```$", text, re.MULTILINE | re.DOTALL)
    return found[1] if found else ""


def builds(runs, file, text, *commands):
    """A rule makes a table, makes nothing where nothing changed, and makes it again where an included file did; one that
    is no longer included may go."""
    runs.write({file: text, "include/lib.idl": '#pragma prefix "lib"\ninterface L {};\n'})
    runs.write({"echo.idl": '#include "lib.idl"\ninterface Echo : L {};\n'})
    runs.write({"bin/idlc": f"#!/bin/sh\necho idlc >>'{runs.folder}/made'\nexec '{PROGRAM}' \"$@\"\n"})
    (runs.folder / "bin/idlc").chmod(0o755)
    (runs.folder / "bin/idl-cpp").symlink_to(IDL_CPP)
    tables, times = [], []

    def make():
        line = " && ".join(commands)
        done = runs.run("env", f"PATH={runs.folder / 'bin'}:{os.environ['PATH']}", "bash", "-c", line)
        runs.check(f"{file}: {line}: {done.out}{done.err}", 0, done.status)
        found = [path.read_bytes() for path in runs.folder.rglob("echo.table")]
        tables.append(found[0] if found else b"")
        times.append((runs.folder / "made").read_text().count("idlc\n"))

    make()
    make()
    change(runs, "include/lib.idl", '#pragma prefix "other"\ninterface L {};\n')
    make()
    change(runs, "echo.idl", "interface Echo {};\n")
    (runs.folder / "include/lib.idl").unlink()
    make()
    runs.check(f"{file}: times made", [1, 1, 2, 3], times)
    has = [[text in table for text in (b"IDL:Echo:1.0", b"IDL:lib/L:1.0", b"IDL:other/L:1.0")] for table in tables]
    runs.check(f"{file}: ids", [[True, True, False]] * 2 + [[True, False, True], [True, False, False]], has)


def change(runs, name, text):
    """Writes a file so that its time is later than that of all that was made."""
    runs.write({name: text})
    newest = max(path.stat().st_mtime for path in runs.folder.rglob("*"))
    os.utime(runs.folder / name, (newest + 1, newest + 1))


def all_builds(test, count):
    """The rules as they are typed in the document, where make and CMake are there."""
    made = ("cmake -S . -B build", "cmake --build build")
    ninja = ("cmake -S . -B build -G Ninja", "cmake --build build")
    for tools, name, language, file, commands in (
        (("make",), "make", "make", "Makefile", ("make echo.table",)),
        (("make", "cmake"), "cmake", "cmake", "CMakeLists.txt", made),
        (("ninja", "cmake"), "ninja", "cmake", "CMakeLists.txt", ninja),
    ):
        if all(map(shutil.which, tools)):
            runs = Runs(test, f"made by {name}")
            builds(runs, file, rule(language), *commands)
            count.passed += runs.count.passed
            count.failures += runs.count.failures


def run(test):
    runs = Runs(test, "files")
    cases(runs)
    printed(runs)
    refusals(runs)
    other_inputs(runs)
    if test.part != "texts":
        built = test.call([TOP / "idlc", "check", "builtin"])
        if built.status:
            return Count(0, [built.out + built.err])
        ids(runs)
        ids_without(runs)
        all_builds(test, runs.count)
    return runs.count
