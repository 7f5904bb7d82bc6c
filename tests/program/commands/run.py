"""Runs the proved program on files: what it prints on both streams, its status, and what it writes.

`./idlc` proves and builds what is missing of the program.
"""
from driver.suite import Count
from driver.workspace import TOP

PROGRAM = TOP / "crates" / "idlc_main" / "out" / "idlc_main"

# an interface P, and a name without a routine
P_TABLE = "49444c54010000000000000000000000010000000150000000094944" "4c3a503a312e300000000000000000000000000000000000000000"
WRONG_TABLE = "49444c540100000001010000000100000001530000000000000000000000000000000000000000"
REFERENCE = (
    "IOR:000000000000000a49444c3a503a312e30000000000000010000000000000020"
    "000102000000000a3132372e302e302e31000af9000000014b00000000000000"
)

SAMPLE = """#pragma prefix "acme.org"
module M { struct S { octet a; unsigned long b; string c; }; };
interface P { void ping(); };
"""

# how many refusals have a text
EXPLAINED = 106

# what a source is refused with
REFUSED = [
    (b"\xff", "1 BadChar line 0"),
    (b"struct S { long a; };\nstruct T { S b; U c; };", "20 Unknown line 2"),
    (b"const long X = 1 << 40;", "26 BadConstant line 1"),
    (
        b"union U switch(boolean) {\ncase TRUE: long a; case FALSE: long b;\ndefault: long c;};",
        "33 DefaultNeedless line 3",
    ),
]


class Runs:
    """Runs of the program in a scratch folder, counted."""

    def __init__(self, test):
        self.test = test
        self.folder = test.room / "files"
        self.folder.mkdir()
        self.count = Count(0, [])

    def write(self, name, octets):
        (self.folder / name).write_bytes(octets)

    def run(self, *words):
        return self.test.call([PROGRAM, *words], cwd=self.folder)

    def expect(self, status, out, err, *words):
        """A run with these words ends with the status, and each stream has one line, or none where it is empty."""
        done = self.run(*words)
        wanted = (status, out and f"{out}\n", err and f"{err}\n")
        is_right = (done.status, done.out, done.err) == wanted
        self.count.add(is_right, f"{' '.join(map(str, words))}: status {done.status}, {done.out}{done.err}")

    def expect_same(self, one, other):
        is_right = (self.folder / one).read_bytes() == (self.folder / other).read_bytes()
        self.count.add(is_right, f"{one} and {other} differ")


def references(runs):
    at = ("--host", "127.0.0.1", "--port", "2809", "--object")
    runs.write("p.table", bytes.fromhex(P_TABLE))
    runs.write("wrong.table", bytes.fromhex(WRONG_TABLE))
    runs.expect(0, REFERENCE, "", "ior", "p.table", *at, "K=P")
    runs.expect(0, REFERENCE, "", "ior", "--object=K=P", "--port=02809", "p.table", "--host=127.0.0.1")
    runs.expect(1, "", "idlc: no interface Q", "ior", "p.table", *at, "K=Q")
    runs.expect(1, "", "idlc: no interface P=P", "ior", "p.table", *at, "K=P=P")
    runs.expect(1, "", "idlc: bad object", "ior", "p.table", *at, "=P")
    runs.expect(1, "", "idlc: 84 NoRoutine node 0", "ior", "wrong.table", *at, "P")
    runs.expect(3, "", "idlc: cannot read none.table", "ior", "none.table", *at, "P")
    runs.write("p.idl", b"interface P { void ping(); };")
    runs.expect(0, "accepted 20", "", "compile", "p.idl", "-o", "p2.table")
    runs.expect(0, REFERENCE, "", "ior", "p2.table", *at, "K=P")


LISTED = """type IDL:P:1.0
order big
profile 0 IIOP 1.2 order big
  host 127.0.0.1
  port 2809
  key 4b
  key as text K"""


URL_DIGITS = "0000000000000001" "0000000000000001" "0000000000000020" "000102000000000a6c6f63616c686f7374000fa0000000014b00000000000000"
LISTED_URL = f"""IOR:{URL_DIGITS}
type 
order big
profile 0 IIOP 1.2 order big
  host localhost
  port 4000
  key 4b
  key as text K"""


def listed_references(runs):
    """What references say, of a word, of a file, and of standard input, which is empty here."""
    runs.write("p.ior", REFERENCE.encode() + b"\r\n")
    runs.write("none.ior", b"IOR:\xff")
    runs.expect(0, LISTED, "", "reference", REFERENCE)
    runs.expect(0, LISTED, "", "reference", REFERENCE.lower())
    runs.expect(0, LISTED, "", "reference", "@p.ior")
    runs.expect(1, "", "idlc: 94 BadIor", "reference", REFERENCE[:-2])
    runs.expect(1, "", "idlc: 94 BadIor", "reference", "p.ior")
    runs.expect(1, "", "idlc: 94 BadIor", "reference", "@none.ior")
    runs.expect(1, "", "idlc: 94 BadIor", "reference", "-")
    runs.expect(3, "", "idlc: cannot read missing.ior", "reference", "@missing.ior")
    runs.write("url.ior", b"\tcorbaloc:iiop:1.0@localhost:4000/K\n")
    runs.expect(0, LISTED_URL, "", "reference", "corbaloc::localhost:4000/K")
    runs.expect(0, LISTED_URL, "", "reference", "@url.ior")
    runs.expect(1, "", "idlc: 130 BadCorbaloc", "reference", "corbaloc:rir:/K")


def compiled_files(runs):
    """IDL files compiled, their tables checked, listed and upgraded, and a value both ways."""
    runs.write("s.idl", SAMPLE.encode())
    runs.expect(0, "accepted 22", "", "compile", "s.idl", "-o", "s.table")
    runs.expect(0, "accepted 22", "", "check", "s.table")
    runs.expect(0, "accepted 22", "", "upgrade", "s.table", "-o", "t.table")
    runs.expect_same("s.table", "t.table")
    octets, tape = "070000000000000100000003686900", "0700000001000000026869"
    runs.expect(0, octets, "", "encode", "s.table", "M::S", "big", "0", tape)
    runs.expect(0, f"15 {tape}", "", "decode", "s.table", "M::S", "big", "0", "07FFEEDD0000000100000003686900AABB")
    listed = runs.run("show", "s.table").out
    runs.count.add("\nname M::S node 14 program 1 routine " in f"\n{listed}", f"show s.table: {listed}")
    runs.write("empty.idl", b"")
    runs.expect(0, "accepted 14", "", "compile", "empty.idl", "-o", "empty.table")
    runs.expect(0, "accepted 14", "", "compile", "empty.idl", "-o", "builtin")
    runs.expect_same("empty.table", "builtin")
    runs.expect(0, "accepted 20", "", "compile", TOP / "examples/idl/echo.idl", "-o", "echo.table")
    made = runs.run("compile", TOP / "examples/idl/naming.idl", "-o", "naming.table").out
    runs.expect(0, made.rstrip("\n"), "", "check", "naming.table")


def refusals(runs):
    """Each is told before anything is written."""
    for source, line in REFUSED:
        runs.write("refused.idl", source)
        runs.expect(1, "", f"idlc: {line}", "compile", "refused.idl", "-o", "none.table")
    events = TOP / "examples/idl/events.idl"
    runs.expect(1, "", "idlc: 12 LeftOut line 6", "compile", events, "-o", "none.table")
    runs.expect(3, "", "idlc: cannot read none.idl", "compile", "none.idl", "-o", "none.table")
    runs.expect(3, "", "idlc: cannot write no/folder", "compile", "empty.idl", "-o", "no/folder")
    runs.count.add(not (runs.folder / "none.table").exists(), "none.table was written")


def explanations(runs):
    texts = 0
    for number in range(256):
        done = runs.run("explain", number)
        has_text = done.status == 0 and done.out.startswith(f"{number} ")
        texts += has_text
        has_none = (done.status, done.out, done.err) == (2, "", f"idlc: no refusal has the number {number}\n")
        runs.count.add(has_text or has_none, f"explain {number}: status {done.status}, {done.out}{done.err}")
    runs.count.add(texts == EXPLAINED, f"{texts} refusals have a text")


def dashed_texts(runs):
    """The word behind `--text` of `encode` is its value, also where it begins with a minus."""
    runs.write("long.idl", b"typedef long T;\n")
    place = ("encode", "long.idl", "T", "big", "0")
    runs.expect(0, "fffffffb", "", *place, "--text", "-5")
    runs.expect(0, "fffffffb", "", *place, "--text=-5")
    runs.expect(0, "fffffffb", "", "encode", "--text", "-5", *place[1:])
    for word in ("--order", "--help", "--", "-x"):
        runs.expect(1, "", "idlc: 110 NotJson line 1 column 1", *place, "--text", word)
    one = "idlc: a value is HEX or --text TEXT"
    runs.expect(2, "", one, *place, "fffffffb", "--text", "-5")
    for words in (
        (*place, "--text"),
        (*place, "--text", "-5", "--text", "-6"),
        (*place, "--", "--text", "-5"),
        ("decode", *place[1:], "fffffffb", "--text", "-5"),
        ("check", "--text", "-5"),
    ):
        done = runs.run(*words)
        is_usage = done.status == 2 and not done.out and done.err
        runs.count.add(is_usage, f"{' '.join(words)}: status {done.status}, {done.out}{done.err}")


def helps(runs):
    """What is told of T, and of IDL that isn't served."""
    for command in ("check", "show", "encode", "decode", "ior", "serve", "call", "dump"):
        done = runs.run(command, "--help")
        runs.count.add(done.status == 0 and "an IDL file" in done.out, f"{command} --help: {done}")
    done = runs.run("compile", "--help")
    runs.count.add(done.status == 0 and "operator ~" in done.out, f"compile --help: {done}")


def run(test):
    built = test.call([TOP / "idlc", "check", "builtin"])
    if built.status:
        return Count(0, [built.out + built.err])
    runs = Runs(test)
    references(runs)
    listed_references(runs)
    compiled_files(runs)
    refusals(runs)
    explanations(runs)
    dashed_texts(runs)
    helps(runs)
    return runs.count
