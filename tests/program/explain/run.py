"""Runs the proved program: `explain`, `--version`, and `compile` of a faulty file on a pipe and on a pseudo terminal.

The texts of faults in the program's crates are held to the table of numbers and names, which `explain` lists.
"""
import os
import pty
import re
import shutil
import subprocess

from driver.suite import Count
from driver.workspace import TOP, crates_below, listed_crates

PROGRAM = TOP / "crates" / "idlc_main" / "out" / "idlc_main"

SOURCE = b'# 1 "shapes.idl"\ninterface Shape {};\n\n# 7 "more.idl" 1\ninterface shape {};\n'
LINE = "idlc: 21 Collides line 5\n"
VIEW = (
    "more.idl:7:11: 'shape' is declared already, as 'Shape'\n"
    "    interface shape {};\n"
    "              ^\n"
    "shapes.idl:1: the first declaration\n"
    "idlc explain 21 says more\n"
)

# the number and the name that begin the text of a fault
TOLD = re.compile(r'#\[error\("(\d+ [A-Z]\w*)')


# as a terminal is told it: places bold, carets red
COLOURED = VIEW.replace("more.idl:7:11", "\x1b[1mmore.idl:7:11\x1b[0m").replace("^", "\x1b[1;31m^\x1b[0m")

# a table whose routine takes an unsigned long without a gap
UNPADDED = bytes.fromhex(
    "49444c540100000001000400000000010000000153000000000000000000000000000000000000000100000000"
    "ffffffffffffffffff0000000000000001020400000001"
)
PADDING = "idlc: 81 WrongPadding program 0 routine 0 instruction 0\n"
PADDING_KNOWN = (
    "The gap before the work of an instruction isn't the one that belongs there, at some position where the routine "
    "may start.\n"
    "the routine is that of node 0, 'S'\n"
    "idlc explain 81 says more\n"
)


def on_terminal(folder, *words, **variables):
    """What the program tells on a standard error that is a terminal, and its status."""
    ours, theirs = pty.openpty()
    known = {name: value for name, value in os.environ.items() if name != "NO_COLOR"}
    child = subprocess.Popen(
        [PROGRAM, *words], cwd=folder, stdout=subprocess.PIPE, stderr=theirs, env={**known, **variables}
    )
    os.close(theirs)
    told = b""
    while True:
        try:
            piece = os.read(ours, 4096)
        except OSError:
            break
        if not piece:
            break
        told += piece
    os.close(ours)
    child.communicate()
    return child.returncode, told.decode().replace("\r\n", "\n")


def views(test, count):
    folder = test.room / "files"
    folder.mkdir()
    (folder / "a.i").write_bytes(SOURCE)
    words = ("compile", "a.i", "-o", "a.table")
    for more, wanted in (((), LINE), (("--explain",), LINE + VIEW)):
        done = test.call([PROGRAM, *words, *more], cwd=folder)
        count.add((done.status, done.out, done.err) == (1, "", wanted), f"{more}: {done.status} {done.out}{done.err}")
    for variables, view in (({}, COLOURED), ({"NO_COLOR": "1"}, VIEW), ({"NO_COLOR": ""}, COLOURED)):
        seen = on_terminal(folder, *words, **variables)
        count.add(seen == (1, LINE + view), f"on a terminal with {variables}: {seen}")
    count.add(not (folder / "a.table").exists(), "a.table was written")
    if shutil.which("cpp"):
        (folder / "b.idl").write_bytes(b"#define T Point\nstruct Line {\n  T from;\n};\n")
        test.call(["cpp", "-undef", "b.idl", "b.i"], cwd=folder)
        done = test.call([PROGRAM, "compile", "b.i", "-o", "b.table", "--explain"], cwd=folder)
        count.add("\nb.idl:3:3: 'Point' isn't declared before it\n" in done.err, f"behind cpp: {done.err}")


def preprocessed(test, count):
    """The preprocessor as `explain 6` advises it leaves words as they stand: `unix` is 1 to one that isn't told."""
    folder = test.room / "preprocessed"
    folder.mkdir()
    (folder / "point.idl").write_text('#include "unix.idl"\nstruct Point { Unix unix; };\n')
    (folder / "unix.idl").write_text("typedef long Unix;\n")
    told = test.call([PROGRAM, "explain", 6]).out
    words = re.search(r"^To mend it: .* (cpp .* point\.idl) > point\.i$", told, re.MULTILINE)
    count.add(words, f"explain 6: {told}")
    if words and shutil.which("cpp"):
        (folder / "point.i").write_text(test.call(words[1].split(), cwd=folder).out)
        done = test.call([PROGRAM, "compile", "point.i", "-o", "point.table"], cwd=folder)
        count.add(done.status == 0 and not done.err, f"{words[1]}: {done}")


def other_commands(test, count):
    """`--explain` behind commands that have no IDL file, and behind those that compile one in memory."""
    folder = test.room / "others"
    folder.mkdir()
    (folder / "a.i").write_bytes(SOURCE)
    (folder / "u.table").write_bytes(UNPADDED)
    (folder / "c.table").write_bytes(bytes.fromhex("49444c5401000000010100"))
    cut = "octets are no table file: a wrong start, an unknown tag or flag, a text that isn't ASCII, or an end inside."
    text = "An integer isn't a whole number in digits, or not one that the type has."
    rows = [
        (("check", "u.table"), PADDING, PADDING_KNOWN),
        (("show", "u.table"), PADDING, PADDING_KNOWN),
        (("upgrade", "u.table", "-o", "v.table"), PADDING, PADDING_KNOWN),
        (("ior", "u.table", "--host", "h", "--port", "1", "--object", "K=I"), PADDING, PADDING_KNOWN),
        (("serve", "u.table", "--port", "0", "--object", "K=I", "--connections", "0"), PADDING, PADDING_KNOWN),
        (("call", "u.table", "IOR:00", "op"), PADDING, PADDING_KNOWN),
        (
            ("check", "c.table"),
            "idlc: 50 NotATable\n",
            f"The {cut}\nthe file stops being a table at octet 11, counted from 0\nidlc explain 50 says more\n",
        ),
        (("check", "a.i"), LINE, VIEW),
        (("encode", "a.i", "S", "big", "0", "00"), LINE, VIEW),
        (
            ("decode", "builtin", "S", "big", "0", "07"),
            "idlc: 60 Short\n",
            "The octets or the tape end before the value does, or a count is over what is left of them.\n"
            "idlc explain 60 says more\n",
        ),
        (("reference", "IOR:0"), "idlc: 94 BadIor\n", None),
        (("check", "none.table"), "idlc: cannot read none.table\n", ""),
    ]
    (folder / "t.idl").write_bytes(b"typedef long T;\n")
    rows.append((("encode", "t.idl", "T", "big", "0", "--text=x1"), None, None))
    rows.append(
        (
            ("encode", "t.idl", "T", "big", "0", "--text=1.5"),
            "idlc: 111 NotWhole line 1 column 1\n",
            f"{text}\nidlc explain 111 says more\n",
        )
    )
    for words, line, known in rows:
        plain = test.call([PROGRAM, *words], cwd=folder)
        more = test.call([PROGRAM, *words, "--explain"], cwd=folder)
        is_plain = line is None or plain.err == line
        is_more = more.err.startswith(plain.err) and (known is None or more.err == plain.err + known)
        count.add(is_plain and plain.out == "", f"{words}: {plain.status} {plain.out}{plain.err}")
        is_same = more.status == plain.status != 0 and more.out == ""
        count.add(is_more and is_same, f"{words} --explain: {more.status} {more.out}{more.err}")
    seen = on_terminal(folder, "check", "u.table")
    count.add(seen == (1, PADDING + PADDING_KNOWN), f"on a terminal: {seen}")


def names(test, count):
    listed = test.call([PROGRAM, "explain"])
    lines = listed.out.splitlines()
    numbers = [int(line.split()[0]) for line in lines]
    count.add(listed.status == 0 and numbers == sorted(set(numbers)) and len(lines) == 106, f"explain: {listed.out}")
    for line in lines:
        number, name = line.split(" ")
        text = test.call([PROGRAM, "explain", number]).out
        named = test.call([PROGRAM, "explain", name.lower()]).out
        count.add(text.startswith(f"{line}\n") and text in named, f"explain {line}: {text}{named}")
    for source in sources():
        for told in TOLD.findall(source.read_text()):
            count.add(told in lines, f"{source.relative_to(TOP)}: {told} is no number with its name")
    done = test.call([PROGRAM, "explain", "Nothing"])
    wanted = (2, "", "idlc: no refusal has the name Nothing\n")
    count.add((done.status, done.out, done.err) == wanted, f"explain Nothing: {done.status} {done.out}{done.err}")



def texts(test, count):
    """The texts of values in explanations get their refusals, and the mended ones none. 123 has too long an input."""
    folder = test.room / "texts"
    folder.mkdir()
    for number in (*range(110, 123), 124):
        told = test.call([PROGRAM, "explain", number]).out
        name, idl, mended = re.search(r"text for (\w+) of the IDL (.*)\n(?s:.*)    (.*)\n$", told).groups()
        (folder / "t.idl").write_text(f"{idl}\n")
        place = (PROGRAM, "encode", "t.idl", name, "big", "0")
        done = test.call([*place, f"--text={mended}"], cwd=folder)
        count.add(done.status == 0, f"{number}: {mended}: {done.err}")
        wrong = re.search(r"\nInput, .*\n    (.*)\n", told)
        if wrong:
            done = test.call([*place, f"--text={wrong[1]}"], cwd=folder)
            count.add(done.status == 1 and done.err.startswith(f"idlc: {number} "), f"{number}: {wrong[1]}: {done.err}")


def sources():
    """The sources of the crates on which the program stands."""
    crates = [*crates_below(listed_crates(), ["idlc_main"])]
    return sorted(path for crate in crates for path in (TOP / "crates" / crate / "src").rglob("*.rt"))


def run(test):
    built = test.call([TOP / "idlc", "check", "builtin"])
    if built.status:
        return Count(0, [built.out + built.err])
    count = Count(0, [])
    views(test, count)
    preprocessed(test, count)
    other_commands(test, count)
    names(test, count)
    texts(test, count)
    version = (TOP / "VERSION").read_text().strip()
    done = test.call([PROGRAM, "--version"])
    is_right = (done.status, done.out, done.err) == (0, f"idlc {version}\n", "")
    count.add(is_right, f"--version: {done.status} {done.out}{done.err}")
    return count
