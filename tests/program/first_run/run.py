"""Runs the commands of a copy of the repository that has no proved program: without `rt` on the path, and with one that
only says what the gate would."""
import os
import pathlib
import pty
import re
import shutil
import subprocess
import sys

from driver.suite import Count
from driver.workspace import TOP, crates_below, listed_crates

# what the commands run beside `rt`
TOOLS = ("bash", "env", "find", "git", "python3", "readlink")
COMMANDS = (
    ("idlc", "--version"), ("idlc", "check", "builtin"), ("idlc", "--unproved", "check", "builtin"),
    ("package",), ("c/build",), ("verify",),
)

# a gate that proves every crate in no time, and makes a program
GATE = f"""#!{sys.executable}
import pathlib, sys
assert sys.argv[1:] == ["ci"]
for line in pathlib.Path("crates.txt").read_text().splitlines():
    print("rt:", line.partition(":")[0], "proved in 1 s")
made = pathlib.Path("crates/idlc_main/out")
made.mkdir()
(made / "idlc_main").write_text("#!/bin/sh\\necho asked $*\\n")
(made / "idlc_main").chmod(0o755)
"""
FAILING_GATE = f"""#!{sys.executable}
import sys
print("no proof of one crate")
sys.exit(1)
"""
# a trial that prints what it was asked, and ends like a program that refuses
TRIAL = f"""#!{sys.executable}
import os, sys
assert sys.argv[1] == "try"
print(os.path.basename(os.getcwd()), *sys.argv[2:])
print("checked: ended status=1\\nrun=ended status=1 runners=1 proved=no", file=sys.stderr)
sys.exit(1)
"""
# a gate whose proof of a crate takes five seconds of a processor
BUSY = """import time
while time.process_time() < 5:
    pass
"""
MEASURED = f"""#!{sys.executable}
import pathlib, subprocess, sys
subprocess.run([sys.executable, pathlib.Path(sys.argv[0]).with_name("rattle"), "build", "--crate-name", "type_graph", "src/lib.rt"])
print("rt: type_graph proved")
print("rt: type_model is kept: an earlier run proved it")
"""
UNPROVED = "idlc: compiling without a proof; nothing is proved of this answer, and nothing is kept\n"


class Copy:
    """A copy of the repository, and a path that has only what is put there."""

    def __init__(self, test):
        self.test = test
        self.top = test.room / "top"
        shutil.copytree(TOP, self.top, ignore=shutil.ignore_patterns("out", "dist", ".git"))
        self.tools = test.room / "tools"
        self.tools.mkdir()
        for name in TOOLS:
            (self.tools / name).symlink_to(shutil.which(name))
        self.env = {"PATH": str(self.tools), "HOME": os.environ.get("HOME", "/")}

    def put_gate(self, text):
        (self.tools / "rt").write_text(text)
        (self.tools / "rt").chmod(0o755)

    def forget(self):
        shutil.rmtree(self.top / "crates/idlc_main/out", ignore_errors=True)

    def run(self, command, *words):
        return self.test.call([self.top / command, *words], cwd=self.test.room, env=self.env)

    def run_on_terminal(self, command, *words):
        """What stands on a terminal that is standard error."""
        leader, terminal = pty.openpty()
        subprocess.run([self.top / command, *words], env=self.env, stdout=subprocess.DEVNULL, stderr=terminal)
        os.close(terminal)
        with os.fdopen(leader, "rb") as file:
            said = b""
            try:
                while piece := os.read(file.fileno(), 4096):
                    said += piece
            except OSError:  # the end of a terminal
                pass
        return said.decode()


def without_toolchain(copy, count):
    readme = pathlib.Path(copy.top / "README.md").read_text()
    for command, *words in COMMANDS:
        done = copy.run(command, *words)
        line = f'{command}: no rt (the toolchain) on the path: see "Set-up" in README.md\n'
        count.add((done.status, done.out, done.err) == (3, "", line), f"{command} without rt: {done}")
    count.add("\n## Set-up\n" in readme, "README.md has no Set-up")


def first_run(copy, count):
    """The program's answer alone stands on standard output; standard error tells of each crate, in any order."""
    crates = crates_below(listed_crates(), ["idlc_main"])
    copy.put_gate(GATE)
    done = copy.run("idlc", "check", "builtin")
    ahead, *lines = done.err.splitlines() or [""]
    count.add((done.status, done.out) == (0, "asked check builtin\n"), f"a first run: {done}")
    count.add(re.fullmatch(rf"idlc: proving {len(crates)} crates first, about \d+ minutes from nothing", ahead), ahead)
    rows = [re.fullmatch(rf"idlc: (\w+) proved, (\d+) of {len(crates)} crates", line) for line in lines]
    count.add(all(rows) and sorted(row[1] for row in rows) == sorted(crates), f"the crates: {lines}")
    count.add(all(rows) and [int(row[2]) for row in rows] == [*range(1, len(crates) + 1)], f"their numbers: {lines}")
    again = copy.run("idlc", "show", "x")
    count.add((again.status, again.out, again.err) == (0, "asked show x\n", ""), f"a second run: {again}")
    copy.forget()
    said = copy.run_on_terminal("idlc", "check", "builtin")
    count.add("crates first, about" in said and "_main proved," not in said, f"on a terminal: {said}")


def failing_proofs(copy, count):
    """Where a proof fails its text is told, and nothing of this project's own scripts."""
    copy.forget()
    copy.put_gate(FAILING_GATE)
    for command in ("idlc", "package"):
        done = copy.run(command)
        is_right = (done.status, done.out) == (70, "") and done.err.endswith("minutes from nothing\nno proof of one crate\n\n")
        count.add(is_right, f"{command} with a proof that fails: {done}")


def unproved(copy, count):
    """A trial gets the files that the words name, each by a name that it can have; what needs more is refused."""
    copy.put_gate(TRIAL)
    file = copy.test.room / "a.idl"
    file.write_text("struct S {long x;};")
    rows = [
        (("check", "a.idl"), f"--data a.idl={file} -- check a.idl"),
        (("show", file, "--types"), f"--data file0/a.idl={file} -- show file0/a.idl --types"),
        (("encode", "a.idl", "S", "big", "0", "--text", "@a.idl"), f"--data a.idl={file} -- encode a.idl S big 0 --text @a.idl"),
        (("explain", "60"), "-- explain 60"),
    ]
    for words, wanted in rows:
        done = copy.run("idlc", "--unproved", *words)
        count.add((done.status, done.out, done.err) == (1, f"idlc_main {wanted}\n", UNPROVED), f"{words} unproved: {done}")
    for words in (("serve", "builtin"), ("call", "builtin"), ("dump", "builtin"), ("compile", "a.idl", "-o", "t"), ("upgrade", "t", "-ou")):
        done = copy.run("idlc", "--unproved", *words)
        is_right = (done.status, done.out, done.err.count("\n")) == (2, "", 1)
        count.add(is_right and done.err.startswith("idlc: --unproved can't run "), f"{words} unproved: {done}")


def measured(copy, count):
    """The minutes of a crate that was proved are written, and no others."""
    (copy.tools / "rattle").write_text(BUSY)
    copy.put_gate(MEASURED)
    before = (copy.top / "tools/minutes.txt").read_text().splitlines()
    done = copy.run("tools/minutes", "type_graph")
    after = (copy.top / "tools/minutes.txt").read_text().splitlines()
    changed = [line for line in after if line not in before]
    is_right = len(before) == len(after) and len(changed) == 1 and re.match(r"type_graph 0\.1 [\d-]{10} \w+$", changed[0])
    count.add(done.status == 0 and is_right, f"minutes: {changed} {done}")


def run(test):
    count = Count(0, [])
    copy = Copy(test)
    without_toolchain(copy, count)
    first_run(copy, count)
    failing_proofs(copy, count)
    unproved(copy, count)
    measured(copy, count)
    return count
