"""Runs the sessions that stand in the documents, and compares what each command prints.

A session is a code block with lines that begin with `$ `: a command, and below it what it prints on both streams. One
that ends in `&` runs on, prints one line, and has to end well by the end of the session.
Those of README.md begin with `./idlc` and run as they are typed at the top of a fresh copy of the repository, in which the
proved program was put in its place; the one with `--unproved` compiles the copy. Those of docs/ begin with `idlc`, the
program, and run where `examples/` and the files of `examples/idl/` are at hand. Others aren't run.
"""
import contextlib
import re
import shutil
import socket
import subprocess

from driver.program import PROGRAM, STAMP
from driver.suite import Count
from driver.workspace import TOP

# a call of the operation `ping` of the object `K`
PING = bytes.fromhex("47494f500102000000000024000000010300000000000000000000014b0000000000000570696e670000000000000000")
README = TOP / "README.md"
DOCUMENTS = sorted((TOP / "docs").glob("*.md"))


def blocks(text):
    """The code blocks of a document, fenced or indented, as lists of lines."""
    found, block, is_fenced = [], [], False
    for line in text.splitlines():
        if line.startswith("```"):
            is_fenced = not is_fenced
            found, block = [*found, block], []
        elif is_fenced:
            block.append(line)
        elif line.startswith("    "):
            block.append(line[4:])
        elif block:
            found, block = [*found, block], []
    return [*found, block]


def steps(block):
    """The commands of a block, each with what it prints."""
    found = []
    for line in block:
        if line.startswith("$ "):
            found.append((line[2:], []))
        elif found:
            found[-1][1].append(line)
    return [(command, "".join(f"{line}\n" for line in said)) for command, said in found]


def served(words, folder):
    """What `serve` prints where as many clients as it takes connect to it, the last asks first, and all leave."""
    port, count = (int(re.search(rf"--{option} (\d+)", words)[1]) for option in ("port", "connections"))
    server = subprocess.Popen(words, shell=True, cwd=folder, stdout=subprocess.PIPE, text=True)
    said = server.stdout.readline()
    with contextlib.ExitStack() as stack:
        clients = range(count if said else 0)
        streams = [stack.enter_context(socket.create_connection(("127.0.0.1", port), timeout=10)) for _ in clients]
        for stream in reversed(streams):
            stream.sendall(PING)
            said += "" if stream.recv(12).startswith(b"GIOP") else "no answer"
    return said + server.communicate(timeout=60)[0]


def run_session(test, count, document, session, folder):
    beside = []
    for command, wanted in session:
        words = re.sub(r"^idlc\b", str(PROGRAM), command)
        if words.endswith(" &"):
            beside.append(subprocess.Popen(words[:-2], shell=True, cwd=folder, stdout=subprocess.PIPE, text=True))
            said = beside[-1].stdout.readline()
        elif words.startswith(f"{PROGRAM} serve"):
            said = served(words, folder)
        else:
            done = test.call(["bash", "-c", f"{words} 2>&1"], cwd=folder)
            said = done.out + done.err
        # the rest of an explanation may be left out
        is_right = said == wanted or (not wanted and command.startswith("idlc explain") and said)
        count.add(is_right, f"{document.name}: {command}: {said}")
    for process in beside:
        out, _ = process.communicate(timeout=60)
        count.add(process.returncode == 0 and not out, f"{document.name}: {process.args}: {process.returncode} {out}")


def fresh_copy(top):
    """A copy of the repository that has nothing that was made but the proved program."""
    shutil.copytree(TOP, top, ignore=shutil.ignore_patterns("out", "dist", ".git"))
    for made in (PROGRAM, STAMP):
        place = top / made.relative_to(TOP)
        place.parent.mkdir(exist_ok=True)
        shutil.copy(made, place)
    return top


def folder_with_examples(folder):
    folder.mkdir()
    (folder / "examples").symlink_to(TOP / "examples")
    for file in (TOP / "examples" / "idl").glob("*.idl"):
        shutil.copy(file, folder)
    return folder


def sessions(document):
    return [session for session in map(steps, blocks(document.read_text())) if session]


def run(test):
    built = test.call([TOP / "idlc", "check", "builtin"])
    count = Count(0, [])
    if built.status:
        return Count(0, [built.out + built.err])
    top = fresh_copy(test.room / "top")
    for session in sessions(README):
        count.add(all(command.startswith("./idlc ") for command, _ in session), f"README.md: not typed at the top: {session}")
        run_session(test, count, README, session, top)
    for document in DOCUMENTS:
        folder = folder_with_examples(test.room / document.stem)
        for session in sessions(document):
            if all(command.startswith("idlc ") for command, _ in session):
                run_session(test, count, document, session, folder)
    return count
