"""Reads table files where the first allocation is refused, and runs the tests of the room for large values in its crate.

A file is read past once with nothing kept, so one that breaks asks for no memory: its fault is told, and the first file
that is a table wants the memory that is refused.
"""
WANTED = """version 1, cut: 50 NotATable
version 1, an octet more: 54 Trailing
version 2, cut: 50 NotATable
version 2, an octet more: 54 Trailing
version 2: no memory
version 1: a table
"""


def run(test):
    crate = test.workspace("files").add_crate("files", [test.folder / "main.rt.in"])
    done = test.call(["rt", "try", "--fail-alloc", 1], cwd=crate)
    count = test.try_tests(test.workspace("room").add_to_crate("program_runner", [test.folder / "trimmed.rt.in"]))
    count.add((done.status, done.out) == (0, WANTED), f"files: {done.status} {done.out}{done.err[-2000:]}")
    return count
