"""What `./idlc` does where the program isn't there or a source is newer: it sees whether a source has changed, has the
crates proved and the program built where one has, and runs it.

A line on standard error says first how many crates are proved, and about how long that takes; then one on a terminal
says how far the proofs are, and is gone before the program starts, and elsewhere one names each crate. They can be
stopped, and go on where they were. Where one fails, the text stands on standard error, and the status is 70; without the
toolchain it is 3.
"""
import os
import pathlib
import sys

sys.dont_write_bytecode = True
sys.path.insert(0, str(pathlib.Path(__file__).resolve().parents[1]))

from driver.program import PROGRAM, is_current, prove  # noqa: E402
from driver.toolchain import want_toolchain  # noqa: E402


def main():
    if not is_current():
        want_toolchain("idlc")
        try:
            said = prove(sys.stderr)
        except KeyboardInterrupt:
            print("idlc: stopped", file=sys.stderr)
            return 130
        if said is not None:
            print(said, file=sys.stderr)
            return 70
    os.execv(PROGRAM, ["idlc", *sys.argv[1:]])


sys.exit(main())
