"""Whether the toolchain is there, with which all is proved and built."""
import shutil
import sys


def want_toolchain(caller):
    """Ends the run with one line and status 3 where there is no `rt` on the path."""
    if not shutil.which("rt"):
        print(f'{caller}: no rt (the toolchain) on the path: see "Set-up" in README.md', file=sys.stderr)
        sys.exit(3)
