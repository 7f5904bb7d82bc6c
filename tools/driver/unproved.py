"""What `./idlc --unproved WORDS ..` does: it runs one command by the toolchain's way of trying, which compiles all sources
without a proof and keeps nothing.

The program runs in a folder of its own, with copies of the files that the words name. So `-o`, which writes a file, and
the commands for sockets and streams are refused with status 2. The status is the program's, or that of the toolchain
where the program gives no answer.
"""
import os
import pathlib
import re
import subprocess
import sys

sys.dont_write_bytecode = True
sys.path.insert(0, str(pathlib.Path(__file__).resolve().parents[1]))

from driver.program import CRATE  # noqa: E402
from driver.toolchain import want_toolchain  # noqa: E402
from driver.workspace import TOP  # noqa: E402

REFUSED = ("serve", "call", "dump")
AHEAD = "idlc: compiling without a proof; nothing is proved of this answer, and nothing is kept"
# what the toolchain says last of a run that gave an answer
OF_TRIAL = re.compile(r"(^checked: .*\n)?^run=ended .*proved=no\n\Z", re.MULTILINE)


def refusal(words):
    """What of these words can't be run so, or None."""
    if words and words[0] in REFUSED:
        return words[0]
    return next((word for word in words if re.match(r"-o|--output\b", word)), None)


def handed_in(words):
    """The words with names by which the program finds the files, and the files by these names."""
    found, files = [], {}
    for word in words:
        mark = "@" if word.startswith("@") else ""
        path = word.removeprefix(mark)
        if os.path.isfile(path):
            name = os.path.normpath(path)
            if os.path.isabs(name) or name.startswith("..") or "=" in name:
                name = f"file{len(files)}/{os.path.basename(path).replace('=', '_')}"
            files[name] = os.path.abspath(path)
            word = mark + name
        found.append(word)
    return found, files


def main(words):
    refused = refusal(words)
    if refused:
        print(f"idlc: --unproved can't run {refused}, since it writes no files and opens no sockets", file=sys.stderr)
        return 2
    want_toolchain("idlc")
    print(AHEAD, file=sys.stderr, flush=True)
    found, files = handed_in(words)
    data = [word for name, path in files.items() for word in ("--data", f"{name}={path}")]
    trial = ["rt", "try", *data, "--", *found]
    tried = subprocess.run(trial, cwd=TOP / "crates" / CRATE, stderr=subprocess.PIPE, text=True, errors="replace")
    sys.stderr.write(OF_TRIAL.sub("", tried.stderr))
    return tried.returncode


sys.exit(main(sys.argv[1:]))
