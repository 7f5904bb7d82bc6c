"""What shells offer: bash's function by itself, and shells on a terminal, in which lines are typed."""
import os
import re
import select
import subprocess
import time

# what bash splits words at, as it is at first
BREAKS = " \t\n\"'><=;|&(:@"
ASK = """
source "$1"
COMP_LINE=$2 COMP_POINT=${#2}
COMP_WORDS=("${@:4}") COMP_CWORD=$(($# - 4))
_idlc idlc "$3"
printf '%s\\n' "${COMPREPLY[@]}"
"""


def offered_by(test, completion, line, folder):
    """What bash offers at the end of a line, each as it replaces the last part of the last word."""
    marks = re.escape(BREAKS.strip())
    words = re.findall(rf"[^\s{marks}]+|[{marks}]+", line) + [""] * line.endswith(" ")
    # of the marks @ alone is replaced too
    part = re.search(rf"@?[^\s{marks}]*$", line)[0]
    done = test.call(["bash", "--norc", "-c", ASK, "bash", completion, line, part, *words], cwd=folder)
    return [done.err] if done.err else sorted(filter(None, done.out.split("\n")))


class Terminal:
    """A shell on a terminal of its own. It has a function `idlc`, which prints its words."""

    def __init__(self, words, folder, begin):
        self.fd, end = os.openpty()
        env = {"PATH": os.environ["PATH"], "HOME": str(folder), "TERM": "dumb", "LC_ALL": "C", "PS1": "", "HISTFILE": ""}
        self.shell = subprocess.Popen(words, cwd=folder, env=env, stdin=end, stdout=end, stderr=end, start_new_session=True)
        os.close(end)
        self.said = ""
        self.type(f"{begin}; idlc() {{ printf 'w<%s>' \"$@\"; echo; }}; echo be''gun\n")
        self.has_begun = self.hears("begun\r\n")

    def type(self, keys):
        os.write(self.fd, keys.encode())

    def hears(self, form, seconds=10):
        """Whether the shell says what has this form. What it said up to there is passed over."""
        end = time.monotonic() + seconds
        while time.monotonic() < end:
            found = re.search(form, self.said)
            if found:
                self.said = self.said[found.end() :]
                return True
            if select.select([self.fd], [], [], 0.1)[0]:
                try:
                    self.said += os.read(self.fd, 65536).decode(errors="replace")
                except OSError:
                    return False
        return False

    def completes(self, line, words):
        """Whether a line that ends in a tab becomes these words."""
        self.type(f"{line}\n")
        return self.hears(re.escape("".join(f"w<{word}>" for word in words)) + "\r")

    def end(self):
        self.shell.kill()
        self.shell.wait()
        os.close(self.fd)
