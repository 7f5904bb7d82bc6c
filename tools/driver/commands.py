"""Commands that are run, with what they said and the processor time that they took."""
import contextlib
import dataclasses
import os
import subprocess
import tempfile
import threading


@dataclasses.dataclass
class Done:
    """How a command ended: its status and what it wrote to both streams."""

    status: int
    out: str
    err: str


class Clock:
    """Adds up the processor time of commands, in seconds, those that they started included."""

    def __init__(self):
        self.seconds = 0.0
        self._lock = threading.Lock()

    def call(self, words, cwd=None, env=None, stdin=None):
        """Runs a command to its end."""
        words = [str(word) for word in words]
        with contextlib.ExitStack() as files:
            out, err = (files.enter_context(tempfile.TemporaryFile("w+", errors="replace")) for _ in range(2))
            given = files.enter_context(open(stdin or os.devnull, "rb"))
            process = subprocess.Popen(words, cwd=cwd, env=env, stdin=given, stdout=out, stderr=err)
            _, status, used = os.wait4(process.pid, 0)
            process.returncode = os.waitstatus_to_exitcode(status)
            with self._lock:
                self.seconds += used.ru_utime + used.ru_stime
            out.seek(0)
            err.seek(0)
            return Done(process.returncode, out.read(), err.read())
