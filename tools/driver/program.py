"""The proved program: whether it is that of the sources as they stand, and its proofs, several at a time."""
import contextlib
import hashlib
import os
import re
import shutil
import signal
import subprocess
import tempfile
import time

from driver.minutes import minutes_of_proofs
from driver.workspace import PARTS, TOP, Workspace, crates_below, listed_crates

CRATE = "idlc_main"
PROGRAM = TOP / "crates" / CRATE / "out" / CRATE

# the sum of the sources that the program was proved and built from
STAMP = PROGRAM.with_name(f"{CRATE}.sources")


def source_files():
    """The files and folders that the program is made from."""
    found = [TOP / "crates.txt", TOP / "HANDLES"]
    for crate in crates_below(listed_crates(), [CRATE]):
        for part in PARTS:
            for folder, _, names in os.walk(TOP / "crates" / crate / part):
                found += [folder, *(f"{folder}/{name}" for name in names)]
    return found


def source_sum():
    """A sum of the sources' names and texts."""
    found = hashlib.sha256()
    for path in sorted(map(str, source_files())):
        if os.path.isfile(path):
            with open(path, "rb") as file:
                found.update(os.path.relpath(path, TOP).encode() + b"\0" + hashlib.sha256(file.read()).digest())
    return found.hexdigest()


def is_current():
    """Whether the program that is there was built from the sources as they stand."""
    if not (PROGRAM.is_file() and STAMP.is_file()):
        return False
    built = STAMP.stat().st_mtime_ns
    if all(os.stat(path).st_mtime_ns <= built for path in source_files()):
        return True
    if STAMP.read_text() != source_sum():
        return False
    os.utime(STAMP)
    return True


def note_current(sum_before):
    """Notes that the program that is there was built from the sources with this sum, as they were before."""
    STAMP.write_text(sum_before)


def processors():
    return len(os.sched_getaffinity(0))


class Progress:
    """What is reported of the proofs: how long they take, which were done, and on a terminal how far they are."""

    def __init__(self, folder, crates):
        self.folder = folder
        self.crates = crates
        self.listed = listed_crates()
        self.minutes = minutes_of_proofs()
        self.done = set()
        self.begun = {}
        self.start = time.monotonic()

    def hear(self, line):
        """Takes a line that the gate said, maybe again. Returns the crate that it is the first to name."""
        said = re.match(r"rt: (\w+) (proved|is kept)", line)
        if not said or said[1] in self.done:
            return None
        self.done.add(said[1])
        return said[1]

    def under_way(self):
        """The crates that are being proved: they have a folder for what is made, and weren't named."""
        for crate in self.crates:
            if crate not in self.done and (self.folder / "crates" / crate / "out").is_dir():
                self.begun.setdefault(crate, time.monotonic())
        return [crate for crate in self.begun if crate not in self.done]

    def minutes_left(self, crate):
        if crate in self.done:
            return 0.0
        whole = self.minutes.get(crate, 1.0)
        spent = (time.monotonic() - self.begun[crate]) / 60 if crate in self.begun else 0.0
        return max(whole - spent, whole / 10)

    def estimate(self):
        """Minutes left: of all crates shared by the processors, or of the longest chain of them."""
        chains = {}
        for crate in self.crates:
            below = [chains[name] for name in self.listed[crate] if name in chains]
            chains[crate] = self.minutes_left(crate) + max(below, default=0.0)
        shared = sum(map(self.minutes_left, self.crates)) / min(4, processors())
        return max(shared, *chains.values())

    def tell_ahead(self):
        return f"idlc: proving {len(self.crates)} crates first, about {self.estimate():.0f} minutes from nothing"

    def tell_proved(self, crate):
        return f"idlc: {crate} proved, {len(self.done)} of {len(self.crates)} crates"

    def tell(self):
        names = ", ".join(self.under_way()) or "the program"
        minutes = (time.monotonic() - self.start) / 60
        done = f"{len(self.done)} of {len(self.crates)} crates proved"
        return f"idlc: {done}, {minutes:.0f} minutes so far, about {self.estimate():.0f} left: {names}"


@contextlib.contextmanager
def scratch_folder():
    """A folder that goes again, also where what was stopped still writes to it for a moment."""
    room = tempfile.mkdtemp(prefix="idlc-proofs-")
    try:
        yield room
    finally:
        for _ in range(10):
            shutil.rmtree(room, ignore_errors=True)
            if not os.path.exists(room):
                break
            time.sleep(1)


def prove(out):
    """Proves the program's crates and builds it, as many crates at a time as there are processors.

    It is the gate over these crates alone, without their edits: a kit that keeps proofs has what it proves for the
    next run and for the gate, also where it is stopped. Returns the gate's text where it fails.
    """
    sum_before = source_sum()
    with scratch_folder() as room:
        workspace = Workspace(room)
        workspace.copy_crates([CRATE])
        progress = Progress(workspace.folder, workspace.copied)
        say(out, progress.tell_ahead())
        said = run_gate(workspace.folder, progress, out)
        if said is not None:
            return said
        PROGRAM.parent.mkdir(exist_ok=True)
        # a name of its own, since two runs may end at the same time
        new = f"{PROGRAM}.{os.getpid()}"
        shutil.copy(workspace.folder / "crates" / CRATE / "out" / CRATE, new)
    os.replace(new, PROGRAM)
    note_current(sum_before)
    return None


def say(out, line):
    """Writes a line that stays. A stream that is gone is no fault, here and below."""
    with contextlib.suppress(OSError):
        print(line, file=out, flush=True)


def show(out, line):
    """Shows the line alone on a terminal, in place of the one before."""
    if out.isatty():
        with contextlib.suppress(OSError):
            width = shutil.get_terminal_size().columns - 1
            print(f"\r\033[K{line[:width]}", end="", file=out, flush=True)


STOPS = (signal.SIGINT, signal.SIGTERM, signal.SIGHUP)


def stop(*_signal):
    """Ends the run once; what else comes while it ends is passed over."""
    for number in STOPS:
        signal.signal(number, signal.SIG_IGN)
    raise KeyboardInterrupt


def tell_progress(log, progress, out):
    """Reports on a terminal how far the gate is, elsewhere each crate that it proved since it was last asked."""
    for line in log.read_text(errors="replace").splitlines():
        crate = progress.hear(line)
        if crate and not out.isatty():
            say(out, progress.tell_proved(crate))
    show(out, progress.tell())


def run_gate(folder, progress, out):
    """Runs the gate in a folder. Returns None where it passes, else what it said. A signal to stop ends it too."""
    for number in STOPS:
        signal.signal(number, stop)
    log = folder / "log"
    with open(log, "w") as file:
        gate = subprocess.Popen(["rt", "ci"], cwd=folder, stdin=subprocess.DEVNULL, stdout=file, stderr=file)
    try:
        has_ended = False
        while not has_ended:
            time.sleep(1)
            # asked first, so that what it said last is reported
            has_ended = gate.poll() is not None
            tell_progress(log, progress, out)
    finally:
        if gate.poll() is None:
            gate.terminate()
            gate.wait()
        show(out, "")
    return log.read_text(errors="replace") if gate.returncode else None
