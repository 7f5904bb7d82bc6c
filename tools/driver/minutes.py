"""The minutes of processor time that the proof of each crate takes: the file of them, and how they are measured.

`rt ci` doesn't say them, so its processes are looked at once a second: each `rattle build --crate-name NAME` proves the
crate of that name. A process is seen last up to a second before its end, so a proof may take that much more.
"""
import os
import pathlib
import re

from driver.workspace import TOP, listed_crates

FILE = TOP / "tools" / "minutes.txt"
HEAD = "# Minutes of processor time of each crate's proof, which tools/minutes measures and writes: NAME MINUTES DAY COMMIT\n"
TICKS = os.sysconf("SC_CLK_TCK")


def rows_of_file():
    """The lines of the file, by the names of crates: minutes, day and commit."""
    rows = (line.split() for line in FILE.read_text().splitlines() if not line.startswith("#"))
    return {name: (float(minutes), day, commit) for name, minutes, day, commit in rows}


def minutes_of_proofs():
    return {name: row[0] for name, row in rows_of_file().items()}


def write_rows(measured, day, commit):
    """Writes the crates that were measured into the file; of the others what stood there stays."""
    rows = rows_of_file()
    rows.update({name: (minutes, day, commit) for name, minutes in measured.items()})
    lines = (f"{name} {rows[name][0]:.1f} {rows[name][1]} {rows[name][2]}\n" for name in sorted(listed_crates()) if name in rows)
    FILE.write_text(HEAD + "".join(lines))


def edits_of(crate):
    """How many edits a crate has in the gate, and how many wrong bodies beside it."""
    folders = (TOP / "crates" / crate / "must-fail", TOP / "tests" / "wrong_bodies" / crate)
    return tuple(len(list(folder.glob("*.edit"))) for folder in folders)


def longest_chain(minutes):
    """The crates of the chain whose proofs take longest, lowest first, and how long they take."""
    listed, chains = listed_crates(), {}

    def chain_of(name):
        if name not in chains:
            below = [chain_of(it) for it in listed[name] if it in listed]
            time, names = max(below, default=(0.0, []))
            chains[name] = (time + minutes.get(name, 0.0), [*names, name])
        return chains[name]

    return max(map(chain_of, listed))


class Watch:
    """Adds up the processor time of the proofs below a process."""

    def __init__(self, process):
        self.process = process
        self.seconds = {}

    def look(self):
        """Notes how long each proof has run so far."""
        for number in below(self.process):
            try:
                words = pathlib.Path(f"/proc/{number}/cmdline").read_bytes().decode(errors="replace")
                fields = pathlib.Path(f"/proc/{number}/stat").read_text().rpartition(")")[2].split()
            except OSError:  # it has ended
                continue
            crate = re.search(r"rattle\0build\0--crate-name\0(\w+)\0", words)
            if crate:
                # by the time of its start too, since numbers are given again
                key = (crate[1], number, fields[19])
                self.seconds[key] = (int(fields[11]) + int(fields[12])) / TICKS

    def minutes(self):
        found = {}
        for (crate, _, _), seconds in self.seconds.items():
            found[crate] = found.get(crate, 0.0) + seconds / 60
        return found


def below(process):
    """The numbers of the processes that a process started, and those that they started."""
    parents = {}
    for path in pathlib.Path("/proc").glob("[0-9]*/stat"):
        try:
            fields = path.read_text().rpartition(")")[2].split()
        except OSError:
            continue
        parents.setdefault(int(fields[1]), []).append(int(path.parent.name))
    found, left = [], [process]
    while left:
        children = parents.get(left.pop(), [])
        found += children
        left += children
    return found
