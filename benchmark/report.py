"""Where the tables of the benchmarks stand, and the line above each."""
import datetime
import os
import pathlib
import re
import subprocess

HERE = pathlib.Path(__file__).resolve().parent
REPORT = HERE.parent / "docs" / "BENCHMARKS.md"


def output_of(*words):
    return subprocess.run(words, cwd=HERE.parent, check=True, capture_output=True, text=True).stdout.strip()


def conditions():
    """The line that says when, of what and on what a table was measured."""
    commit = output_of("git", "rev-parse", "--short", "HEAD")
    changed = " with changes" if output_of("git", "status", "--porcelain", "crates", "benchmark") else ""
    model = re.search(r"^model name\s*:\s*(.*)", pathlib.Path("/proc/cpuinfo").read_text(), re.MULTILINE)
    # its own process is one of those that run
    wanted = int(pathlib.Path("/proc/loadavg").read_text().split()[3].partition("/")[0]) - 1
    name = " ".join(re.sub(r"\((?:R|TM)\)|CPU|Processor|@", " ", model[1] if model else "unknown").split())
    machine = f"{os.cpu_count()} x {name}"
    beside = "alone" if wanted <= 0 else f"beside {wanted} others that run"
    kit = output_of("rt", "version").split()[0]
    return f"{datetime.date.today()}, {commit}{changed}, {kit}, {machine}, {beside}."


def without_blanks(table):
    """A table as the report has it: without blanks around its bars."""
    return re.sub(r" *\| *", "|", table.strip())


def write_table(name, told, table):
    """Puts a table in the place of the one of that name in the report, or into a file where it has no place there."""
    text = REPORT.read_text()
    old = re.compile(rf"<!-- {name} -->\n(?:\d.*\n)?(?:\n(?:\|.*\n)+)*")
    if old.search(text):
        REPORT.write_text(old.sub(lambda _: f"<!-- {name} -->\n{told}\n\n{without_blanks(table)}\n", text))
    else:
        (HERE / name / "figures.txt").write_text(f"{told}\n\n{table.strip()}\n")
