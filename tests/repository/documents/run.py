"""Counts the words and lines of the documents, and looks up the numbers that they tell."""
import re

from driver.minutes import minutes_of_proofs
from driver.suite import Count
from driver.workspace import TOP, listed_crates, spelled_out

CRATES = TOP / "crates"
DOCS = TOP / "docs"
ARCHITECTURE = DOCS / "ARCHITECTURE.md"
OUTSIDE = [*TOP.glob("*.md"), *DOCS.glob("*.md"), TOP / "examples" / "README.md"]
README_LINES = 110
# the most words that documents have together: outside crates/ 14,000, and 300 for includes
WORDS = (
    ([TOP / "README.md"], 1200),
    ([ARCHITECTURE], 2200),
    (OUTSIDE, 14300),
    ([*CRATES.glob("*/README.md")], 22000),
)


def add_lengths(count):
    lines = len((TOP / "README.md").read_text().splitlines())
    count.add(lines <= README_LINES, f"README.md: {lines} lines, over {README_LINES}")
    for documents, most in WORDS:
        words = {str(path.relative_to(TOP)): len(path.read_text().split()) for path in documents}
        longest = ", ".join(f"{name} {n}" for name, n in sorted(words.items(), key=lambda row: -row[1])[:4])
        count.add(sum(words.values()) <= most, f"{sum(words.values())} words, over {most}: {longest}")


def named_in(path):
    """The files of definitions that one names by `use`."""
    modules = re.findall(r"^use Rattle\.(\w+)\.specs\.([\w.]+)\.\{", path.read_text(), re.MULTILINE)
    files = (CRATES / crate / "specs" / f"{module.replace('.', '/')}.antt" for crate, module in modules)
    return {file for file in files if file.is_file()}


def with_all_named(paths):
    found, left = set(), [*paths]
    while left:
        path = left.pop()
        if path not in found:
            found.add(path)
            left += named_in(path)
    return found


def lines_of(paths):
    return sum(len(path.read_text().splitlines()) for path in paths)


def add_line_counts(count):
    """A row of the definitions to read ends with the lines of the files that it names, and of all that these name."""
    rows = re.findall(r"^\|(\[.*)\|(\d+)\|(\d+)\|$", ARCHITECTURE.read_text(), re.MULTILINE)
    for row, told, told_of_all in rows:
        paths = {CRATES / path for named in re.findall(r"`([^`]+\.antt)`", row) for path in spelled_out(named)}
        lines = lines_of(paths), lines_of(with_all_named(paths))
        count.add(lines == (int(told), int(told_of_all)), f"docs/ARCHITECTURE.md: {lines} lines, not {told}, {told_of_all}: {row}")
    count.add(len(rows) >= 8, f"docs/ARCHITECTURE.md: {len(rows)} rows of definitions to read")


def add_decisions(count):
    numbers = [int(number) for number in re.findall(r"^\*\*(\d+)\.", (DOCS / "DECISIONS.md").read_text(), re.MULTILINE)]
    count.add(numbers == sorted(set(numbers)), f"docs/DECISIONS.md: not in order, or twice: {numbers}")


def add_version(count):
    """`package` and `c/build` read VERSION; what can't read it has to say the same."""
    version = (TOP / "VERSION").read_text().strip()
    rows = (
        (CRATES / "command_words" / "src" / "commands.rt", r'^const VERSION: &str = "(.*)";'),
        (TOP / "tests" / "program" / "idlc_main" / "tests.rt.in", r'"idlc ([\d.]+)\\n"'),
        (TOP / "CHANGELOG.md", r"^### (\S+) \(\d{4}-\d\d-\d\d\)"),
    )
    for path, form in rows:
        found = re.search(form, path.read_text(), re.MULTILINE)
        count.add(found and found[1] == version, f"{path.relative_to(TOP)}: not version {version}: {found and found[1]}")


def add_minutes(count):
    count.add(sorted(minutes_of_proofs()) == sorted(listed_crates()), "tools/minutes.txt: the crates aren't those of crates.txt")


def run(test):
    count = Count(0, [])
    add_lengths(count)
    add_line_counts(count)
    add_decisions(count)
    add_version(count)
    add_minutes(count)
    return count
