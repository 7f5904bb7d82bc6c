"""Looks up the files, the tests and the functions that the documents name, holds the walks to the calls in the sources,
and the lists of crates to crates.txt.

A file with a folder stands in the crate that was named before it on its line, in the repository, or beside the document;
one without may be anywhere. The walks of docs/ARCHITECTURE.md are lines `CRATE::MODULE::FUNCTION, ..  what it does`.
"""
import collections
import os
import re

from driver.calls import functions_at, places_of
from driver.suite import TESTS, Count, all_tests
from driver.workspace import TOP, listed_crates, spelled_out

CRATES = TOP / "crates"
# a file between backticks, or a crate's name
NAMED = re.compile(r"`([\w./{},-]+(?:\.(?:antt|rt|py|edit|md|idl)|/))`|\b([a-z][a-z_]+)\b")


def documents():
    return [*TOP.glob("*.md"), *(TOP / "docs").glob("*.md"), *CRATES.glob("*/README.md"), TOP / "examples" / "README.md", TESTS / "README.md"]


def names_of_files():
    """The names of all files and folders of the repository but for what is built."""
    found = set()
    for at, folders, files in os.walk(TOP):
        folders[:] = [name for name in folders if name not in (".git", "out")]
        found.update(folders, files)
    return found


def files_named(document, crates):
    """The files that a document names, each with the crate that was named last before it on its line, or none."""
    for line in document.read_text().splitlines():
        crate = ""
        for match in NAMED.finditer(line):
            if match[2] in crates:
                crate = match[2]
            if match[1] and "NAME" not in match[1]:
                yield from ((path, crate) for path in spelled_out(match[1]))


def add_files(count):
    crates, names = listed_crates(), names_of_files()
    for document in documents():
        for path, crate in files_named(document, crates):
            places = [TOP / path, CRATES / path, document.parent / path, CRATES / crate / path]
            is_there = any(it.exists() for it in places) or "/" not in path.rstrip("/") and path.rstrip("/") in names
            count.add(is_there, f"{document.relative_to(TOP)}: no file {path} of {crate}")
        for path in re.findall(r"`((?:tests|crates|examples|tools)/[\w/]+)`", document.read_text()):
            count.add((TOP / path).exists(), f"{document.relative_to(TOP)}: no {path}")


def add_tests(count):
    """The tests that the documents name by `tests/run NAME ..`, one that has parts also by NAME/PART."""
    tests = all_tests()
    names = {"NAME", *(test.name for test in tests), *(test.group for test in tests)}
    for document in documents():
        for words in re.findall(r"tests/run((?: [a-z][\w/.]*| NAME)+)", document.read_text()):
            for name in words.split():
                count.add(name.partition("/")[0] in names, f"{document.relative_to(TOP)}: no test {name}")


def add_words(count):
    """`crate/Name` is a file of definitions, `crate:name` one of code."""
    for crate, mark, name in re.findall(r"`(\w+)([/:])(\w+)`(?=[|,])", (TOP / "docs" / "GLOSSARY.md").read_text()):
        path = CRATES / crate / (f"specs/{name}.antt" if mark == "/" else f"src/{name}.rt")
        count.add(path.exists(), f"docs/GLOSSARY.md: no file {crate}{mark}{name}")


def steps(walk, crates):
    """The lines of a walk, each with its functions: crate, module and name, crate and module of the one before where
    they lack."""
    crate = module = ""
    for line in walk.splitlines():
        found = []
        for name in re.match(r"(.*?)(?:  |$)", line)[1].split(", "):
            path = [part for part in name.split("::") if part[0].islower()]
            if path[0] in crates:
                crate, module, path = path[0], "", path[1:]
            if len(path) > 1:
                module = path[-2]
            found.append((crate, module, path[-1]))
        yield found


def caller_of(calls, functions, listed, least):
    """Which of the calls that aren't over, from the one of this depth on, calls a function next, and at which place."""
    for depth in range(len(calls) - 1, least - 1, -1):
        callers, behind = calls[depth]
        places = [place for place in places_of(callers, functions, listed) if place >= behind]
        if places:
            return depth, min(places)
    return None


def add_walk(count, walk, crates):
    """Each function of a walk is called by one before it that isn't over, behind what that calls before; those behind the
    first of a line each by the one before it there. Helpers that are left out may stand between two."""
    lines = [[("::".join(filter(None, step)), functions_at(*step)) for step in line] for line in steps(walk, crates)]
    listed = {it for line in lines for _, functions in line for it in functions}
    # the calls that aren't over, the outermost first, each with the place in it up to which all was called
    calls = []
    for line in lines:
        for at, (label, functions) in enumerate(line):
            count.add(functions, f"docs/ARCHITECTURE.md: no function {label}")
            found = caller_of(calls, functions, listed, len(calls) - 1 if at else 0)
            if found:
                calls[found[0] :] = [(calls[found[0]][0], found[1])]
            count.add(found or not calls, f"docs/ARCHITECTURE.md: {label} is called by none before it, or earlier")
            calls.append((functions, 0))


def listed_groups():
    """The groups of crates.txt with their crates, in order."""
    groups = {}
    for line in (TOP / "crates.txt").read_text().splitlines()[1:]:
        if line.startswith("# "):
            names = groups.setdefault(line[2:].lower(), [])
        elif ":" in line:
            names.append(line.partition(":")[0].split()[0])
    return groups


def rows_of(document):
    """The rows of a document's tables, as lists of cells."""
    return [[cell.strip() for cell in line.split("|")[1:-1]] for line in document.read_text().splitlines() if line.startswith("|")]


def add_groups(count):
    """README.md and docs/ARCHITECTURE.md have the same groups in the same order; the rows of the crates follow it."""
    groups = listed_groups()
    for document in (TOP / "README.md", TOP / "docs" / "ARCHITECTURE.md"):
        rows = rows_of(document)
        found = {row[0]: row[-1].split(", ") for row in rows if row[0] in groups}
        count.add(list(found.items()) == list(groups.items()), f"{document.relative_to(TOP)}: the groups aren't those of crates.txt")
    names = [name for crates in groups.values() for name in crates]
    count.add([row[0] for row in rows if row[0] in names] == names, "docs/ARCHITECTURE.md: the crates aren't in the order of crates.txt")


def add_first_words(count):
    """docs/GLOSSARY.md has a row for each word that the names of several crates begin with, and for no word that is none."""
    text = (TOP / "docs" / "GLOSSARY.md").read_text().partition("Words that names of crates begin with:")[2]
    rows = re.findall(r"^\|([a-z]+)_?\|", text, re.MULTILINE)[1:]
    words = collections.Counter(crate.partition("_")[0] for crate in listed_crates())
    for word in sorted({*rows, *(word for word, times in words.items() if times > 1)}):
        count.add(word in rows and word in words, f"docs/GLOSSARY.md: crates that begin with {word}: {words[word]}, rows: {rows.count(word)}")


def run(test):
    count = Count(0, [])
    add_groups(count)
    add_first_words(count)
    add_files(count)
    add_tests(count)
    add_words(count)
    walks = re.findall(r"^```\n([a-z_]+::.*?)^```", (TOP / "docs" / "ARCHITECTURE.md").read_text(), re.M | re.S)
    count.add(len(walks) == 3, f"docs/ARCHITECTURE.md: {len(walks)} walks")
    for walk in walks:
        add_walk(count, walk, listed_crates())
    return count
