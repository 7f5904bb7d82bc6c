"""The wrong bodies: files NAME.edit of crates/CRATE/must-fail and of tests/wrong_bodies/CRATE, as the toolchain reads them.

The name of the file says what the change does, its first line where it is planted:

    # function: TYPE::NAME
    file: src/FILE.rt
    old: A TEXT THAT STANDS ONCE IN THAT FILE
    new: WHAT STANDS THERE INSTEAD

`# constant: NAME` where the change is planted outside of functions. More pairs may follow.
"""
import re

from driver.sources import GENERICS
from driver.workspace import TOP

FUNCTION = re.compile(r"( *)(?:pub(?:\([a-z]+\))? )?(?:const )?(?:extern \"C\" )?fn (\w+)")
CONSTANT = re.compile(r" *(?:pub(?:\([a-z]+\))? )?(?:const|static) (\w+)")


def all_edits():
    """The files of all wrong bodies, each with the crate into which it is planted."""
    beside = TOP / "tests" / "wrong_bodies"
    edits = [(edit, edit.parent.name) for edit in sorted(beside.glob("*/*.edit"))]
    return edits + [(edit, edit.parents[1].name) for edit in sorted((TOP / "crates").glob("*/must-fail/*.edit"))]


def pairs_of(edit):
    """What an edit changes: a file, what stands there, and what takes its place."""
    path = old = ""
    for line in edit.read_text().splitlines():
        if line.startswith("file: "):
            path = line[len("file: ") :].strip()
        elif line.startswith("old: "):
            old = line[len("old: ") :]
        elif line.startswith("new:"):
            yield path, old, line[len("new:") :].removeprefix(" ")


def implemented(lines, at):
    """The type of the implementation in which a line stands."""
    start = max((n for n in range(at) if lines[n].startswith("impl")), default=at)
    head = re.sub(rf"^impl{GENERICS} ", "", " ".join(lines[start:at]).partition("{")[0])
    return re.sub(r"<.*", "", head.rpartition(" for ")[2]).split(" where ")[0].strip().rpartition("::")[2]


def place_of(text, old):
    """Where a part of a source stands: `function: NAME`, or `constant: NAME`."""
    lines, at = text.splitlines(), text.count("\n", 0, text.index(old))
    for start in range(at, -1, -1):
        found = FUNCTION.match(lines[start])
        if found and f"{found[1]}}}" not in lines[start:at]:
            owner = f"{implemented(lines, start)}::" if found[1] else ""
            return f"function: {owner}{found[2]}"
        if start == at and (found := CONSTANT.match(lines[at])):
            return f"constant: {found[1]}"
    return "no function"


def named_place(edit):
    """Where an edit says that it is planted."""
    first = edit.read_text().partition("\n")[0]
    return first.removeprefix("# ") if re.match(r"# (?:function|constant): \S", first) else "no function"


def fault_of(edit, crate):
    """What has to be mended of an edit that can't be planted, or says another place than its own; None where all is well."""
    label, place, texts = edit.relative_to(TOP), named_place(edit), {}
    for path, old, new in pairs_of(edit):
        source = TOP / "crates" / crate / path
        where = f"{source.relative_to(TOP)} ({place})"
        if not source.is_file():
            return f"{label}: mend its `file:`. There is no {where}"
        text = texts.setdefault(path, source.read_text())
        if text.count(old) != 1:
            return f"{label}: mend its `old:` and `new:`. {where} has this {text.count(old)} times, not once: {old.strip()}"
        is_first, found = len(texts) == 1 and text == source.read_text(), place_of(text, old)
        if is_first and found != place:
            return f"{label}: mend its first line. In {source.relative_to(TOP)} it is planted in another place: # {found}"
        texts[path] = text.replace(old, new)
    return None if texts else f"{label}: it has no lines `file:`, `old:` and `new:`"
