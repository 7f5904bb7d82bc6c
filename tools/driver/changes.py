"""What a change touches: the crates that it changes and those above them, and the tests that run these."""
import pathlib
import re
import subprocess

from driver.workspace import TOP, crates_of_list, listed_crates

# what every crate, or every test, may stand on
FOR_ALL_CRATES = ("HANDLES",)
# how a test names what is made of a crate
MADE = {"idlc_main": r'PROGRAM|"idlc"', "idlc_c": r'TOP / "c"|c/build'}


def said_by_git(*words):
    done = subprocess.run(["git", *words], cwd=TOP, capture_output=True, text=True)
    return done.stdout if done.returncode == 0 else None


def default_base():
    """Where HEAD left its upstream; the last commit where there is none."""
    return (said_by_git("merge-base", "HEAD", "@{upstream}") or "HEAD").strip()


def changed_paths(base):
    """The paths that differ from a commit, those not added yet among them; None where there is no such commit."""
    changed = said_by_git("diff", "--name-only", "--no-renames", base, "--")
    new = said_by_git("ls-files", "--others", "--exclude-standard")
    return None if changed is None else sorted({*changed.splitlines(), *new.splitlines()})


def crates_changed(paths, list_before):
    """The crates of which a path or the row in crates.txt isn't as before. A README changes no crate."""
    listed, before = listed_crates(), crates_of_list(list_before)
    if any(path in FOR_ALL_CRATES for path in paths):
        return set(listed)
    found = {name for name, below in listed.items() if before.get(name) != below}
    parts = (pathlib.PurePath(path).parts for path in paths)
    return found | {part[1] for part in parts if part[0] == "crates" and part[1] in listed and part[2:] != ("README.md",)}


def crates_touched(paths, list_before):
    """The crates that are changed, and those that stand on them, in the order of crates.txt."""
    listed, touched = listed_crates(), crates_changed(paths, list_before)
    while above := {name for name, below in listed.items() if touched & {*below}} - touched:
        touched |= above
    return [name for name in listed if name in touched]


def is_test_touched(test, paths, crates):
    """Whether a test or a crate that it names is touched, or the program that it runs, or a document or tool."""
    if any((TOP / path).is_relative_to(test.folder) for path in paths):
        return True
    sources = [path for path in test.folder.rglob("*") if path.suffix in (".py", ".in")]
    text = "\n".join(path.read_text() for path in sources) + f"\n{test.within}"
    if any(crate in crates and re.search(made, text) for crate, made in MADE.items()):
        return True
    beside = {pathlib.PurePath(path).parts[0] for path in paths} - {"crates", "tests"}
    is_named = any(re.search(rf"\b{re.escape(name)}\b", text) for name in (*crates, *beside))
    return is_named or "tools" in beside or ".md" in text and any(path.endswith(".md") for path in paths)
