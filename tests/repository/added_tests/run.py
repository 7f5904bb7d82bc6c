"""Runs the blocks of tests/README.md as they stand, each in a copy of the tests; and holds its table of groups to the folders.
"""
import re
import shutil

from driver.suite import TESTS, Count, all_tests
from driver.workspace import TOP


def copied(folder):
    """A copy of what the tests need of the repository; the crates are the same."""
    for part in ("tests", "tools"):
        shutil.copytree(TOP / part, folder / part, ignore=shutil.ignore_patterns("__pycache__"))
    for name in ("HANDLES", "VERSION", "crates.txt"):
        shutil.copy(TOP / name, folder)
    (folder / "crates").symlink_to(TOP / "crates")
    return folder


def run(test):
    count, text = Count(0, []), (TESTS / "README.md").read_text()
    groups = re.findall(r"^\| (\w+) \|", text.partition("\n| kind")[0], re.MULTILINE)[1:]
    count.add(groups == sorted({it.group for it in all_tests() if it.group}), f"tests/README.md: the groups are {groups}")
    for place, block in enumerate(re.findall(r"^```sh\n(.*?)^```$", text, re.MULTILINE | re.DOTALL)):
        done = test.call(["bash", "-ec", block], cwd=copied(test.room / str(place)))
        last = done.out.splitlines()[-1:]
        is_right = done.status == 0 and last and re.fullmatch(r"[1-9]\d* passed, 0 failed", last[0])
        count.add(is_right, f"{block}{done.out}{done.err}")
    return count
