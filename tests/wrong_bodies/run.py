"""Has the gate try the wrong bodies of wrong_bodies/CRATE/*.edit, each written as a crate's must-fail edits are.

The crates are copied, with these edits in the place of their own and the libraries that `rt check` or `rt lib` has built,
and `rt must-fail CRATE` builds those that aren't there and tries the edits. One that can't be planted any more isn't
tried: what has to be mended of it is told.
"""
import re
import shutil

from driver.edits import all_edits, fault_of
from driver.suite import Count

SAID = re.compile(r"^rt: must-fail (\w+)/([\w.-]+)\.edit: (.*)", re.MULTILINE)


def put_edits(workspace, edits):
    for edit, crate in edits:
        folder = workspace.folder / "crates" / crate / "must-fail"
        folder.mkdir(exist_ok=True)
        shutil.copy(edit, folder)


def run(test):
    edits = [(edit, crate) for edit, crate in all_edits() if test.folder in edit.parents and test.part in (None, crate)]
    faults = {edit: fault for edit, crate in edits if (fault := fault_of(edit, crate))}
    edits = [(edit, crate) for edit, crate in edits if edit not in faults]
    count = Count(0, list(faults.values()))
    return tried(test, edits, count) if edits else count


def tried(test, edits, count):
    names = list(dict.fromkeys(crate for _, crate in edits))
    workspace = test.workspace()
    workspace.copy_crates(names)
    put_edits(workspace, edits)
    workspace.copy_libraries()
    done = test.call(["rt", "must-fail", *names], cwd=workspace.folder)
    said = {(crate, edit): what for crate, edit, what in SAID.findall(done.out)}
    found = {edit: said.get((crate, edit.stem), "not tried") for edit, crate in edits}
    for edit, what in found.items():
        count.add(what.startswith("refused"), f"{edit.parent.name}/{edit.stem}: {what}")
    if not all(what.startswith("refused") for what in found.values()):
        count.failures.append(done.out[-2000:])
    return count
