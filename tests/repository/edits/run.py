"""Plants each wrong body of the crates' must-fail folders and of tests/wrong_bodies, without a proof: a line that was
reworded since is told, with the edit, its file and its function.
"""
from driver.edits import all_edits, fault_of
from driver.suite import Count


def run(test):
    count = Count(0, [])
    for edit, crate in all_edits():
        fault = fault_of(edit, crate)
        count.add(fault is None, fault)
    return count
