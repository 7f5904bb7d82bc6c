"""Refuses each allocation in turn that the calls of a program ask for.

`rt try` refuses one allocation, by its number, in all runs of one build. So the program makes as many allocations before
the calls as it reads on standard input: where the one with the number MOST is refused, D of them make that the one with
the number MOST - D of the calls. A part is a number N: of N allocations one is refused.
"""
import collections
import re

from driver.suite import Count, test_folders

# more than there are
MOST = 2500


def write_cases(folder, every):
    folder.mkdir()
    for before in range(MOST):
        if before == 0 or (MOST - before) % every == 0:
            (folder / f"{before:06}").write_text(f"{before}\n")


def run(test):
    sources = [*test.sources(), test_folders()["broker"] / "counter.rt.in"]
    crate = test.workspace().add_crate("refused_calls", sources)
    write_cases(test.room / "cases", int(test.part or 1))
    done = test.call(["rt", "try", "--steps", 1, "--fail-alloc", MOST, "--cases", test.room / "cases"], cwd=crate)
    said = [line for line in done.out.splitlines() if not line.startswith("==")]
    count = Count(0, [])
    for line, times in sorted(collections.Counter(said).items()):
        print(f"  {times:5} {line}", flush=True)
    # with none refused all calls answer, or there are more allocations than MOST
    count.add(said[:1] == ["all calls answered"], f"with none refused: {said[:1]}")
    for line in said[1:]:
        count.add("WRONG" not in line, line)
    ended = [line for line in done.err.splitlines() if not re.match("allocations:|.*run=ended status=0", line)]
    if done.status:
        count.failures.append("\n".join(ended[:20]))
    return count
