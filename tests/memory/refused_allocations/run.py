"""Reads and writes by small programs, where one of the first three allocations that they ask for is refused. The first two
make room for an enumerator on its way in and out, which is judged without; the third is wanted for an octet.
"""
from driver.suite import Count

# how many allocations making the programs takes
BEFORE = 34


def run(test):
    crate = test.workspace().add_crate("refused", test.sources())
    wanted = (test.folder / "stdout").read_text().splitlines()
    count = Count(0, [])
    for refused in (1, 2, 3):
        done = test.call(["rt", "try", "--fail-alloc", BEFORE + refused], cwd=crate)
        said = done.out.splitlines()
        for line in wanted[:-1] if refused < 3 else wanted:
            count.add(line in said, f"allocation {refused} refused, wanted: {line}")
        if done.status or len(said) != len(wanted):
            count.failures.append((done.out + done.err)[-2000:])
    return count
