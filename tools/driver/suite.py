"""The tests that stand beside the gate: each is a folder tests/GROUP/NAME with a file `about`; wrong_bodies has no group.

`about` has lines `KEY: VALUE`:

    shows: what the test shows
    minutes: the processor time that it takes, in minutes
    seconds: how long one build of it may run, 300 where it isn't said
    within: the crate whose modules its `*.rt.in` are, instead of a crate of their own
    stack: the MiB of stack that its tests get, where the usual 8 aren't enough without the gate's optimised build
    with: a name that several tests without `within`, `stack` and run.py have: they are built together, since building the
        crates below takes most of the time
    wants: TOOL, TOOL       what it needs beside the toolchain and Python 3
    long: yes               it is run where it is named or asked for

Where a folder has no `run.py`, its `*.rt.in` are the sources of a crate whose tests are run without a proof. Else
`run.py` has a function `run(test)`, which makes what it needs by `test` and answers a `Count`.
"""
import collections
import concurrent.futures
import dataclasses
import importlib.util
import os
import pathlib
import re
import shutil
import tempfile
import time

from driver.commands import Clock
from driver.workspace import TOP, Workspace

TESTS = TOP / "tests"


@dataclasses.dataclass
class Count:
    """How many cases passed, and a text for each that failed."""

    passed: int
    failures: list

    def add(self, is_right, failure):
        """Counts a case, which failed with this text where it isn't right."""
        if is_right:
            self.passed += 1
        else:
            self.failures.append(failure)


def read_about(folder):
    rows = [line.partition(":") for line in (folder / "about").read_text().splitlines() if line]
    return {key: value.strip() for key, _, value in rows}


def missing_tools(about):
    """The tools and files that an `about` wants and this machine hasn't."""
    wanted = [tool.strip() for tool in about.get("wants", "").split(",") if tool]
    return [tool for tool in wanted if not (shutil.which(tool) or pathlib.Path(tool).is_file())]


def told_apart(said):
    """What the tests of each module `of_NAME` of a crate came to, by name; nothing where the run broke off."""
    found = collections.defaultdict(list)
    rows = re.findall(r"^test of_(\w+)::\S+ \.\.\. (\w+)$", said, re.MULTILINE)
    for name, what in rows:
        found[name].append(what)
    end = re.search(r"^test result: \w+\. (\d+) passed; (\d+) failed", said, re.MULTILINE)
    return found if end and int(end[1]) + int(end[2]) == len(rows) else {}


class Together:
    """Tests that are built as one crate, in which each is a module. One whose tests don't all pass there is built and run
    by itself too, which tells more."""

    def __init__(self, tests):
        self.tests = tests
        self.label = ", ".join(test.name for test in tests)
        self.minutes = sum(test.minutes for test in tests)
        self.clock = Clock()
        self.lanes = 1

    def run(self, room):
        crate = Workspace(room / "work").add_together({test.name: test.sources() for test in self.tests})
        # each takes up to two minutes where it is alone
        seconds = max(test.seconds for test in self.tests) + 120 * len(self.tests)
        done = self.clock.call(["rt", "try", "--test", "--seconds", seconds], cwd=crate)
        told, count = told_apart(done.out + done.err), Count(0, [])
        if not told:
            print(f"{self.label}: built together they give no result:\n{(done.out + done.err)[-2000:]}", flush=True)
        for test in self.tests:
            rows = told.get(test.name, [])
            is_right = bool(rows) and set(rows) == {"ok"}
            own = Count(len(rows), []) if is_right else self.run_alone(test, room / test.name)
            if "FAILED" in rows and not own.failures:
                own.failures.append(f"{rows.count('FAILED')} tests failed where it was built together with others, none alone")
            count.passed += own.passed
            count.failures += [f"{test.name}: {failure}" for failure in own.failures]
        return count

    def run_alone(self, test, room):
        print(f"{test.name} is built alone, since together with others not all of it passed", flush=True)
        room.mkdir()
        count = test.run(room)
        self.clock.seconds += test.clock.seconds
        return count


def built_together(tests):
    """The tests, those in one's place that are built together."""
    parts = collections.defaultdict(list)
    for test in tests:
        parts[test.together or test.label].append(test)
    return [Together(part) if len(part) > 1 and part[0].together else part[0] for part in parts.values()]


def test_folders():
    """The folder of each test by its name."""
    abouts = sorted([*TESTS.glob("*/about"), *TESTS.glob("*/*/about")], key=lambda it: it.parent.name)
    found = {about.parent.name: about.parent for about in abouts}
    if len(found) < len(abouts):
        raise ValueError("two tests have one name")
    return found


class Test:
    """A test, and what it needs to run: a clock, copies of crates, a scratch folder; how many commands it may run at
    a time."""

    def __init__(self, folder, part=None):
        about = read_about(folder)
        self.folder = folder
        self.name = folder.name
        self.group = None if folder.parent == TESTS else folder.parent.name
        self.part = part
        self.shows = about["shows"]
        self.minutes = float(about["minutes"])
        self.seconds = int(about.get("seconds", 300))
        self.within = about.get("within")
        self.together = about.get("with")
        self.stack = int(about.get("stack", 0))
        self.is_long = about.get("long") == "yes"
        self.wants = about.get("wants", "")
        self.lacking = missing_tools(about)
        self.clock = Clock()
        self.lanes = 1
        self.room = None

    @property
    def label(self):
        return f"{self.name}/{self.part}" if self.part else self.name

    def sources(self):
        return sorted(self.folder.glob("*.rt.in"))

    def workspace(self, name="work"):
        return Workspace(self.room / name)

    def call(self, words, **how):
        return self.clock.call(words, **how)

    def run(self, room):
        """Runs the test in a folder of its own and returns its count."""
        self.room = room
        script = self.folder / "run.py"
        if not script.is_file():
            return self.try_tests(self.workspace().add_tests(self.name, self.sources(), self.within))
        spec = importlib.util.spec_from_file_location(f"test_{self.name}", script)
        module = importlib.util.module_from_spec(spec)
        spec.loader.exec_module(module)
        return module.run(self)

    def try_tests(self, crate):
        """Builds a crate's tests without a proof and runs them."""
        words = ["rt", "try", "--test", "--seconds", self.seconds]
        if self.stack:
            words = ["prlimit", f"--stack={self.stack << 20}:", *words]
        done = self.call(words, cwd=crate)
        passed = len(re.findall(r"^test .* \.\.\. ok$", done.out + done.err, re.MULTILINE))
        said = re.search(r"^test result: ok\. (\d+) passed; 0 failed", done.out + done.err, re.MULTILINE)
        if done.status == 0 and said and int(said[1]) == passed > 0:
            return Count(passed, [])
        return Count(passed, [(done.out + done.err)[-4000:]])


def all_tests():
    return [Test(folder) for folder in test_folders().values()]


def tests_named(words):
    """The tests of these names, each `NAME` or `NAME/PART`, or a group, which stands for its tests that aren't long; a
    name that is none gives a KeyError."""
    known, found = test_folders(), []
    for name, _, part in (word.partition("/") for word in words):
        of_group = [test for test in all_tests() if test.group == name and not test.is_long and not part]
        found += of_group or [Test(known[name], part or None)]
    return found


def tell_list():
    tests = all_tests()
    for group in sorted({test.group or "" for test in tests}):
        print(f"{group or 'without a group'}:")
        for test in (it for it in tests if (it.group or "") == group):
            notes = ["long"] * test.is_long + [f"wants {test.wants}"] * bool(test.wants)
            print(f"  {test.name:20} {test.minutes:5.1f} min  {test.shows}" + (f" ({', '.join(notes)})" if notes else ""))


def run_one(test, work):
    """Runs a test and reports it, with the time by the clock and of processors. Returns its count."""
    begun = time.monotonic()
    room = pathlib.Path(tempfile.mkdtemp(dir=work))
    try:
        count = test.run(room)
    except Exception as error:  # a script that stops counts as a failure
        count = Count(0, [f"{type(error).__name__}: {error}"])
    shutil.rmtree(room, ignore_errors=True)
    took = f"{time.monotonic() - begun:.0f} s, {test.clock.seconds:.0f} of processor time"
    print(f"{test.label}: {count.passed} passed, {len(count.failures)} failed ({took})", flush=True)
    for failure in count.failures[:20]:
        print(f"  {failure}".replace("\n", "\n  "), flush=True)
    return count, test.clock.seconds


def run_tests(tests, jobs, is_all=False):
    """Runs tests, up to so many at a time, the longest first. Returns how many cases passed and failed.

    A test that wants a tool that isn't there is listed and not run; with is_all it fails.
    """
    lacking = [test for test in tests if test.lacking]
    ready = [test for test in tests if not test.lacking]
    parts = sorted(built_together(ready), key=lambda it: -it.minutes)
    for test in parts:
        test.lanes = max(1, jobs // len(parts))
    begun = time.monotonic()
    with tempfile.TemporaryDirectory(prefix="idlc-tests-") as work:
        with concurrent.futures.ThreadPoolExecutor(max(1, jobs)) as pool:
            counts = list(pool.map(lambda test: run_one(test, work), parts))
    passed = sum(count.passed for count, _ in counts)
    failed = sum(len(count.failures) for count, _ in counts) + (len(lacking) if is_all else 0)
    seconds = sum(seconds for _, seconds in counts)
    print(f"{len(ready)} tests: {(time.monotonic() - begun) / 60:.1f} minutes, {seconds / 60:.1f} of processor time")
    for test in lacking:
        print(f"not run: {test.name}, wants {', '.join(test.lacking)}")
    return passed, failed


def lanes():
    """How many tests run at a time: as many as there are processors, and four at most."""
    return min(4, len(os.sched_getaffinity(0)))
