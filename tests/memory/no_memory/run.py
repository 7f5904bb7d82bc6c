"""Shows that no public call passes with a body that always answers want of memory.

Each contract allows want of memory at any time, so such a body is proved, and only a test tells it from the right one.
`calls` lists the public calls that may answer it, and for each a test that fails where its body begins with

    if planted::is_planted(17) && CONDITION { return Err(FAULT); }

The named tests of a folder are built once, with such a line in each call that they show, in copies of the crates. A
test stands there once more for each of its calls, under a name that ends in the call's number, which `is_planted` finds
among the words that the program was started with. So one build shows both that a test passes and that it fails.

A public call that may answer want of memory and isn't in the list fails as well. A part is CRATE, CRATE.FUNCTION or
CRATE.TYPE.FUNCTION: these calls alone.
"""
import concurrent.futures
import dataclasses
import re

from driver.sources import Function, calls_that_take_memory, functions_of
from driver.suite import Count, read_about, test_folders
from driver.workspace import TOP, listed_crates

FOLDERS = test_folders()
PLANTED = FOLDERS["no_memory"] / "planted"

# a test: the comment above it, its mark with `fn`, the blanks before these, its name, the rest
TEST = re.compile(r"((?: *///.*\n)*)(( *)#\[test\]\n *fn )(\w+)(\(.*\{\n(?s:.*?)^\3\}\n)", re.MULTILINE)

# how these errors tell of want of memory; the others have a variant NoMemory
FAULTS = {"AllocError": "std::alloc::AllocError", "Failed": "Failed", "fmt::Error": "fmt::Error"}


@dataclasses.dataclass
class Call:
    """A line of the list, with its number, the function that it names, and the folder and name of its test."""

    number: int
    crate: str
    function: Function
    condition: str
    folder: str
    test: str
    answer: str

    @property
    def label(self):
        return f"{self.crate} {self.function.name}"

    @property
    def module(self):
        return self.test.rpartition("::")[0]

    @property
    def test_name(self):
        return self.test.rpartition("::")[2]

    @property
    def own_test(self):
        return f"planted_{self.number:03}"

    def is_of(self, part):
        label = f"{self.crate}.{self.function.name.replace('::', '.')}"
        return part is None or label == part or label.startswith(f"{part}.")

    def planted(self):
        test = f"planted::is_planted({self.number})"
        where = test if self.condition == "always" else f"{test} && {self.condition}"
        return f"if {where} {{ return {self.answer}; }}"


def read_calls(path):
    """The lines of the list: `CRATE FUNCTION | CONDITION | FOLDER/TEST`, and maybe ` | ANSWER`."""
    lines = [line for line in path.read_text().splitlines() if line and not line.startswith("#")]
    return [read_call(number, line) for number, line in enumerate(lines, 1)]


def read_call(number, line):
    name, condition, test, *answer = (word.strip() for word in line.split("|"))
    crate, name = name.split()
    found = [it for it in functions_of(crate) if it.name == name]
    if len(found) > 1:
        found = [it for it in found if it.is_public]
    if len(found) != 1:
        raise ValueError(f"{len(found)} functions of {crate} are {name}")
    function = found[0]
    fault = FAULTS.get(function.error, f"{function.error}::NoMemory")
    folder, _, test = test.partition("/")
    return Call(number, crate, function, condition, folder, test, answer[0] if answer else f"Err({fault})")


def missing_calls(calls):
    """Public calls that may answer want of memory and aren't in the list."""
    listed = {call.label for call in calls}
    for crate in listed_crates():
        for function in calls_that_take_memory(crate):
            if f"{crate} {function.name}" not in listed:
                yield f"{crate} {function.name} isn't in the list"


def plant(workspace, calls):
    """Writes the first lines of the bodies into the copies of the crates, and has these use the crate that chooses."""
    for path in {call.function.path for call in calls}:
        copy = workspace.folder / path.relative_to(TOP)
        lines = copy.read_text().splitlines(keepends=True)
        for call in calls:
            if call.function.path == path:
                lines[call.function.opening] += f"{call.planted()}\n"
        copy.write_text("".join(lines))
    workspace.add_crate("planted", [PLANTED / "lib.rt.in"])
    workspace.use_in({call.crate for call in calls}, "planted")


def repeat_tests(path, calls):
    """Repeats the tests of a file that show these calls, under the calls' own names, and leaves out the others."""

    def put(found):
        comment, head, _, name, rest = found.groups()
        own = [f"{head}{call.own_test}{rest}\n" for call in calls if call.test_name == name]
        return "".join([*own, comment, head, name, rest]) if own else ""

    path.write_text(TEST.sub(put, path.read_text()))


def crate_of_tests(workspace, folder, calls):
    """Makes the crate of a folder's tests. Returns its folder."""
    sources = sorted(FOLDERS[folder].glob("*.rt.in"))
    crate = workspace.add_tests(folder, sources, read_about(FOLDERS[folder]).get("within"))
    for path in (crate / "src").glob("*.rt"):
        module = "tests" if path.stem == "lib" else path.stem
        repeat_tests(path, [call for call in calls if call.module == module])
    return crate


def try_folder(test, folder, calls):
    """Counts the calls that are shown by the tests of a folder."""
    workspace = test.workspace(folder)
    crate = crate_of_tests(workspace, folder, calls)
    plant(workspace, calls)
    done = test.call(["rt", "try", "--test", "--seconds", test.seconds], cwd=crate)
    said = dict(re.findall(r"^test (\S+) \.\.\. (\w+)$", done.out + done.err, re.MULTILINE))
    count = Count(0, [])
    for call in calls:
        plain, planted = (said.get(f"{call.module}::{name}", "not run") for name in (call.test_name, call.own_test))
        is_right = (plain, planted) == ("ok", "FAILED")
        count.add(is_right, f"{call.label}: {folder}/{call.test} is {plain}, with this body {planted}")
    if not said:
        count.failures.append((done.out + done.err)[-4000:])
    return count


def run(test):
    every = read_calls(test.folder / "calls")
    calls = [call for call in every if call.is_of(test.part)]
    count = Count(0, list(missing_calls(every)))
    folders = sorted({call.folder for call in calls})
    with concurrent.futures.ThreadPoolExecutor(test.lanes) as pool:
        for found in pool.map(lambda it: try_folder(test, it, [call for call in calls if call.folder == it]), folders):
            count.passed += found.passed
            count.failures += found.failures
    return count
