"""Finds each place in the crates that makes a want of memory, and sees that it hands on a growth that was refused.

No contract says when want of memory is answered, so this reads the sources, which `rt fmt` has laid out. A place is an
expression `AllocError`, `X::NoMemory` or `NoMemory`. It hands on a refusal where it stands

    in a function that is given an AllocError or an AllocFailed;
    in an arm whose pattern names want of memory;
    in an arm `Err(_)` of a match on a call that grows something, or of a function whose error is AllocError alone.

A macro of a crate that has such an arm stands for it at each place where it is used.

Every other place has a line `FILE | WHAT STANDS THERE | REASON` in `places`: the call that is matched, or the line
itself. A line there whose place is gone fails too.
"""
import re

from driver.sources import functions_of, source_folder
from driver.suite import Count
from driver.workspace import TOP, listed_crates

# calls of std and of the kit's crates that fail for want of memory alone
GROWTHS = {"push", "extend_from_slice", "insert", "reserve", "new", "collect", "format!", "to_vec", "from_str"}

MADE = re.compile(r"\b(?:\w+::)?NoMemory\b|\bAllocError\b")

# where the names stand for a type, or say what a contract does
NOT_CODE = re.compile(r"^\s*(?://|ghost |use |pub use |ensures|requires|impl|#\[|NoMemory,)|^(?:pub )?type ")

FUNCTION = re.compile(r"^\s*(?:pub |pub\(crate\) )?(?:const )?(?:extern \"C\" )?fn \w+")

# a macro of a crate, with its body
MACRO = re.compile(r"^macro_rules! (\w+) \{\n(.*?)^\}\n", re.MULTILINE | re.DOTALL)


class Place:
    """Where a want of memory is made: a line of a file, of which the lines before tell what leads there."""

    def __init__(self, path, lines, at):
        self.path = path
        self.lines = lines
        self.at = at
        self.text = lines[at].strip()

    def indent(self, at):
        return len(self.lines[at]) - len(self.lines[at].lstrip())

    def head(self):
        """The head of the function around it, in one line."""
        at = max(n for n in range(self.at + 1) if FUNCTION.match(self.lines[n]))
        end = next(n for n in range(at, len(self.lines)) if self.lines[n].rstrip().endswith("{"))
        return " ".join(line.strip() for line in self.lines[at:end + 1])

    def arm(self):
        """The line that begins the arm around it, None where it stands in none."""
        inner = self.indent(self.at)
        for at in range(self.at, -1, -1):
            if FUNCTION.match(self.lines[at]):
                return None
            if "=>" in self.lines[at] and self.indent(at) <= inner and MADE.search(self.lines[self.at]):
                return at
        return None

    def matched(self, arm):
        """What the match with this arm looks at."""
        outer = self.indent(arm) - 4
        at = max(n for n in range(arm) if self.indent(n) <= outer and re.search(r"\bmatch\b", self.lines[n]))
        text = " ".join(line.strip() for line in self.lines[at:arm])
        return re.search(r"\bmatch (.*?) \{", text)[1]


def is_made(line):
    """Whether the line has an expression of it, and not only a type or a pattern."""
    if NOT_CODE.match(line):
        return False
    code = re.sub(r"-> Result<.*?> ?\{?$|: Result<[^=]*>|<[^<>]*AllocError>|AllocFailed<[^>]*>", "", line)
    code = re.sub(r"^.*=>", "", code) if "=>" in code else code
    return bool(re.search(r"(?:\bErr\(|^\s*|return |&|=> ?|\()(?:\w+::)?(?:NoMemory|AllocError)\b(?!\s*[:>])", code))


def without_macros(text):
    """The text with blank lines in the place of macros."""
    return MACRO.sub(lambda it: "\n" * it[0].count("\n"), text)


def macros_of(crate):
    """The macros of a crate that answer want of memory for any error of what they are given."""
    texts = [path.read_text() for path in source_folder(crate).rglob("*.rt")]
    return {name for text in texts for name, body in MACRO.findall(text) if re.search(r"Err\(_\) => .*NoMemory", body)}


def given_to(macros, path):
    """What these macros are given in a file, each in one line, with its line's number."""
    text = without_macros(path.read_text())
    for use in re.finditer(rf"\b(?:{'|'.join(macros)})!\(", text) if macros else ():
        end, depth = use.end(), 1
        while depth:
            depth += {"(": 1, ")": -1}.get(text[end], 0)
            end += 1
        parts = [line.strip() for line in text[use.end():end - 1].splitlines() if line.strip()]
        yield text.count("\n", 0, use.start()) + 1, re.sub(r",\)$", ")", re.sub(r"\( ", "(", " ".join(parts)))


def places_of(path):
    lines = without_macros(path.read_text()).splitlines()
    in_clause = False
    for at, line in enumerate(lines):
        if re.match(r"\s*(?:ensures|requires)\b", line):
            in_clause = True
        elif re.match(r"\s*(?:\{|fn |pub fn )", line) or line.rstrip().endswith("{"):
            in_clause = False
        if MADE.search(line) and not in_clause and is_made(line):
            yield Place(path, lines, at)


class Growths:
    """The calls that fail for want of memory alone: those above, and functions whose error is AllocError alone."""

    def __init__(self):
        self.errors = {}
        for crate in listed_crates():
            for function in functions_of(crate):
                name = function.name.rpartition("::")[2]
                for where in (function.path, None):
                    self.errors.setdefault((where, name), set()).add(function.error)

    def has(self, path, name):
        """Whether it is one where this file calls it: one of the file itself, else any of the name."""
        found = self.errors.get((path, name)) or self.errors.get((None, name), set())
        return name in GROWTHS or found == {"AllocError"}


def called(text):
    """The name of the function or method that is called last in what a match looks at."""
    depth, names = 0, []
    for part in re.finditer(r"([\w:]+!?)(?:::<[^()]*>)?\(|\(|\)", text):
        if part[0] == ")":
            depth -= 1
            continue
        if depth == 0 and part[1]:
            names.append(part[1].rpartition("::")[2])
        depth += 1
    return names[-1] if names else text


def reason_wanted(place, growths):
    """What has to be listed of a place, None where it hands on a refusal."""
    if re.search(r"\b(?:AllocError|AllocFailed)\b", place.head().partition("->")[0]):
        return None
    arm = place.arm()
    if arm is None:
        return place.text
    pattern = place.lines[arm].partition("=>")[0]
    if re.search(r"NoMemory|OutOfMemory|AllocError", pattern):
        return None
    if "Err(_" not in pattern:
        return place.text
    looked = place.matched(arm)
    return None if growths.has(place.path, called(looked)) else looked


def run(test):
    rows = [line.split(" | ") for line in (test.folder / "places").read_text().splitlines() if not line.startswith("#")]
    listed = {(file, what): reason for file, what, reason in rows}
    growths, count, seen = Growths(), Count(0, []), set()
    for crate in listed_crates():
        macros = macros_of(crate)
        for path in sorted(source_folder(crate).rglob("*.rt")):
            name = str(path.relative_to(TOP / "crates"))
            wanted = [(place.at + 1, reason_wanted(place, growths)) for place in places_of(path)]
            for line, given in given_to(macros, path):
                wanted.append((line, None if growths.has(path, called(given)) else given))
            for line, what in wanted:
                seen.add((name, what))
                count.add(what is None or (name, what) in listed, f"{name}:{line} makes want of memory: {what}")
    for row in listed:
        count.add(row in seen, f"{row[0]} has no such place more: {row[1]}")
    return count
