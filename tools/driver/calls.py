"""Which functions call which, by reading the sources, which `rt fmt` has laid out.

A name is looked up in its file, by the `use` items there, and behind its path. The type of a method's receiver isn't
known: it may be any method of the name of the crate itself, of one that it uses, or of one that uses it, by a trait.
"""
import collections
import functools
import re

from driver.sources import functions_of
from driver.workspace import TOP, listed_crates

CRATES = TOP / "crates"

# a call: a dot before a method, the path before its name, its name
CALL = re.compile(r"(\.?)\b((?:\w+(?:::<[^()]*?>)?::)*)(\w+)(?:::<[^()]*?>)?\(")

USE = re.compile(r"^(?:pub(?:\(crate\))? )?use ([^;{]*)(?:\{([^}]*)\})?;", re.MULTILINE)

# through how many functions one may call another
HELPERS = 3


def crate_of(function):
    return function.path.relative_to(CRATES).parts[0]


def owner_of(function):
    return function.name.rpartition("::")[0]


@functools.cache
def all_functions():
    """All functions and methods by their names."""
    found = collections.defaultdict(list)
    for crate in listed_crates():
        for function in functions_of(crate):
            found[function.name.rpartition("::")[2]].append(function)
    return found


def functions_at(crate, module, name):
    """The functions of this name in a module of a crate, or anywhere in it where no module is named."""
    found = [it for it in all_functions()[name] if crate_of(it) == crate]
    return [it for it in found if module in ("", *it.path.parts, it.path.stem)]


@functools.cache
def imported(path):
    """The paths of the names that a file imports."""
    found = {}
    for base, names in USE.findall(path.read_text()):
        for name in names.split(","):
            whole, _, other = (base + name.strip()).strip().removesuffix("::self").partition(" as ")
            found[other or whole.rpartition("::")[2]] = whole.split("::")
    return found


def named(function, path):
    """The functions that a path may stand for in the file of a function."""
    used = imported(function.path).get(path[0], [])
    if len(path) == 1 and not used:
        return [it for it in all_functions()[path[0]] if it.path == function.path and not owner_of(it)]
    path = [*used, *path[1:]] if used else path
    own = crate_of(function)
    crate = path[0] if path[0] in listed_crates() else own
    outer = owner_of(function) if path[0] == "Self" else path[-2]
    found = [it for it in all_functions()[path[-1]] if crate_of(it) in (crate, *listed_crates()[crate])]
    if outer[:1].isupper():
        return [it for it in found if owner_of(it) == outer]
    found = [it for it in found if crate_of(it) == crate and not owner_of(it)]
    return [it for it in found if outer in (*it.path.parts, it.path.stem)] or found


def methods(function, name):
    """The methods that a call of this name in a function may be."""
    own, listed = crate_of(function), listed_crates()
    found = [it for it in all_functions()[name] if owner_of(it)]
    return [it for it in found if crate_of(it) in (own, *listed[own]) or own in listed[crate_of(it)]]


@functools.cache
def calls_of(function):
    """What a function may call: places in its body, each with a function."""
    lines = function.path.read_text().splitlines()[function.opening :]
    indent = re.match(" *", lines[0])[0]
    body = "\n".join(lines[1 : lines.index(f"{indent}}}")])
    found = []
    for call in CALL.finditer(re.sub("//.*", "", body)):
        dot, path, name = call.groups()
        path = [part for part in re.sub("<.*?>", "", path).split("::") if part]
        found += [(call.start(), it) for it in (methods(function, name) if dot else named(function, [*path, name]))]
    return found


def reaches(start, goals, others):
    """Whether a function is one of these, or calls one, through so many helpers at most, which are none of the others."""
    waiting, seen = collections.deque([(start, 0)]), set()
    while waiting:
        function, depth = waiting.popleft()
        if function in goals:
            return True
        if function not in seen and function not in others and depth < HELPERS:
            seen.add(function)
            waiting.extend((it, depth + 1) for _, it in calls_of(function))
    return False


def places_of(callers, goals, others):
    """The places in the bodies of functions where they call one of these, themselves or through helpers."""
    return [place for caller in callers for place, it in calls_of(caller) if reaches(it, goals, others)]
