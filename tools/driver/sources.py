"""The functions of a crate, read from its sources, which `rt fmt` has laid out."""
import dataclasses
import functools
import pathlib
import re

from driver.workspace import TOP, listed_crates

# the parameters of an implementation, as `<'a, T: Read>`
GENERICS = r"(?:<(?:[^<>]|<[^<>]*>)*>)?"


@dataclasses.dataclass(frozen=True)
class Function:
    """A function: its name, behind `TYPE::` for a method; its file; the line, from 0, that opens its body; the type
    that it answers, as it is written; whether other crates can call it."""

    name: str
    path: pathlib.Path
    opening: int
    answer: str
    is_public: bool

    @property
    def error(self):
        """The name of the type that says why there is no value, where the answer has one."""
        if self.answer == "fmt::Result":
            return "fmt::Error"
        parts = re.match(r"Result<.*, (\w+)(?:<.*>)?>$", self.answer)
        return parts[1] if parts else None


def source_folder(crate):
    return TOP / "crates" / crate / "src"


@functools.cache
def offered(crate):
    """What a library offers by its root and its public modules: pairs of a file and a name in it."""
    root = source_folder(crate) / "lib.rt"
    if not root.is_file():
        return set()
    found, paths = set(), [(root, root.parent)]
    for path, folder in paths:
        text = path.read_text()
        paths += [(folder / f"{name}.rt", folder / name) for name in re.findall(r"^pub mod (\w+);", text, re.MULTILINE)]
        names = re.findall(r"^pub (?:const )?(?:struct|enum|trait|fn) (\w+)", text, re.MULTILINE)
        found.update((path, name) for name in names)
        for module, names in re.findall(r"^pub use ([\w:]+)::(\w+|\{[^}]*\});", text, re.MULTILINE):
            file = folder / (module.replace("::", "/") + ".rt")
            found.update((file, name) for name in re.findall(r"\w+", names))
    return found


@functools.cache
def offered_names():
    """The names of what all crates offer."""
    return {name for crate in listed_crates() for _, name in offered(crate)}


class Reader:
    """Goes over the lines of a file and finds its functions."""

    def __init__(self, crate, path):
        self.path = path
        self.offered = offered(crate)
        self.types = {name for _, name in self.offered}
        self.lines = path.read_text().splitlines()

    def functions(self):
        owner = trait = None
        for at, line in enumerate(self.lines):
            if line.startswith("impl"):
                owner, trait = self.implemented(at)
            elif line == "}":
                owner = trait = None
            found = re.match(r"( {4})?(pub |pub\(crate\) )?(?:const )?fn (\w+)", line)
            if found and bool(found[1]) == bool(owner):
                opening = self.opening(at, found[1] or "")
                if opening is not None:
                    yield self.function(at, opening, found[3], owner, trait, found[2] == "pub ")

    def implemented(self, at):
        """The names of the type and of the trait of an implementation."""
        text = " ".join(self.lines[at:at + 12]).partition("{")[0]
        head = re.sub(rf"^impl{GENERICS} ", "", text).partition(" where ")[0]
        trait, _, owner = head.rpartition(" for ")
        return tuple(re.sub(r"<.*", "", word).strip().rpartition("::")[2] for word in (owner, trait))

    def function(self, at, opening, name, owner, trait, is_pub):
        text = " ".join(line.strip() for line in self.lines[at:opening + 1])
        text = re.split(r" (?:requires|ensures)\*? | where |//", text)[0].removesuffix("{").strip()
        if owner:
            is_public = owner in self.types and (trait in offered_names() | {"Display"} if trait else is_pub)
        else:
            is_public = is_pub and (self.path, name) in self.offered
        label = f"{owner}::{name}" if owner else name
        return Function(label, self.path, opening, text.rpartition(" -> ")[2], is_public)

    def opening(self, at, indent):
        """The line that opens the body of the function that begins here, None where that has nothing in it."""
        while not re.match(rf"{indent}(\{{|(pub |pub\(crate\) |fn |const |\)).* \{{|.*\{{\}}|.*;)$", self.lines[at]):
            at += 1
        return at if self.lines[at].endswith("{") else None


@functools.cache
def functions_of(crate):
    """The functions of a crate, in the order of its files."""
    return [it for path in sorted(source_folder(crate).rglob("*.rt")) for it in Reader(crate, path).functions()]


@functools.cache
def errors_of_memory():
    """The names of the errors that can be an allocation failure: by a variant NoMemory, or as these do."""
    found = {"AllocError", "Failed", "Refused", "fmt::Error"}
    for crate in listed_crates():
        for path in source_folder(crate).rglob("*.rt"):
            text = path.read_text()
            for name, variants in re.findall(r"^pub enum (\w+)[^{]*\{\n(.*?)^\}", text, re.MULTILINE | re.DOTALL):
                if re.search(r"^    NoMemory,", variants, re.MULTILINE):
                    found.add(name)
    return found


def calls_that_take_memory(crate):
    """The functions of a crate that others can call and that may fail to allocate."""
    return [it for it in functions_of(crate) if it.is_public and it.error in errors_of_memory()]
