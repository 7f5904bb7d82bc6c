"""Copies of crates in a folder of their own, outside the repository: the gate takes any source in that for a part."""
import itertools
import pathlib
import re
import shutil

TOP = pathlib.Path(__file__).resolve().parents[2]

# the parts of a crate that its proof reads
PARTS = ("src", "specs", "proofs")


def crates_of_list(text):
    """The libraries that each crate of a list like crates.txt names."""
    lines = [line.partition("#")[0] for line in text.splitlines()]
    rows = [line.partition(":") for line in lines if ":" in line]
    return {name.split()[0]: below.split() for name, _, below in rows}


def listed_crates():
    return crates_of_list((TOP / "crates.txt").read_text())


def crates_below(listed, names):
    """The crates of these names and those on which they stand, lowest first."""
    found = []

    def add(name):
        if name in listed and name not in found:
            for below in listed[name]:
                add(below)
            found.append(name)

    for name in names:
        add(name)
    return found


def spelled_out(path):
    """The paths that one with `{a,b}` stands for."""
    parts = [part.split(",") for part in re.split(r"[{}]", path)]
    return ["".join(part) for part in itertools.product(*parts)]


class Workspace:
    """A folder that holds copies of crates, and crates of its own that stand on them."""

    def __init__(self, folder):
        self.folder = pathlib.Path(folder)
        self.listed = listed_crates()
        self.copied = []
        self.rows = {}
        (self.folder / "crates").mkdir(parents=True, exist_ok=True)
        self._list({})
        shutil.copy(TOP / "HANDLES", self.folder)

    def copy_crates(self, names):
        """Copies the crates of these names and those below them, but for their edits; what was proved there stays."""
        for name in crates_below(self.listed, names):
            if name not in self.copied:
                self._copy_crate(TOP / "crates" / name, self.folder / "crates" / name)
                self._list({name: self.listed[name]})
                self.copied.append(name)

    def copy_libraries(self):
        """Copies what was built of the crates that are here, which `rt` takes where it is that of their sources."""
        for name in self.copied:
            built = TOP / "crates" / name / "out" / "rlib"
            if built.is_dir():
                shutil.copytree(built, self.folder / "crates" / name / "out" / "rlib", dirs_exist_ok=True)

    def use_in(self, names, library):
        """Has copies of crates use one library more."""
        self._list({name: [*self.rows[name], library] for name in names})

    def _copy_crate(self, crate, copy):
        for part in copy.glob("*"):
            if part.name in PARTS:
                shutil.rmtree(part)
        shutil.copytree(crate, copy, ignore=shutil.ignore_patterns("out", "must-fail"), dirs_exist_ok=True)

    def _list(self, rows):
        """Writes the list of crates, with these."""
        self.rows.update(rows)
        text = "".join(f"{name}: {' '.join(below)}\n" for name, below in self.rows.items())
        (self.folder / "crates.txt").write_text(text)

    def add_tests(self, name, sources, within=None):
        """Makes a crate of the sources of a test, or puts them into the copy of a crate. Returns its folder."""
        return self.add_to_crate(within, sources) if within else self.add_crate(f"test_{name}", sources)

    def add_to_crate(self, name, sources):
        """Has the copy of a crate have files `NAME.rt.in` as modules of its tests. Returns its folder."""
        self.copy_crates([name])
        source_folder = self.folder / "crates" / name / "src"
        root = next(path for path in (source_folder / "main.rt", source_folder / "lib.rt") if path.is_file())
        modules = ""
        for source in sources:
            shutil.copy(source, source_folder / source.name.removesuffix(".in"))
            modules += f"\n#[cfg(test)]\nmod {source.name.partition('.')[0]};\n"
        root.write_text(root.read_text() + modules)
        return self.folder / "crates" / name

    def add_crate(self, name, sources):
        """Makes a crate of files `NAME.rt.in`, with the crates that these name. Returns its folder."""
        folder = self.folder / "crates" / name
        shutil.rmtree(folder / "src", ignore_errors=True)
        (folder / "src").mkdir(parents=True)
        text = ""
        for source in sources:
            text += source.read_text()
            shutil.copy(source, folder / "src" / source.name.removesuffix(".in"))
        below = self.crates_named(text)
        self.copy_crates(below)
        self._list({name: below})
        return folder

    def add_together(self, tests):
        """Makes a crate of the sources of several tests, each of which is a module `of_NAME` in it. Returns its folder."""
        root, text = "#![tactic(auto)]\n", ""
        source_folder = self.folder / "crates" / "tests_together" / "src"
        for name, sources in tests.items():
            module = f"of_{name}"
            root += f"\n#[cfg(test)]\nmod {module};\n"
            (source_folder / module).mkdir(parents=True)
            for source in sources:
                text += source.read_text()
                own = source.read_text().replace("#![tactic(auto)]\n", "")
                part = source.name.removesuffix(".in")
                path = source_folder / (f"{module}.rt" if part == "lib.rt" else f"{module}/{part}")
                path.write_text(re.sub(r"\bcrate::", f"crate::{module}::", own))
        (source_folder / "lib.rt").write_text(root)
        below = self.crates_named(text)
        self.copy_crates(below)
        self._list({"tests_together": below})
        return source_folder.parent

    def crates_named(self, text):
        """The libraries that a source or a clause in it names, of the repository and of those that its crates use."""
        known = {*self.listed, "anyhow", "os", *(below for names in self.listed.values() for below in names)}
        return [name for name in sorted(known) if re.search(rf"(?<![\w:]){name}::|Rattle\.{name}\.", text)]
