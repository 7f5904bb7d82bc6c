"""Compares the trees of small sources as they are printed.

The crate of the tree has no `Debug`, since a derived one is proved as well, in minutes. The copy that is tried has it; a
token of the tree is printed as its text.
"""
import re

# the types that derive nothing, with the attributes before them
PLAIN = re.compile(r"^(?<!\)\]\n)((?:#\[cycle\(\w+\)\]\n)?)(?=pub (?:struct|enum) )", re.MULTILINE)
COPIED = "#[derive(Clone, Copy, PartialEq, Eq)]\n"


def add_debug(tree, leaf):
    for source in tree.glob("*.rt"):
        text = source.read_text().replace(COPIED, "#[derive(Clone, Copy, Debug, PartialEq, Eq)]\n")
        source.write_text(PLAIN.sub(r"\1#[derive(Debug)]\n", text))
    with open(tree / "names.rt", "a") as file:
        file.write(leaf.read_text())


def run(test):
    leaf = test.folder / "leaf.rt.in"
    workspace = test.workspace()
    crate = workspace.add_crate("test_trees", [source for source in test.sources() if source != leaf])
    add_debug(workspace.folder / "crates" / "idl_tree" / "src", leaf)
    return test.try_tests(crate)
