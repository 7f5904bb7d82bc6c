"""Asks the proved program of sentences of the grammar and of what is nearly one: it refuses for the grammar just what
grammar.py says is no sentence. What stands behind the grammar, names and types, may be refused otherwise.
"""
import importlib.util
import re
import sys

from driver.suite import Count
from driver.workspace import TOP

PROGRAM = TOP / "crates" / "idlc_main" / "out" / "idlc_main"

SENTENCES = 2000

# of as many that were changed at least these have to be sentences, and these none
EACH = 200


def load(folder, name):
    spec = importlib.util.spec_from_file_location(name, folder / f"{name}.py")
    module = importlib.util.module_from_spec(spec)
    sys.modules[name] = module
    spec.loader.exec_module(module)
    return module


def is_refused_for_grammar(test, source):
    done = test.call([PROGRAM, "check", source])
    said = re.match(r"idlc: (\d+) ", done.err)
    number = int(said[1]) if said else 0
    if 0 < number < 10 or done.status > 1:
        raise ValueError(f"{source.read_text()}\n{done.err}")
    return 10 <= number < 20


def run(test):
    grammar = load(test.folder, "grammar")
    count, source, sentences = Count(0, []), test.room / "source.idl", 0
    for seed in range(SENTENCES):
        tokens = grammar.sentence(seed)
        near = grammar.changed(seed, tokens)
        for is_made, found in ((True, tokens), (False, near)):
            is_right = grammar.is_sentence(found)
            source.write_text(grammar.text_of(found))
            is_refused = is_refused_for_grammar(test, source)
            count.add(is_right != is_refused and (is_right or not is_made), source.read_text())
            sentences += is_right and not is_made
    count.add(EACH <= sentences <= SENTENCES - EACH, f"{sentences} of those that were changed are sentences")
    return count
