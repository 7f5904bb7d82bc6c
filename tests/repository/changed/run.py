"""Asks which crates and tests some changes touch. Each is a list of paths; nothing is changed."""
from driver.changes import crates_touched, is_test_touched
from driver.suite import Count, all_tests
from driver.workspace import TOP, listed_crates

LIST = (TOP / "crates.txt").read_text()
# paths, some crates that they touch, and some that they don't
CRATES = (
    (["crates/idlc_c/src/lib.rt"], {"idlc_c"}, {*listed_crates()} - {"idlc_c"}),
    (["crates/giop/src/lib.rt"], {"giop", "broker_answers", "iiop_broker", "idlc_main", "idlc_c"}, {"type_graph", "idl_lexer"}),
    (["crates/giop/README.md", "README.md", "tests/repository/docs/run.py"], set(), {*listed_crates()}),
    (["crates/giop/must-fail/x.edit"], {"giop"}, {"type_graph"}),
    (["HANDLES"], {*listed_crates()}, set()),
)
# paths, some tests that they touch, and some that they don't
TESTS = (
    (["crates/giop/src/lib.rt"], {"giop", "commands", "calls"}, {"names", "trees", "named_in_documents"}),
    (["crates/idlc_c/src/lib.rt"], {"c_library"}, {"docs", "commands", "names"}),
    (["docs/GATE.md"], {"docs", "documents", "named_in_documents"}, {"names", "giop"}),
    (["tests/idl/names/about"], {"names"}, {"docs", "giop", "commands"}),
    (["tools/driver/suite.py"], {"docs", "names", "giop"}, set()),
)


def run(test):
    count = Count(0, [])
    for paths, within, without in CRATES:
        found = {*crates_touched(paths, LIST)}
        count.add(within <= found and not without & found, f"{paths}: {sorted(found)}")
    moved = LIST.replace("\ngenerator:", "\ngenerator: idl_value")
    count.add("idl_compiler" in crates_touched([], moved), "a crate whose row isn't as before, or one above it")
    for paths, within, without in TESTS:
        crates = crates_touched(paths, LIST)
        found = {it.name for it in all_tests() if is_test_touched(it, paths, crates)}
        count.add(within <= found and not without & found, f"{paths}: {sorted(found)}")
    return count
