"""Runs the proved program on values as text."""
import importlib.util
import json
import pathlib
import random
import subprocess

from driver.suite import Count
from driver.workspace import TOP


def sibling(name):
    """The module of that name in this folder."""
    spec = importlib.util.spec_from_file_location(name, pathlib.Path(__file__).with_name(f"{name}.py"))
    module = importlib.util.module_from_spec(spec)
    spec.loader.exec_module(module)
    return module


VALUES = sibling("values")

PROGRAM = TOP / "crates" / "idlc_main" / "out" / "idlc_main"

IDL = """enum Color {red, green, blue};
struct Point {long x; long y;};
struct Label {octet n; string<3> text; boolean on; char c;};
union Shade switch(Color) {case red: long depth; case green: string name;};
typedef sequence<octet> Raw;
typedef sequence<char> Letters;
typedef sequence<boolean, 2> Flags;
typedef long Pair[2];
struct Tree {octet head; sequence<Tree> kids;};
interface I { Point move(in Point by, in Color c); };
struct Holder {Object it;};
"""

# type, text, octets in big order at position 0
ROWS = [
    ("Point", '{"x":3,"y":-4}', "00000003fffffffc"),
    ("Point", ' [ 3 , -4 ] ', "00000003fffffffc"),
    ("Point", '{"y":-4,"x":3}', "00000003fffffffc"),
    ("Color", '"blue"', "00000002"),
    ("Color", "2", "00000002"),
    ("Label", '{"n":255,"text":"hi","on":true,"c":"\\u00fc"}', "ff000000" "00000003686900" "01" "fc"),
    ("Shade", '["red",-4]', "00000000fffffffc"),
    ("Shade", '[1,"ab"]', "0000000100000003616200"),
    ("Shade", '["blue"]', "00000002"),
    ("Raw", '"00ABff"', "0000000300abff"),
    ("Raw", "[0,171,255]", "0000000300abff"),
    ("Letters", '"ab\\u0000"', "00000003616200"),
    ("Letters", '"\\u007f\x80\\u009f\xa0\xff"', "000000057f809fa0ff"),
    ("Label", '[0,"\x7f\x85",false,"\x9f"]', "00000000000000037f8500" "00" "9f"),
    ("Letters", '["a","b"]', "000000026162"),
    ("Flags", "[true,false]", "000000020100"),
    ("Pair", "[-2147483648,2147483647]", "800000007fffffff"),
    ("Holder", '{"it":"IOR:000000000000000a49444c3a503a312e3000000000000001000000000000000100"}',
     "0000000a49444c3a503a312e3000" "0000" "00000001" "00000000" "0000000100"),
    ("Holder", '[["IDL:P:1.0",[[0,"00"]]]]', "0000000a49444c3a503a312e3000" "0000" "00000001" "00000000" "0000000100"),
    ("Tree", '{"head":1,"kids":[{"head":2,"kids":[]}]}', "01000000" "00000001" "02000000" "00000000"),
]

# type, text, what is told
REFUSED = [
    ("Point", '{"x":3,"y":-4', "110 NotJson line 1 column 14"),
    ("Point", '{"x":-0,"y":-4}', "111 NotWhole line 1 column 6"),
    ("Point", '{"x":2147483648,"y":0}', "111 NotWhole line 1 column 6"),
    ("Label", '[256,"",true,"a"]', "111 NotWhole line 1 column 2"),
    ("Label", '[1,"",0,"a"]', "112 NotBoolean line 1 column 7"),
    ("Label", '[1,"",true,"ab"]', "113 NotChar line 1 column 12"),
    ("Label", '[1,"four",true,"a"]', "114 NotText line 1 column 4"),
    ("Color", '"violet"', "115 NotEnumerator line 1 column 1"),
    ("Color", "3", "115 NotEnumerator line 1 column 1"),
    ("Raw", '"abc"', "116 NotDigits line 1 column 1"),
    ("Flags", "true", "117 NotAList line 1 column 1"),
    ("Point", "3", "118 NotMembers line 1 column 1"),
    ("Holder", '["IOR:00"]', "118 NotMembers line 1 column 2"),
    ("Point", '{\n "x": 3,\n "z": 4}', "119 NoSuchMember line 3 column 2"),
    ("Point", '{"x":3,"x":4}', "120 MemberTwice line 1 column 8"),
    ("Point", '{"x":3}', "121 MemberMissing line 1 column 7"),
    ("Flags", "[true,true,true]", "122 WrongCount line 1 column 12"),
    ("Pair", "[1]", "122 WrongCount line 1 column 3"),
    ("Point", "[1,2] 3", "124 TextBehind line 1 column 7"),
    ("Point", "[1,2]]", "124 TextBehind line 1 column 6"),
    ("Point", "[1,2],", "124 TextBehind line 1 column 7"),
]

OUTLINES = [
    'Color = "red" | "green" | "blue"',
    'Point = {"x": long, "y": long}',
    'Label = {"n": octet, "text": string<3>, "on": boolean, "c": char}',
    'Shade = ["red", long] | ["green", string] | [another label]',
    'Raw = "two digits an octet"',
    'Letters = "characters"',
    "Flags = [boolean, ..] of at most 2",
    "Pair = [long, ..] of 2",
    'I = "IOR:.."',
    'Object = "IOR:.."',
    'Holder = {"it": Object}',
]


class Runs:
    def __init__(self, test):
        self.test = test
        self.folder = test.room / "files"
        self.folder.mkdir()
        self.count = Count(0, [])
        (self.folder / "s.idl").write_text(IDL)

    def call(self, *words, stdin=b""):
        done = subprocess.run([PROGRAM, *words], cwd=self.folder, input=stdin, capture_output=True, check=False)
        return done.returncode, done.stdout.decode(), done.stderr.decode()

    def expect(self, status, out, err, *words, stdin=b""):
        told = self.call(*words, stdin=stdin)
        wanted = (status, out and f"{out}\n", err and f"{err}\n")
        self.count.add(told == wanted, f"{' '.join(words)}: {told}")


def rows(runs):
    for name, words, octets in ROWS:
        runs.expect(0, octets, "", "encode", "s.idl", name, "big", "0", "--text", words)
        status, out, _ = runs.call("decode", "s.idl", name, "big", "0", octets, "--text")
        taken, _, printed = out.partition(" ")
        runs.expect(0, octets, "", "encode", "s.idl", name, "big", "0", "--text", printed.strip())
        runs.count.add(status == 0 and 2 * int(taken) == len(octets), f"decode {name} {octets}: {out}")
    runs.expect(0, '8 {"x":3,"y":-4}', "", "decode", "s.idl", "Point", "big", "0", "--text", "00000003fffffffcff")
    runs.expect(0, "fffffffb", "", "encode", "long.idl", "T", "big", "0", "--text", "-5")
    for name, words, line in REFUSED:
        runs.expect(1, "", f"idlc: {line}", "encode", "s.idl", name, "big", "0", "--text", words)


def sources(runs):
    """Texts of files and of standard input; tables without names."""
    point = ("encode", "s.idl", "Point", "little", "0")
    (runs.folder / "v.json").write_text('{"x": 1,\n "y": 2}\n')
    (runs.folder / "bad.json").write_bytes(b'"\xff"')
    (runs.folder / "long.json").write_bytes(b" " * 16_777_217)
    runs.expect(0, "0100000002000000", "", *point, "--text", "@v.json")
    runs.expect(0, "0100000002000000", "", *point, "--text", "-", stdin=b"[1,2]")
    runs.expect(1, "", "idlc: 110 NotJson line 0 column 0", *point, "--text", "@bad.json")
    runs.expect(1, "", "idlc: too long", *point, "--text", "@long.json")
    runs.expect(3, "", "idlc: cannot read none", *point, "--text", "@none")
    one = "idlc: a value is HEX or --text TEXT"
    runs.expect(2, "", one, *point)
    runs.expect(2, "", one, *point, "0000000100000002", "--text", "[1,2]")
    runs.expect(0, "accepted 14", "", "check", "/dev/null")
    made = runs.call("compile", "s.idl", "-o", "s.table")[1].rstrip("\n")
    runs.expect(0, made, "", "check", "s.idl")
    runs.expect(0, "0000000100000002", "", "encode", "s.table", "Point", "big", "0", "--text", "[1,2]")
    runs.expect(0, "8 [1,2]", "", "decode", "s.table", "Point", "big", "0", "0000000100000002", "--text")
    runs.expect(1, "", "idlc: 118 NotMembers line 1 column 1", "encode", "s.table", "Point", "big", "0", '--text={"x":1,"y":2}')
    (runs.folder / "bad.idl").write_text("struct S {T t;};\n")
    runs.expect(1, "", "idlc: 20 Unknown line 1", "check", "bad.idl")
    status, listed, _ = runs.call("show", "s.idl", "--types")
    lines = listed.splitlines()
    runs.count.add(status == 0 and all(line in lines for line in OUTLINES), f"show --types: {listed}")
    same = runs.call("show", "s.table")[1]
    runs.count.add(listed.startswith(same) and runs.call("show", "s.idl")[1] == same, "show differs")


# what a text is, its type, the text, how what is told of it begins
HOSTILE = [
    ("lists in place of an octet", "Tree", b"[" * 1_000_000, "111 NotWhole line 1 column 2"),
    # the 65th sequence begins with the last octet of four
    ("sequences one inside another", "Tree", b"[0,[" * 250_000, f"123 TooDeep line 1 column {65 * 4}"),
    ("a text without an end", "Letters", b'"' + b"a" * 16_000_000, "110 NotJson line 1 column "),
    ("names repeated", "Point", b'{"x":1' + b',"x":1' * 65_535 + b"}", "120 MemberTwice line 1 column 8"),
    ("objects repeated", "Point", b'{"x":1,' * 65_536, "110 NotJson line 1 column 8"),
]


def hostile(runs):
    for what, name, words, line in HOSTILE:
        (runs.folder / "hostile.json").write_bytes(words)
        told = runs.call("encode", "s.idl", name, "big", "0", "--text", "@hostile.json")
        is_right = told[:2] == (1, "") and told[2].startswith(f"idlc: {line}")
        runs.count.add(is_right, f"{what}: {told[0]} {told[1][:200]}{told[2]}")
    (runs.folder / "large.json").write_bytes(b'"' + b"a" * 16_000_000 + b'"')
    status, out, _ = runs.call("encode", "s.idl", "Letters", "big", "0", "--text", "@large.json")
    runs.count.add(status == 0 and len(out) == 2 * 16_000_004 + 1, f"large: {status}")


def random_values(runs, rng, rounds, kinds, values):
    """Each declared type's values in sequences of 50: their octets are those of plain CDR, and their text comes back."""
    for _ in range(rounds):
        declared = VALUES.types(rng, kinds)
        lists = [VALUES.Elements(f"L{number}", kind, 0) for number, kind in enumerate(declared)]
        (runs.folder / "random.idl").write_text("".join(f"{it.declared}\n" for it in [*declared, *lists]))
        for kind, many in zip(declared, lists):
            batch = [kind.random(rng) for _ in range(values)]
            order, position = rng.choice(["big", "little"]), rng.choice([0, 1, 3, 12, 2**40 + 5])
            octets = VALUES.Octets(order, position)
            many.write(octets, batch)
            (runs.folder / "value.json").write_text(VALUES.text(rng, batch), encoding="utf-8")
            place = ("random.idl", many.idl, order, str(position))
            wanted = (0, f"{octets.all.hex()}\n", "")
            told = runs.call("encode", *place, "--text", "@value.json")
            runs.count.add(told == wanted, f"encode {kind.declared} {batch}: {told[0]} {told[1][:200]}{told[2]}")
            status, out, _ = runs.call("decode", *place, octets.all.hex(), "--text")
            taken, _, printed = out.partition(" ")
            is_same = status == 0 and taken == str(len(octets.all)) and json.loads(printed) == batch
            runs.count.add(is_same, f"decode {kind.declared}: {status} {out[:200]}")


def run(test):
    """Counts what is as it has to be."""
    built = test.call([TOP / "idlc", "check", "builtin"])
    if built.status:
        return Count(0, [built.out + built.err])
    runs = Runs(test)
    (runs.folder / "long.idl").write_text("typedef long T;\n")
    rows(runs)
    sources(runs)
    hostile(runs)
    random_values(runs, random.Random(20261127), 10, 20, 50)
    return runs.count
