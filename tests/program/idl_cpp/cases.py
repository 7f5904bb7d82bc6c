"""Files with includes: what idl-cpp writes of them, and the repository ids of their interfaces, all by hand."""
import dataclasses


@dataclasses.dataclass
class Case:
    """What `a.idl` comes to. `told` has the lines but markers and empty ones, each with its file and number, a pragma
    `prefix` without. Where `fault` is set, `idlc compile` tells that in place of ids. Of a plain one nothing is put in."""

    name: str
    files: dict
    told: str
    ids: dict
    words: tuple = ()
    fault: str = ""
    is_plain: bool = False


# the included file sets a prefix, its includer none
SET_WITHIN = Case(
    "set within",
    {
        "lib.idl": '#pragma prefix "acme.com"\nmodule Lib { interface Base {}; };\n',
        "a.idl": '#include "lib.idl"\n\nmodule App {\n  interface Job : Lib::Base {};\n};\n',
    },
    """
    #pragma prefix "acme.com"
    lib.idl:2 module Lib { interface Base {}; };
    #pragma prefix ""
    a.idl:3 module App {
    a.idl:4 interface Job : Lib::Base {};
    a.idl:5 };
    """,
    {"Lib::Base": "IDL:acme.com/Lib/Base:1.0", "App::Job": "IDL:App/Job:1.0"},
)

# the includer sets one, before it includes a file that sets none
SET_OUTSIDE = Case(
    "set outside",
    {
        "lib.idl": "module Lib { interface Base {}; };\n",
        "a.idl": '#pragma prefix "acme.com"\ninterface One {};\n#include "lib.idl"\ninterface Two {};\n',
    },
    """
    #pragma prefix "acme.com"
    a.idl:2 interface One {};
    #pragma prefix ""
    lib.idl:1 module Lib { interface Base {}; };
    #pragma prefix "acme.com"
    a.idl:4 interface Two {};
    """,
    {"One": "IDL:acme.com/One:1.0", "Lib::Base": "IDL:Lib/Base:1.0", "Two": "IDL:acme.com/Two:1.0"},
)

# between two definitions of the included file a prefix is set: not before it, and not behind its file
SET_TWICE = Case(
    "set twice",
    {
        "lib.idl": 'interface L1 {};\n#pragma prefix "x"\ninterface L2 {};\n  # pragma  prefix\t"y"\ninterface L3 {};\n',
        "a.idl": '#pragma prefix "a"\n#include "lib.idl"\ninterface A1 {};\n#pragma prefix ""\ninterface A2 {};\n',
    },
    """
    #pragma prefix "a"
    #pragma prefix ""
    lib.idl:1 interface L1 {};
    #pragma prefix "x"
    lib.idl:3 interface L2 {};
    #pragma prefix "y"
    lib.idl:5 interface L3 {};
    #pragma prefix "a"
    a.idl:3 interface A1 {};
    #pragma prefix ""
    a.idl:5 interface A2 {};
    """,
    {"L1": "IDL:L1:1.0", "L2": "IDL:x/L2:1.0", "L3": "IDL:y/L3:1.0", "A1": "IDL:a/A1:1.0", "A2": "IDL:A2:1.0"},
)

# three files one inside another, each with a prefix or none, and one behind another
NESTED = Case(
    "nested",
    {
        "in.idl": "interface Inner {};\n",
        "mid.idl": '#include "in.idl"\n#pragma prefix "mid"\ninterface Mid1 {};\n#include "end.idl"\ninterface Mid2 {};\n',
        "end.idl": '#pragma prefix "end"\ninterface End {};\n',
        "a.idl": '#pragma prefix "a"\n#include "mid.idl"\n#include "last.idl"\ninterface A {};\n',
        "last.idl": "interface Last {};\n",
    },
    """
    #pragma prefix "a"
    #pragma prefix ""
    in.idl:1 interface Inner {};
    #pragma prefix "mid"
    mid.idl:3 interface Mid1 {};
    #pragma prefix ""
    #pragma prefix "end"
    end.idl:2 interface End {};
    #pragma prefix "mid"
    mid.idl:5 interface Mid2 {};
    #pragma prefix "a"
    #pragma prefix ""
    last.idl:1 interface Last {};
    #pragma prefix "a"
    a.idl:4 interface A {};
    """,
    {
        "Inner": "IDL:Inner:1.0",
        "Mid1": "IDL:mid/Mid1:1.0",
        "End": "IDL:end/End:1.0",
        "Mid2": "IDL:mid/Mid2:1.0",
        "Last": "IDL:Last:1.0",
        "A": "IDL:a/A:1.0",
    },
)

# inside braces no pragma may stand: what is included there has the prefix of the module
IN_BRACES = Case(
    "in a module's braces",
    {
        "part.idl": "interface Part {};\n",
        "lib.idl": '#pragma prefix "lib"\ninterface L {};\n',
        "a.idl": '#include "lib.idl"\n#pragma prefix "a"\nmodule M {\n#include "part.idl"\n};\ninterface A {};\n',
    },
    """
    #pragma prefix "lib"
    lib.idl:2 interface L {};
    #pragma prefix ""
    #pragma prefix "a"
    a.idl:3 module M {
    part.idl:1 interface Part {};
    a.idl:5 };
    a.idl:6 interface A {};
    """,
    {"L": "IDL:lib/L:1.0", "M::Part": "IDL:a/M/Part:1.0", "A": "IDL:a/A:1.0"},
)

# a prefix that is set inside a module's braces stays as it is, and idlc refuses it
SET_IN_BRACES = Case(
    "set in a module's braces",
    {
        "part.idl": '\n#pragma prefix "part"\ninterface Part {};\n',
        "a.idl": '#pragma prefix "a"\nmodule M {\n#include "part.idl"\n};\n#include "part.idl"\ninterface A {};\n',
    },
    """
    #pragma prefix "a"
    a.idl:2 module M {
    #pragma prefix "part"
    part.idl:3 interface Part {};
    a.idl:4 };
    #pragma prefix ""
    #pragma prefix "part"
    part.idl:3 interface Part {};
    #pragma prefix "a"
    a.idl:6 interface A {};
    """,
    {},
    fault="28 PrefixInScope\npart.idl:2:",
)

# a file ends inside braces: the pragma waits for the end of the definition
OPEN_END = Case(
    "a file ends inside braces",
    {
        "open.idl": '#pragma prefix "o"\nmodule M {\n',
        "a.idl": '#pragma prefix "a"\n#include "open.idl"\ninterface I {};\n};\ninterface A {};\n',
    },
    """
    #pragma prefix "a"
    #pragma prefix ""
    #pragma prefix "o"
    open.idl:2 module M {
    a.idl:3 interface I {};
    a.idl:4 };
    #pragma prefix "a"
    a.idl:5 interface A {};
    """,
    {"M::I": "IDL:o/M/I:1.0", "A": "IDL:a/A:1.0"},
)

# another file closes them
CLOSED_ELSEWHERE = Case(
    "a file closes the braces of another",
    {
        "open.idl": '#pragma prefix "o"\nmodule M {\n',
        "close.idl": "};\ninterface C {};\n",
        "a.idl": '#include "open.idl"\ninterface I {};\n#include "close.idl"\ninterface A {};\n',
    },
    """
    #pragma prefix "o"
    open.idl:2 module M {
    a.idl:2 interface I {};
    close.idl:1 };
    #pragma prefix ""
    close.idl:2 interface C {};
    a.idl:4 interface A {};
    """,
    {"M::I": "IDL:o/M/I:1.0", "C": "IDL:C:1.0", "A": "IDL:A:1.0"},
)

# outside braces, but inside a definition, no pragma may stand either
IN_A_DEFINITION = Case(
    "inside a definition",
    {
        "bases.idl": "L1, L2\n",
        "a.idl": '#pragma prefix "a"\ninterface L1 {};\ninterface L2 {};\ninterface A :\n#include "bases.idl"\n{};\n',
    },
    """
    #pragma prefix "a"
    a.idl:2 interface L1 {};
    a.idl:3 interface L2 {};
    a.idl:4 interface A :
    bases.idl:1 L1, L2
    a.idl:6 {};
    """,
    {"A": "IDL:a/A:1.0"},
)

# braces in texts and characters are none, nor are quotes in them
BRACES_IN_TEXTS = Case(
    "braces in texts",
    {
        "lib.idl": "#pragma prefix \"lib\"\nconst char L = '{';\nconst char Q = '\"';\nconst char R = '\\'';\n",
        "a.idl": 'const string B = "{\\"{"; // {\n/* { */\n#include "lib.idl"\nconst string C = "\\\\";\ninterface A {};\n',
    },
    """
    a.idl:1 const string B = "{\\"{";
    #pragma prefix "lib"
    lib.idl:2 const char L = '{';
    lib.idl:3 const char Q = '"';
    lib.idl:4 const char R = '\\'';
    #pragma prefix ""
    a.idl:4 const string C = "\\\\";
    a.idl:5 interface A {};
    """,
    {"A": "IDL:A:1.0"},
)

# a file that is included again, and has a guard, is empty the second time
GUARD = Case(
    "a guard",
    {
        "lib.idl": '#ifndef LIB_IDL\n#define LIB_IDL\n#pragma prefix "lib"\ninterface L {};\n#endif\n',
        "mid.idl": '#include "lib.idl"\ninterface M : L {};\n',
        "a.idl": '#pragma prefix "a"\n#include "mid.idl"\n#include "lib.idl"\ninterface A : L, M {};\n',
    },
    """
    #pragma prefix "a"
    #pragma prefix ""
    #pragma prefix "lib"
    lib.idl:4 interface L {};
    #pragma prefix ""
    mid.idl:2 interface M : L {};
    #pragma prefix "a"
    a.idl:4 interface A : L, M {};
    """,
    {"L": "IDL:lib/L:1.0", "M": "IDL:M:1.0", "A": "IDL:a/A:1.0"},
)

NAMES = Case(
    "names with blanks and quotes",
    {
        'my "own" {.idl': '#pragma prefix "own"\ninterface Own {};\n',
        "my lib.idl": '#include <my "own" {.idl>\ninterface Lib {};\n',
        "a.idl": '#include "my lib.idl"\ninterface A {};\n',
    },
    """
    #pragma prefix "own"
    my \\"own\\" {.idl:2 interface Own {};
    #pragma prefix ""
    my lib.idl:2 interface Lib {};
    a.idl:2 interface A {};
    """,
    {"Own": "IDL:own/Own:1.0", "Lib": "IDL:Lib:1.0", "A": "IDL:A:1.0"},
    ("-I", "."),
)

# -undef has `unix` stay a name; options come in their order
OPTIONS = Case(
    "options",
    {
        "one/lib.idl": '#pragma prefix "one"\ninterface L {};\n',
        "two/lib.idl": "interface Wrong {};\n",
        "two/more.idl": "interface unix {};\n",
        "a.idl": "#include <lib.idl>\n#include <more.idl>\n#if N == 1 && defined(K) && !defined(G)\n"
        "interface NAME : L {};\n#endif\n",
    },
    """
    #pragma prefix "one"
    lib.idl:2 interface L {};
    #pragma prefix ""
    more.idl:1 interface unix {};
    a.idl:4 interface Job : L {};
    """,
    {"L": "IDL:one/L:1.0", "unix": "IDL:unix:1.0", "Job": "IDL:Job:1.0"},
    ("-Ione", "-I", "two", "-D", "N", "-DNAME=Job", "-D", "G=2", "-UG", "-UK", "-DK"),
)

# no includes, or no prefixes: nothing is put in
ALONE = Case(
    "a prefix, no include",
    {"a.idl": '#pragma prefix "a"\ninterface A {};\n#pragma prefix "b"\ninterface B {};\n'},
    """
    #pragma prefix "a"
    a.idl:2 interface A {};
    #pragma prefix "b"
    a.idl:4 interface B {};
    """,
    {"A": "IDL:a/A:1.0", "B": "IDL:b/B:1.0"},
    is_plain=True,
)
PLAIN = Case(
    "an include, no prefix",
    {"lib.idl": "interface L {};\n", "a.idl": '#include "lib.idl"\n#pragma ID L "IDL:Other:1.0"\ninterface A {};\n'},
    """
    lib.idl:1 interface L {};
    a.idl:2 #pragma ID L "IDL:Other:1.0"
    a.idl:3 interface A {};
    """,
    {"L": "IDL:Other:1.0", "A": "IDL:A:1.0"},
    is_plain=True,
)

# a fault stands at its place in the file as written
FAULT = Case(
    "a fault's place",
    {
        "lib.idl": '#pragma prefix "lib"\nstruct L { long x; };\n',
        "a.idl": '#include "lib.idl"\n\nstruct A {\n  L one;\n  Q two;\n};\n',
    },
    """
    #pragma prefix "lib"
    lib.idl:2 struct L { long x; };
    #pragma prefix ""
    a.idl:3 struct A {
    a.idl:4 L one;
    a.idl:5 Q two;
    a.idl:6 };
    """,
    {},
    fault="20 Unknown\na.idl:5:",
)

CASES = [value for value in list(globals().values()) if isinstance(value, Case)]
