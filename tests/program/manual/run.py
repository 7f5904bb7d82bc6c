"""Has the proved program's help made into completions and a man page, and compares them with what it lists."""
import importlib.util
import pathlib
import re
import shutil

from driver.manual import PLACES
from driver.manual.help_texts import command_of
from driver.suite import Count
from driver.workspace import TOP

PROGRAM = TOP / "crates" / "idlc_main" / "out" / "idlc_main"


def sibling(name):
    spec = importlib.util.spec_from_file_location(name, pathlib.Path(__file__).with_name(f"{name}.py"))
    module = importlib.util.module_from_spec(spec)
    spec.loader.exec_module(module)
    return module


SHELLS, LISTING = sibling("shells"), sibling("listing")
FILES = ["a b.ior", "hello.idl", "hello.table", "sub"]
BEHIND_AT = ["@a b.ior", "@hello.idl", "@hello.table", "@sub/"]
ORDERS = ["big", "little"]

# lines that end in a tab, and the words that they become on a terminal
TYPED = [
    ("idlc comp\t", ["compile"]),
    ("idlc check hello.t\t", ["check", "hello.table"]),
    ("idlc check 'a\t", ["check", "a b.ior"]),
    ("idlc check bui\t", ["check", "builtin"]),
    ("idlc serve builtin --conn\t4", ["serve", "builtin", "--connections", "4"]),
    ("idlc serve builtin --port \t", ["serve", "builtin", "--port"]),
    ("idlc compile -o su\t", ["compile", "-o", "sub/"]),
    ("idlc encode builtin S b\t", ["encode", "builtin", "S", "big"]),
    ("idlc call x @hello.i\t", ["call", "x", "@hello.idl"]),
    ("idlc call x corbaloc::h:1/K A::I::op --order l\t", ["call", "x", "corbaloc::h:1/K", "A::I::op", "--order", "little"]),
    ("idlc call x corbaloc::h:1/K op --order=l\t", ["call", "x", "corbaloc::h:1/K", "op", "--order=little"]),
    ("idlc serve x --object K=S --at\t2", ["serve", "x", "--object", "K=S", "--at-once", "2"]),
    ("idlc encode builtin S big 0 --text=@hello.i\t", ["encode", "builtin", "S", "big", "0", "--text=@hello.idl"]),
]

# what zsh makes of some: it puts the sign between an option and its value, and takes the slash away again
OF_ZSH = {
    "idlc serve builtin --conn\t4": ["serve", "builtin", "--connections=4"],
    "idlc compile -o su\t": ["compile", "-o", "sub"],
    "idlc serve x --object K=S --at\t2": ["serve", "x", "--object", "K=S", "--at-once=2"],
}


class Runs:
    """Questions to the program and to bash, counted."""

    def __init__(self, test):
        self.test, self.count = test, Count(0, [])
        self.folder, self.empty = test.room / "files", test.room / "empty"
        for folder in (self.folder, self.folder / "sub", self.empty):
            folder.mkdir()
        for name in FILES[:-1]:
            (self.folder / name).touch()
        self.bash, self.zsh, self.man = (test.room / "made" / place for place in PLACES)

    def program(self, *words):
        return self.test.call([PROGRAM, *words], cwd=self.empty)

    def help(self, *words):
        done = self.program(*words)
        self.count.add(done.status == 0 and not done.err, f"{words}: {done}")
        return done.out

    def offered(self, *words):
        return SHELLS.offered_by(self.test, self.bash, " ".join(("idlc", *words)), self.folder)

    def expect(self, wanted, *words):
        found = self.offered(*words)
        self.count.add(found == sorted(wanted), f"{' '.join(words)}: {found}, not {sorted(wanted)}")

    def expect_taken(self, is_taken, words):
        """The program takes these words, or refuses them as wrong usage."""
        done = self.program(*words)
        is_right = (done.status != 2) == is_taken and "cannot read builtin" not in done.err
        self.count.add(is_right, f"{' '.join(words)}: {done}")


def add_options(runs, command):
    """Each option is offered till it is given, and taken by the program wherever it is offered."""
    runs.expect(command.options, command.name, "-")
    runs.expect(command.left(), *command.line(), "-")
    runs.expect(command.left(), *command.line(), "")
    for option in command.options:
        line = command.line(option)
        runs.expect_taken(True, line)
        again = option in runs.offered(*line, "-") and option not in ("-h", "--help")
        runs.count.add(not again, f"{' '.join(line)} -: {option} once more")
    runs.expect([], *command.line(), "--", "-")


def offers_for(name, is_word, commands):
    """What has to be offered for a word of this name, or for an option's value."""
    if name in ("T", "U", "F", "FILE", "BACK"):
        return [*FILES, "builtin"] if is_word and name == "T" else FILES
    return {"ORDER": ORDERS, "COMMAND": commands}.get(name, [])


def add_values(runs, command, commands):
    """What is offered for each word, and for the value of each option in both of its spellings; behind `@` files."""
    for at, name in enumerate(command.words):
        ahead = command.line()[: at + 1]
        runs.expect(offers_for(name, True, commands), *ahead, "")
        runs.expect(BEHIND_AT if name in ("IOR", "VALUE") else [], *ahead, "@")
    for name, value in command.options.items():
        wanted = offers_for(value, False, commands)
        if value:
            runs.expect(wanted, command.name, name, "")
            runs.expect(BEHIND_AT if value == "TEXT" else [], command.name, name, "@")
        if value and name.startswith("--"):
            runs.expect(wanted, command.name, f"{name}=")


def add_taken_values(runs, command):
    """The program takes what is offered for T, and both byte orders, and no other."""
    if command.words[:1] == ["T"]:
        line = [command.name, "builtin", *command.line()[2:]]
        runs.expect_taken(True, line)
    option = "--order" if "--order" in command.options else None
    if option or "ORDER" in command.words:
        for order in (*ORDERS, "bi"):
            runs.expect_taken(order != "bi", command.line(option, order))


# how the lines of the titles and of the commands look in the page's source and where it is formatted
FORMS = {"source": (r"^\.SH (.+)$", r"^\.SS (\w+)$")}
FORMATTED = r"^([A-Z][A-Z ]+)$", r"^ {2,4}(\w+)$"


def pages(runs):
    """The man page as it stands, and as it is formatted by what is here."""
    found = {"source": re.sub(r"\\f[BIR]|\\&", "", runs.man.read_text()).replace(r"\-", "-").replace(r"\(aq", "'")}
    formats = {"mandoc": ["-T", "ascii", "-O", "width=250"], "groff": ["-man", "-Tascii", "-P-c", "-ww", "-rLL=250n", "-rHY=0"]}
    for name, words in formats.items():
        if shutil.which(name):
            done = runs.test.call([name, *words, runs.man])
            runs.count.add(done.status == 0 and not done.err, f"{name}: {done.err}")
            found[name] = re.sub(r".\x08", "", done.out)
    return found


def parts_of(page, form):
    """The parts of a page below lines of a form, by what the form has of its line, with single spaces."""
    found = re.split(form, page, flags=re.MULTILINE)
    return dict(zip(found[1::2], found[2::2]))


def add_page(runs, name, page, commands):
    """The page has each command with its options and texts, and no more options; the statuses and the examples of
    README.md."""
    readme = (TOP / "README.md").read_text()
    titles, names = FORMS.get(name, FORMATTED)
    sections = parts_of(page, titles)
    found = parts_of(sections["COMMANDS"], names)
    runs.count.add([*found] == [command.name for command in commands], f"{name}: {[*found]}")
    for command in commands:
        body = " ".join(found.get(command.name, "").split())
        spelled = [f"{option} {value}".strip() for option, value in command.options.items()]
        lacking = [text for text in (*spelled, *command.texts) if text not in body]
        more = {*re.findall(r"(?<!\w)--\w[\w-]*", body)} - {*command.options}
        runs.count.add(not lacking and not more, f"{name}: {command.name}: not {lacking}; too much: {more}")
    told = re.search(r"The status is (.*)\.$", readme, re.MULTILINE)[1]
    statuses = re.findall(r"^(?:\.B +| +)(\d)\b", sections["EXIT STATUS"], re.MULTILINE)
    runs.count.add(statuses == re.findall(r"\d", told), f"{name}: statuses {statuses}, not {told}")
    typed = re.findall(r"^\$ \./(idlc (?!--unproved).*)$", readme, re.MULTILINE)
    lines = [line.strip() for line in sections["EXAMPLES"].splitlines()]
    for line in typed:
        runs.count.add(f"$ {line}" in lines, f"{name}: no example {line}")


def add_typed(runs, words, begin, others):
    """Lines that are completed by a shell on a terminal; what some become instead."""
    terminal = SHELLS.Terminal(words, runs.folder, begin)
    try:
        runs.count.add(terminal.has_begun, f"{words[0]} doesn't begin: {terminal.said}")
        for line, wanted in TYPED if terminal.has_begun else []:
            is_right = terminal.completes(line, others.get(line, wanted))
            runs.count.add(is_right, f"{words[0]}: {line}: {terminal.said}")
    finally:
        terminal.end()


def add_zsh(runs, commands):
    """zsh's file has the options of each command, and no more. Where zsh is there, it reads the file and completes by it."""
    found = parts_of(runs.zsh.read_text(), r"^ {12}(\w+)\)$")
    for command in commands:
        options = re.findall(r"(?<=[){,'])--?\w[\w-]*(?=[=+]?[\[,}])", found.get(command.name, ""))
        runs.count.add(sorted(options) == sorted(command.options), f"zsh: {command.name}: {options}")
    if shutil.which("zsh"):
        done = runs.test.call(["zsh", "-n", runs.zsh])
        runs.count.add((done.status, done.err) == (0, ""), f"zsh -n: {done}")
        begin = f"fpath=({runs.zsh.parent} $fpath); autoload -U compinit; compinit -u -D; setopt nobeep"
        add_typed(runs, ["zsh", "-f", "-i"], begin, OF_ZSH)


def add_forms(count):
    """Help of another form makes no files."""
    for rows in ("Options:\n  --x=Y  Text", "Options:\n  x  Text", "Arguments:\n  F  Text", "Arguments:\nF  Text"):
        text = "\n\n".join(("Checks a table", "Usage: idlc check", rows))
        try:
            count.add(False, f"{rows}: {command_of('check', text)}")
        except ValueError:
            count.add(True, "")


def run(test):
    runs = Runs(test)
    made = test.call([TOP / "tools" / "manual", test.room / "made"])
    if made.status:
        return Count(0, [made.out + made.err])
    top = runs.help("--help")
    names = [row[0] for row in LISTING.rows_below(top, "Commands")]
    commands = [LISTING.listed(name, runs.help(*(("help", name) if name == "help" else (name, "--help")))) for name in names]
    runs.expect(names, "")
    runs.expect(LISTING.listed("", top).options, "-")
    runs.expect([], "none", "")
    for command in commands:
        add_options(runs, command)
        add_values(runs, command, names)
        add_taken_values(runs, command)
    for name, page in pages(runs).items():
        add_page(runs, name, page, commands)
    add_typed(runs, ["bash", "--norc", "--noprofile", "-i"], f"source {runs.bash}", {})
    add_zsh(runs, commands)
    add_forms(runs.count)
    return runs.count
