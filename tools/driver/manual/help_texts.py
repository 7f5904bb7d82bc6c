"""What the program's help says of its commands, their words and options.

    ABOUT

    Usage: idlc COMMAND [OPTIONS] -o <T> <F>

    Arguments:
      <F>  TEXT

    Options:
      -o <T>         TEXT
          --explain  TEXT

    NOTES

A text may also stand below its head, further in. At its end are the values that a word can have. What has another form is
a `ValueError`, so that nothing is left out.
"""
import dataclasses
import re
import subprocess

TITLES = ("Commands", "Arguments", "Options")
# a head, which has single spaces alone, and a text behind it
ROW = re.compile(r" {2,6}(\S+(?: \S+)*)(?: {2,}(\S.*))?")
VALUES = re.compile(r"\s*\[possible values: ([^\]]*)\]")
OPTION = re.compile(r"(-\w)?(?:, )?(--[\w-]+)?(?: <(\S+)>)?")
# a word that an option may stand for, of which the program takes just one
INSTEAD = re.compile(r"\bor use (--[\w-]+)")


@dataclasses.dataclass
class Word:
    """A word of a command, in its place."""

    name: str
    is_wanted: bool
    text: str
    values: list

    @property
    def instead(self):
        """The option that may stand in its place, or None."""
        found = INSTEAD.search(self.text)
        return found and found[1]


@dataclasses.dataclass
class Option:
    """An option by its names, the long one last; the name of its value, or None."""

    names: list
    value: str
    is_wanted: bool
    text: str
    values: list


@dataclasses.dataclass
class Command:
    name: str
    about: str
    words: list
    options: list
    notes: list


@dataclasses.dataclass
class Program:
    """The program's own options and its commands."""

    version: str
    about: str
    options: list
    commands: list


def rows_of(lines):
    """The heads of a section with their texts and the values at the end of these."""
    found = []
    for line in lines:
        row = ROW.fullmatch(line.rstrip())
        if row:
            found.append([row[1], row[2] or ""])
        elif found and line.startswith(" " * 8):
            found[-1][1] = f"{found[-1][1]} {line.strip()}".lstrip()
        else:
            raise ValueError(f"help has a row of another form: {line}")
    for head, text in found:
        values = VALUES.search(text)
        yield head, VALUES.sub("", text), values[1].split(", ") if values else []


def sections_of(text):
    """The rows of each section by its title, and the paragraphs outside: that before the usage, the usage, the rest."""
    rows, outside = {}, []
    for block in re.split(r"\n{2,}", text.strip("\n")):
        title, _, below = block.partition("\n")
        if title[:-1] in TITLES and title.endswith(":"):
            rows[title[:-1]] = list(rows_of(below.splitlines()))
        else:
            outside.append(block)
    if len(outside) < 2 or not outside[1].startswith("Usage: "):
        raise ValueError(f"help has no usage behind its first paragraph: {text}")
    return rows, outside


def word_of(head, text, values):
    name = re.fullmatch(r"<([^<>]+)>|\[([^\[\]]+)\](?:\.\.\.)?", head)
    if not name:
        raise ValueError(f"help has a word of another form: {head}")
    return Word(name[1] or name[2], bool(name[1]), text, values)


def option_of(head, text, values, usage):
    option = OPTION.fullmatch(head)
    if not option or not (option[1] or option[2]):
        raise ValueError(f"help has an option of another form: {head}")
    names = [name for name in (option[1], option[2]) if name]
    is_wanted = any(f" {name} <" in usage for name in names)
    return Option(names, option[3], is_wanted, text, values)


def command_of(name, text):
    rows, (about, usage, *notes) = sections_of(text)
    words = [word_of(*row) for row in rows.get("Arguments", [])]
    options = [option_of(*row, usage) for row in rows.get("Options", [])]
    return Command(name, about, words, options, notes)


def said_by(program, *words):
    """What the program prints, called by the name `idlc`."""
    done = subprocess.run(["idlc", *words], executable=str(program), stdin=subprocess.DEVNULL, capture_output=True, text=True)
    if done.returncode:
        raise ValueError(f"idlc {' '.join(words)}: status {done.returncode}: {done.stderr}")
    return done.stdout


def program_of(said):
    """The program by its help texts, which `said` gives for words."""
    rows, (about, *_) = sections_of(said("--help"))
    names = [name for name, _, _ in rows["Commands"]]
    # the command `help` takes no `--help`
    texts = {name: said(*(("help", "help") if name == "help" else (name, "--help"))) for name in names}
    commands = [command_of(name, text) for name, text in texts.items()]
    for command in commands:
        command.about = next(text for name, text, _ in rows["Commands"] if name == command.name)
        for word in command.words:
            if word.name == "COMMAND":
                word.values = names
    options = [option_of(*row, "") for row in rows["Options"]]
    version = re.fullmatch(r"idlc (\S+)\n", said("--version"))
    return Program(version[1], about, options, commands)
