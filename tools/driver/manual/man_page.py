"""The man page, made from what help says, the examples of README.md and the date of the release in CHANGELOG.md."""
import re

from driver.manual.completions import filled
from driver.workspace import TOP

# letters that roff reads otherwise, or prints as others
LETTERS = {"\\": r"\e", "'": r"\(aq", "~": r"\(ti", "^": r"\(ha", "`": r"\(ga"}


def literal(text):
    """A text that is typed as it stands."""
    return prose(text).replace(r"\-", "-").replace("-", r"\-")


def prose(text):
    """A text as lines of roff, of which none is a request."""
    text = "".join(LETTERS.get(letter, letter) for letter in text)
    text = re.sub(r"(?<![\w\\])-[\w-]*", lambda word: word[0].replace("-", r"\-"), text)
    return re.sub(r"^(?=[.'])", r"\\&", text, flags=re.MULTILINE)


def bold(text):
    return rf"\fB{literal(text)}\fR"


def italic(text):
    return rf"\fI{literal(text)}\fR"


def with_value(name, option):
    return f"{bold(name)} {italic(option.value)}" if option.value else bold(name)


def usage(command):
    """The line of a command: what has to be there, and the rest in brackets."""
    parts = [bold(f"idlc {command.name}")]
    options = [option for option in command.options if "--help" not in option.names]
    for option in sorted(options, key=lambda it: not it.is_wanted):
        part = with_value(option.names[-1], option)
        parts.append(part if option.is_wanted else f"[{part}]")
    parts += [italic(word.name) if word.is_wanted else f"[{italic(word.name)}]" for word in command.words]
    return " ".join(parts)


def entry(head, text, values):
    one_of = f" ({', '.join(map(bold, values))})" if values else ""
    return f".TP\n{head}\n{prose(text)}{one_of}"


def option_entry(option):
    names = [*map(bold, option.names[:-1]), with_value(option.names[-1], option)]
    return entry(", ".join(names), option.text, option.values)


def word_entry(word):
    return entry(italic(word.name), word.text, word.values)


def section(command):
    notes = [f".PP\n{prose(line)}" for note in command.notes for line in note.splitlines()]
    entries = [*map(word_entry, command.words), *map(option_entry, command.options)]
    return "\n".join([f".SS {command.name}", usage(command), ".PP", prose(f"{command.about}."), *entries, *notes])


def examples():
    """The sessions of README.md that the packed program runs, as they stand there, but for the program's place."""
    blocks = re.findall(r"^```console\n(.*?)^```", (TOP / "README.md").read_text(), re.MULTILINE | re.DOTALL)
    packed = [block.replace("$ ./idlc ", "$ idlc ") for block in blocks if "--unproved" not in block]
    return "\n.PP\n".join(f".EX\n{literal(block)}.EE" for block in packed)


def release_date(version):
    text = (TOP / "CHANGELOG.md").read_text()
    return re.search(rf"^### {re.escape(version)} \((\S+)\)$", text, re.MULTILINE)[1]


def man_page(program):
    return filled(
        "idlc.1",
        DATE=release_date(program.version),
        VERSION=program.version,
        ABOUT=prose(program.about[0].lower() + program.about[1:]),
        SYNOPSIS="\n.br\n".join(map(usage, program.commands)),
        PROGRAM="\n".join(map(option_entry, program.options)),
        COMMANDS="\n".join(map(section, program.commands)),
        EXAMPLES=examples(),
    )
