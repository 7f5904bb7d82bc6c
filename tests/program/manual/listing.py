"""What help lists of a command, read apart from the tool that makes completions, and lines of its words and options."""
import dataclasses
import re

# a value of each name; no such file is there, and of what is offered only `upgrade builtin` writes one
VALUES = {
    **{"T": "none.table", "U": "made.table"},
    **{name: "none.file" for name in ("F", "FILE", "BACK")},
    **{name: "1" for name in ("POS", "N", "M", "S")},
    **{"NAME": "S", "ORDER": "big", "HEX": "00", "TEXT": "{}", "VALUE": "[]", "IOR": "corbaloc::h:1/K", "OP": "ping"},
    **{"H": "h", "P": "2809", "KEY=NAME": "K=S", "REFUSAL": "60", "COMMAND": "call"},
}
# an option in place of the last word of a command
INSTEAD = {"encode": "--text"}


@dataclasses.dataclass
class Listed:
    """A command: its words, its options with the name of a value or "", those that have to be there, the texts."""

    name: str
    words: list
    options: dict
    wanted: list
    texts: list

    def line(self, option=None, orders="big"):
        """A whole line with an option."""
        words = self.words[:-1] if option == INSTEAD.get(self.name, "") else self.words
        given = [name for name in dict.fromkeys([*self.wanted, option]) if name]
        found = [self.name, *map(VALUES.get, words)]
        for name in given:
            found += [name, VALUES[self.options[name]]] if self.options[name] else [name]
        return [orders if word == "big" else word for word in found]

    def left(self):
        """The options that may follow a line with all words."""
        return [name for name in self.options if name not in (*self.wanted, INSTEAD.get(self.name))]


def rows_below(text, title):
    """The rows of a section of help, each its head and its text."""
    rows = re.search(rf"^{title}:\n((?: .*\n)+)", text, re.MULTILINE)
    return [re.split(r" {2,}", line.strip(), maxsplit=1) for line in rows[1].splitlines()] if rows else []


def listed(name, text):
    words, options = rows_below(text, "Arguments"), {}
    for head, _ in rows_below(text, "Options"):
        *names, last = head.split(", ")
        last, _, value = last.partition(" ")
        options.update({one: value[1:-1] for one in [*names, last]})
    wanted = re.findall(r"(-\S+) <", re.search(r"^Usage: .*", text, re.MULTILINE)[0])
    texts = [row[1].partition(" [possible")[0] for row in [*words, *rows_below(text, "Options")]]
    return Listed(name, [re.sub(r"[\[\]<>.]", "", row[0]) for row in words], options, wanted, texts)
