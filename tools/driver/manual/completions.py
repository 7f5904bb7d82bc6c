"""Completions for bash and zsh, made from what help says."""
import pathlib

from driver.manual.kinds import kind_of_value, kind_of_word

PARTS = pathlib.Path(__file__).resolve().parent


def filled(name, **texts):
    """The text of a file beside this one, with texts in place of their names in capitals between `@`."""
    text = (PARTS / name).read_text()
    for key, value in texts.items():
        text = text.replace(f"@{key}@", value)
    return text


def option_instead(command):
    """An option of the command and the place of the word for which it stands, or None."""
    return next(((word.instead, place) for place, word in enumerate(command.words) if word.instead), None)


def bash_lines(command):
    """What `_idlc_command` sets for a command."""
    options = " ".join(name for option in command.options for name in option.names)
    with_value = [option for option in command.options if option.value]
    valued = " ".join(f"{name}={kind_of_value(option)}" for option in with_value for name in option.names)
    places = " ".join(map(kind_of_word, command.words))
    instead = option_instead(command)
    lines = [f"{command.name})", f"    options='{options}'", f"    places=({places})", "    ;;"]
    if valued:
        lines.insert(2, f"    valued='{valued}'")
    if instead:
        lines.insert(-1, f"    instead='{instead[0]}={instead[1]}'")
    return [" " * 8 + line for line in lines]


def bash_completion(program):
    commands = "\n".join(line for command in program.commands for line in bash_lines(command))
    options = ",".join(name for option in program.options for name in option.names)
    names = ",".join(command.name for command in program.commands)
    return filled("idlc.bash", VERSION=program.version, COMMANDS=commands, OPTIONS=options, NAMES=names)


# what zsh is to do for each kind but some values
ZSH_ACTIONS = {"files": "_files", "table": "_idlc_tables", "at": "_idlc_texts", "none": " "}


def zsh_action(kind):
    return ZSH_ACTIONS.get(kind) or f"({kind.replace(',', ' ')})"


def zsh_text(text):
    """A text inside single quotes, where brackets and colons have a meaning."""
    return "".join("\\" + letter if letter in "[]:\\" else letter for letter in text).replace("'", r"'\''")


def zsh_option(option, command):
    """The specification of an option for `_arguments`, for each of its names."""
    asks = option.names[-1] in ("--help", "--version")
    instead = option_instead(command) if command else None
    place = instead[1] + 1 if instead and instead[0] in option.names else ""
    others = "- : *" if asks else " ".join([*option.names, str(place)]).strip()
    names = [name + (("=" if name.startswith("--") else "+") if option.value else "") for name in option.names]
    shown = names[0] if len(names) == 1 else f"'{{{','.join(names)}}}'"
    value = f":{zsh_text(option.value)}:{zsh_action(kind_of_value(option))}" if option.value else ""
    return f"'({others}){shown}[{zsh_text(option.text)}]{value}'"


def zsh_word(word, place):
    """The specification of the word at a place, from 1 on."""
    others = f"({word.instead})" if word.instead else ""
    colons = ":" if word.is_wanted else "::"
    return f"'{others}{place}{colons}{zsh_text(word.name)}:{zsh_action(kind_of_word(word))}'"


def zsh_lines(command):
    specs = [zsh_option(option, command) for option in command.options]
    specs += [zsh_word(word, place) for place, word in enumerate(command.words, 1)]
    call = " \\\n".join(["    _arguments -S", *(f"        {spec}" for spec in specs)])
    return [" " * 12 + line for line in (f"{command.name})", *call.split("\n"), "    ;;")]


def zsh_completion(program):
    commands = "\n".join(line for command in program.commands for line in zsh_lines(command))
    options = "\n".join(f"        {zsh_option(option, None)} \\" for option in program.options)
    names = "\n".join(f"        '{command.name}:{zsh_text(command.about)}'" for command in program.commands)
    return filled("_idlc", VERSION=program.version, COMMANDS=commands, OPTIONS=options, NAMES=names)
