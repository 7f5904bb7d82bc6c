"""Completions and the man page of the program, made from its own help texts."""
from driver.manual.completions import bash_completion, zsh_completion
from driver.manual.help_texts import program_of, said_by
from driver.manual.man_page import man_page

# where systems look for each, below the folder that has bin/
PLACES = {
    "share/bash-completion/completions/idlc": bash_completion,
    "share/zsh/site-functions/_idlc": zsh_completion,
    "share/man/man1/idlc.1": man_page,
}


def manual_of(path):
    """The octets of each file by its place, by the help of the program at a path."""
    program = program_of(lambda *words: said_by(path, *words))
    return {place: made(program).encode() for place, made in PLACES.items()}
