"""What may stand as a word or as the value of an option: the kinds that completion tells apart."""
# the names of words and values that are those of files
FILES = ("F", "T", "U", "FILE", "BACK")


def kind_of(name, text, values):
    """`files`; `table`: a file or `builtin`; `at`: a text, or the name of a file behind `@`; some values with commas between
    them; `none`: nothing that can be listed."""
    if values:
        return ",".join(values)
    if "@FILE" in text:
        return "at"
    if name in FILES:
        return "table" if "builtin" in text else "files"
    return "none"


def kind_of_word(word):
    return kind_of(word.name, word.text, word.values)


def kind_of_value(option):
    return kind_of(option.value, option.text, option.values)
