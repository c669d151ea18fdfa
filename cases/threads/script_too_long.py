"""A script of one byte more than the longest is refused before its lines are read."""


def script():
    return b"nonsense\n" + b"#" * (16777216 + 1 - len(b"nonsense\n"))


def output():
    return b''
