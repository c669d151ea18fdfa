"""A script of one byte more than the longest: it is refused, and prints nothing."""


def script():
    return b"!" + b"#" * 62 + b"\n" + (b"#" * 63 + b"\n") * 262143 + b"\n"


def output():
    return b""
