"""The longest script, of 16777216 bytes: lines that are skipped, behind a first one that is bad."""


def script():
    return b"!" + b"#" * 62 + b"\n" + (b"#" * 63 + b"\n") * 262143


def output():
    return b"bad line\n"
