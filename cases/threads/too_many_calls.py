"""A worker has fewer than 2^32 calls: 65537 lines of 65535 passes are one too few, and a call more is too much."""

SEED = b"seed " + b"0" * 64 + b"\n"


def script():
    return b"nodes 1 10\n" + SEED + b"worker 0\n" + b"pass p 65535\n" * 65537 + b"pass p 0\n" + b"set p off\n"


def output():
    return b''
