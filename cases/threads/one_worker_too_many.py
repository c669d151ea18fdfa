"""A node has 250 workers at most: the 251st is bad, though those of another node stand between."""

SEED = b"seed " + b"0" * 64 + b"\n"


def script():
    return b"nodes 2 1000\n" + SEED + b"worker 0\nworker 1\n" * 250 + b"worker 0\n"


def output():
    return b''
