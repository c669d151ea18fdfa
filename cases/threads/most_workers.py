"""A node has 250 workers at most, and other nodes as many more."""

SEED = b"seed " + b"0" * 64 + b"\n"
NODES = 5


def script():
    workers = (b"worker %d\npass p %d\n" % (node, node + 1) for node in range(NODES) for _ in range(250))
    return b"nodes %d 2000\n" % NODES + SEED + b"".join(workers)


def output():
    return b"workers 1250\ncalls 3750\naudit yes\n"
