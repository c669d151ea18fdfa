"""More than 100,000 bytes of output: 200 passes of a point that prints a text of 1,000 bytes."""

TASK = b"print(" + b"x" * 1000 + b")"


def script():
    return b"nodes 1 300\nset 0 p " + TASK + b"\n" + b"pass 0 p\n" * 200


def output():
    return b"set 1.0\n" + (b"act 1.0 0 " + TASK + b"\n") * 200
