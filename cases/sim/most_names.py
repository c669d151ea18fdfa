"""A node has 256 names at most, however it comes by them: one by one, by a load, or by a message that tells of one
more. A name that it has takes no more room, and no call that is refused takes any. A setting text has 65,536 bytes at
most."""

NAMES = 256
LONGEST = 65536


def load(node, name):
    return f"load {node} " + ";".join(f"{name}{number}=off" for number in range(NAMES))


def long_load(node, size):
    return f"load {node} a=off" + " " * (size - len("a=off"))


def script():
    lines = ["nodes 4 1000"]
    lines += [f"set 0 n{number} off" for number in range(NAMES)]
    lines += ["set 0 q off", "load 0 n7=panic;q=off", "remove 0 q", "set 0 n0 yield"]
    lines += [load(1, "p"), load(1, "p"), "load 1 p7=panic;q=off", "set 1 q off", "remove 1 q"]
    # node 2 tells node 1 of a name that it has, and then of one that it hasn't
    lines += ["set 2 p7 yield", "emit 2 1", "set 2 q yield", "emit 2 1", "deliver 1 1", "deliver 1 0"]
    lines += [long_load(3, LONGEST), long_load(3, LONGEST + 1), "list 3"]
    return "\n".join(lines).encode()


def output():
    too_many = "refused N4 TooManyPoints"
    lines = [f"set {number + 1}.0" for number in range(NAMES)]
    lines += [too_many, too_many, too_many, f"set {NAMES + 1}.0"]
    lines += [f"loaded {NAMES}", f"loaded {NAMES}", too_many, too_many, too_many]
    lines += ["set 1.2", "message 0", "set 2.2", "message 1", too_many, "same"]
    lines += ["loaded 1", "refused N3 BadActions S1 TooLong", "a=off"]
    return "\n".join(lines).encode() + b"\n"
