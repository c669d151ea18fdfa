"""Sixteen nodes set sixteen points each and pass the last of them, and one after the other tells the next one, the
last one the first: so the first and the last know all that each of them did."""

NODES = range(16)
POINTS = range(16)


def name(node, point):
    return f"{node}:{point}"


def script():
    lines = [f"nodes {len(NODES)} 1000"]
    for node in NODES:
        entries = ";".join(f"{name(node, point)}=9*off" for point in POINTS)
        lines += [f"load {node} {entries}", f"pass {node} {name(node, POINTS[-1])}"]
        receiver = (node + 1) % len(NODES)
        lines += [f"emit {node} {receiver}", f"deliver {receiver} {node}"]
    for node in NODES[0], NODES[-1]:
        lines += [f"list {node}"]
        lines += [f"spent {node} {name(other, POINTS[-1])} 0" for other in NODES]
        lines += [f"hits {node} {name(other, POINTS[-1])}" for other in NODES]
        lines += [f"rights {node} {name(other, POINTS[-1])} 0 {other}" for other in NODES]
    return "\n".join(lines).encode()


def output():
    lines = []
    clock = 0
    for node in NODES:
        # each was told the clock of the one before, and counts on from there; the last point is set last
        clock += len(POINTS)
        lines += [f"loaded {len(POINTS)}", f"act {clock}.{node} 0 off", f"message {node}", "changed"]
    names = sorted(name(node, point) for node in NODES for point in POINTS)
    known = [";".join(f"{one}=9*off" for one in names)]
    known += ["1"] * len(NODES) + ["1"] * len(NODES) + ["8"] * len(NODES)
    return "\n".join(lines + known + known).encode() + b"\n"
