"""A message of more than 4,000,000 bytes: 110 points with 16 counted terms each, of which 15 of 16 nodes shift to
every other node. So it tells of 110 * 16 * 15 * 15 shifts, and each takes 11 bytes."""

NAMES = [f"p{number}" for number in range(110)]
TERMS = range(16)
COUNT = 2000
LAST = 15
ACTIONS = "->".join([f"{COUNT}*off"] * len(TERMS))


def shifts(node, amount):
    """Shifts of each term of each point to every other node."""
    return [f"shift {node} {name} {term} {to} {amount}" for name in NAMES for term in TERMS for to in range(16) if to != node]


def exchange(node, to, message):
    return [f"emit {node} {to}", f"deliver {to} {message}"]


def script():
    lines = ["nodes 16 1000000"]
    lines += [f"set 0 {name} {ACTIONS}" for name in NAMES]
    # each node gets 100 rights of each term, and gives every other node but the first's own shifts one of them
    lines += shifts(0, 100)
    message = 0
    for node in range(1, LAST):
        lines += exchange(0, node, message)
        lines += shifts(node, 1)
        lines += exchange(node, 0, message + 1)
        message += 2
    lines += exchange(0, LAST, message)
    lines += [f"rights {LAST} {NAMES[-1]} {TERMS[-1]} {node}" for node in range(16)]
    return "\n".join(lines).encode()


def output():
    lines = [f"set {clock}.0" for clock in range(1, len(NAMES) + 1)]
    lines += ["shifted 100"] * (len(NAMES) * len(TERMS) * 15)
    for message in range(0, 2 * (LAST - 1), 2):
        lines += [f"message {message}", "changed"]
        lines += ["shifted 1"] * (len(NAMES) * len(TERMS) * 15)
        lines += [f"message {message + 1}", "changed"]
    lines += [f"message {2 * (LAST - 1)}", "changed"]
    # the first gave 15 nodes 100 and got 14; each of the others got 100 and 13, and gave 15; the last gave none
    lines += [str(COUNT - 15 * 100 + 14)] + [str(100 + 13 - 15)] * 14 + [str(100 + 14)]
    return "\n".join(lines).encode() + b"\n"
