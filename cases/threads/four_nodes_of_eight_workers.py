"""Four nodes have eight workers each. Each worker grants, moves and spends rights to a point of its own, and loads and
removes another one. What was set before the workers has the clocks 1 to 8 at each node."""

SEED = b"seed " + b"0" * 64 + b"\n"
NODES = 4
WORKERS = 8
PLACES = [(node, worker) for node in range(NODES) for worker in range(WORKERS)]


def calls_of(node, worker):
    point, to = b"%d%d" % (node, worker), (node + 1) % NODES
    return (
        b"worker %d\n" % node
        + b"grant p%s 0 3\n" % point
        + b"shift p%s 0 %d 1\n" % (point, to)
        + b"pass p%s 9\n" % point
        + b"load q%s=off\n" % point
        + b"remove q%s\n" % point
    )


def script():
    starts = (b"start set %d p%d%d 2*off->yield\n" % (node, node, worker) for node, worker in PLACES)
    workers = (calls_of(node, worker) for node, worker in PLACES)
    return b"nodes %d 1000\n" % NODES + SEED + b"".join(starts) + b"".join(workers)


def output():
    # A setting before the workers, and 13 calls of each of them. Of 2 + 3 rights one was moved away.
    head = b"workers 32\ncalls 448\naudit yes\n"
    budgets = (
        b"budget p%d%d %d.%d 0 count=2 granted=3 executed=4\n" % (node, worker, worker + 1, node)
        for node, worker in PLACES
    )
    return head + b"".join(budgets)
