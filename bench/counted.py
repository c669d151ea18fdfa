#!/usr/bin/env python3
"""Lets two threads at each of four nodes pass a point, and compares what they were told of its two counted terms with
what an audit adds up. See README.md beside this file.

    bench/counted.py PROGRAM PASSES
"""

import collections
import json
import os
import re
import subprocess
import sys
import tempfile

NODES = 4
WORKERS = 8
# As many as one line of a script of threads may say.
MOST_TIMES = 65_535


def script(passes):
    """So many passes in all: three in five have a right to one of the terms, and nodes have an equal share of these."""
    lines = [
        f"nodes {NODES} 4294967295",
        "seed " + "7" * 64,
        f"start set 0 p {passes * 2 // 5}*off->{passes // 5}*print(x)->yield",
        "start spread 0 p",
        "gossip 100",
    ]
    for worker in range(WORKERS):
        lines.append(f"worker {worker % NODES}")
        left = passes // WORKERS
        while left:
            lines.append(f"pass p {min(left, MOST_TIMES)}")
            left -= min(left, MOST_TIMES)
    return "\n".join(lines).encode()


def answered(path):
    """How often receipts of a recorded drill say that a term was triggered."""
    terms = collections.Counter()
    with open(path, encoding="utf-8") as drill:
        for line in drill:
            if '"index"' in line and '"act"' in line:
                reply = json.loads(line)["reply"]
                terms[reply[3]] += reply[0] == "act"
    return terms


def main():
    if len(sys.argv) != 3:
        sys.exit(__doc__)
    program, passes = os.path.abspath(sys.argv[1]), int(sys.argv[2])
    with tempfile.TemporaryDirectory() as folder:
        path = os.path.join(folder, "drill")
        words = [program, "threads", "--record", path]
        printed = subprocess.run(words, input=script(passes), capture_output=True, check=True).stdout.decode()
        told = answered(path)
    print(printed, end="")
    budgets = re.findall(r"^budget p 1\.0 (\d+) .*executed=(\d+)$", printed, re.M)
    executed = {int(term): int(count) for term, count in budgets}
    for term in (0, 1):
        print(f"term {term}: {told[term]} answered, {executed[term]} executed")
    print(f"{told[2]} other acts")
    sys.exit(0 if all(told[term] == executed[term] for term in (0, 1)) else 1)


if __name__ == "__main__":
    main()
