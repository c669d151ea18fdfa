#!/usr/bin/env python3
"""How what work costs grows: a pass by the points that there are, a round of gossip by the nodes, and a pass and its
memory by the calls that were made before. Prints a table of each, and draws them (bench/plots.py). See README.md
beside this file."""

import argparse
import json
import tempfile

import programs
from programs import FIRST, Ran

POINTS = (1, 4, 16, 64, 256)
PASSES = 100_000
NODES = (2, 4, 8, 16, 32)
MESSAGES = 20_000
CALLS = (10_000, 100_000, 1_000_000, 10_000_000, 100_000_000)
ROUNDS = 5
SETTINGS = {"uncounted": "off", "counted": "4000000000*off", "with a chance": "50%off"}


def script(actions, points, passes):
    lines = ["nodes 1 4294967295"]
    lines += [f"set 0 p{point} {actions}" for point in range(points)]
    lines += [f"pass 0 p{number % points}" for number in range(passes)]
    return "\n".join(lines).encode()


def of_points(sim):
    """Nanoseconds of a processor a line of a script that passes so many points in turn, by the kind of point."""
    found = {}
    for kind, actions in SETTINGS.items():
        texts = [[script(actions, points, times * PASSES) for times in (1, 2)] for points in POINTS]
        rounds = [[[Ran((sim, "sim"), text, first=FIRST).seconds for text in pair] for pair in texts] for _ in range(ROUNDS)]
        best = [[min(times) for times in zip(*pairs)] for pairs in zip(*rounds)]
        found[kind] = [(twice - once) / PASSES * 1e9 for once, twice in best]
    return found


def of_nodes(rounds_program):
    """Microseconds a message of gossip, by the clock, where one of 256 points changed, or none."""
    found = {}
    for title, changed in (("nothing new", 0), ("one of 256 points", 1)):
        found[title] = []
        for nodes in NODES:
            rounds = max(4, MESSAGES // (nodes * (nodes - 1)))
            words = (rounds_program, str(nodes), str(changed), str(rounds))
            runs = [list(map(int, Ran(words, first=FIRST).printed.split())) for _ in range(ROUNDS)]
            found[title].append(min(nanoseconds for _, _, nanoseconds in runs) / runs[0][0] / 1e3)
    return found


def of_calls(speed):
    """Nanoseconds a counted pass from C, of so many in a row, and the bytes that each keeps."""
    found = {"ns a pass": [], "bytes a pass": []}
    for calls in CALLS:
        rounds = ROUNDS if calls < CALLS[-1] else 1
        runs = [list(map(float, Ran((speed, "counted-at", "1", str(calls)), first=FIRST).printed.split())) for _ in range(rounds)]
        found["ns a pass"].append(min(took for took, _ in runs))
        found["bytes a pass"].append(runs[0][1])
    return found


def print_lines(title, sizes, lines):
    print(f"\n| {title} | {' | '.join(f'{size:,}' for size in sizes)} |")
    print("|---" * (len(sizes) + 1) + "|")
    for name, values in lines.items():
        print(f"| {name} | {' | '.join(f'{value:.3g}' if value < 100 else f'{value:,.0f}' for value in values)} |")


def main():
    parser = argparse.ArgumentParser(description=__doc__)
    parser.add_argument("--built", action="store_true", help="take the programs and the library as they stand")
    parser.add_argument("--figures", metavar="FILE", help="write what bench/plots.py draws")
    asked = parser.parse_args()
    programs.library(asked.built)
    sim = programs.proved(asked.built, "failreg", "--help")
    with tempfile.TemporaryDirectory() as room:
        found = {
            "points": {"sizes": POINTS, "lines": of_points(sim)},
            "nodes": {"sizes": NODES, "lines": of_nodes(programs.of_c(room, "rounds"))},
            "calls": {"sizes": CALLS, "lines": of_calls(programs.of_c(room, "speed"))},
        }
    print_lines("ns a line of a script, by points", POINTS, found["points"]["lines"])
    print_lines("us a message, by nodes", NODES, found["nodes"]["lines"])
    print_lines("a counted pass from C, by calls", CALLS, found["calls"]["lines"])
    if asked.figures:
        with open(asked.figures, "w", encoding="utf-8") as file:
            json.dump(found, file, indent=1)


if __name__ == "__main__":
    main()
