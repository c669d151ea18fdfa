#!/usr/bin/env python3
"""How what work costs grows with it: scripts of passes, loads, shifts, grants and exchanges, messages, rounds of gossip,
drills and audits, each at two sizes. See README.md beside this file."""

import argparse
import os
import sys
import tempfile

import programs
from programs import FIRST, Ran

PASSES = (100_000, 200_000)
POINTS = (1, 256)
LOADS = (500, 1_000)
SHIFTS = (100_000, 200_000)
GRANTS = (100_000, 200_000)
CLUSTERS = (2, 4, 16)
EXCHANGES = (2_000, 4_000)
ROUNDS = 11
ROUNDS_BESIDE = 31

# Points that 16 nodes know before they take turns: as many turns as take a second, or so many.
KNOWN_POINTS = (16, 64, 256)
SECONDS_OF_TURNS = 1
MOST_TURNS = 65_536
ROUNDS_OF_TURNS = 3
# A message is delivered again until its copies take so many MiB, or so often.
MIB_OF_COPIES = 32
MOST_COPIES = 262_144

# The actions of each point, and what follows the point's name in each pass. The long text is 1,000
# bytes, of which each pass runs the first term.
SETTINGS = {
    "uncounted": ("print(x)", ""),
    "counted": ("1000000*print(x)", ""),
    "chance": ("50%print(x)", " 2147483647"),
    "short text": ("off->panic", ""),
    "long text": ("off->print(" + "x" * 988 + ")", ""),
}


# Messages of so many names, without grants and with all, each of them taken in and written so often.
FORMS = ("plain", "grants")
NAMES = (64, 128, 256)
TIMES = 5

# Drills in parts, of so many entries: of nodes that pass, and of nodes that send messages round.
DRILLS = ("passes", "forwards", "backwards")
ENTRIES_OF_PARTS = (200_000, 400_000)
ROUNDS_OF_DRILLS = 7

# Rounds of gossip of so many nodes, before each of which so many of 256 points are passed; and how many messages
# they make, more or less.
MEMBERS = (2, 4, 16, 32)
CHANGED = (0, 1, 256)
MESSAGES = {0: 40_000, 1: 20_000, 256: 2_000}


def script(setting, points, passes):
    actions, words = SETTINGS[setting]
    lines = ["nodes 1 4294967295"]
    lines += [f"set 0 p{point} {actions}" for point in range(points)]
    lines += [f"pass 0 p{number % points}{words}" for number in range(passes)]
    return "\n".join(lines).encode()


def load_script(loads):
    """Each load sets the same 256 points."""
    setting = ";".join(f"point{point}=20%3*print(x)->panic" for point in range(256))
    return "\n".join(["nodes 1 4294967295"] + [f"load 0 {setting}"] * loads).encode()


def shift_script(shifts):
    """Each shift moves one right of 256 points in turn to one of 15 other nodes."""
    lines = ["nodes 16 4294967295"]
    lines += [f"set 0 p{point} 1000000*off" for point in range(256)]
    lines += [f"shift 0 p{number % 256} 0 {number % 15 + 1} 1" for number in range(shifts)]
    return "\n".join(lines).encode()


def grant_script(grants):
    """Each grant is of one right of 256 points in turn."""
    lines = ["nodes 16 4294967295"]
    lines += [f"set 0 p{point} 1*off" for point in range(256)]
    lines += [f"grant 0 p{number % 256} 0 1" for number in range(grants)]
    return "\n".join(lines).encode()


def exchange_script(nodes, exchanges):
    """Nodes of 16 points pass 8 times each, in turn; then one sends all that it knows to the next. The rights are shared out first."""
    lines = [f"nodes {nodes} 4294967295"]
    for point in range(16):
        lines.append(f"set 0 p{point} 1000000*off")
        lines += [f"shift 0 p{point} 0 {to} {1000000 // nodes}" for to in range(1, nodes)]
    for to in range(1, nodes):
        lines += [f"emit 0 {to}", f"deliver {to} {to - 1}"]
    message = nodes - 1
    for number in range(exchanges):
        sender, receiver = number % nodes, (number + 1) % nodes
        lines += [f"pass {sender} p{(number + place) % 16}" for place in range(8)]
        lines += [f"emit {sender} {receiver}", f"deliver {receiver} {message}"]
        message += 1
    return "\n".join(lines).encode()


class Turns:
    """A script of 16 nodes that know points with 16 counted terms. They take turns: a node passes a point and tells the
    other node of its pair, which then tells it. Before the turns that are asked for each node has had one, so that each
    knows by then which version of it the other knows."""

    def __init__(self, points, turns):
        self.lines = ["nodes 16 4294967295"]
        self.receivers = []
        self.tell(2, 3)
        actions = "->".join(["1000000*off"] * 16)
        for point in range(points):
            self.lines.append(f"set 0 p{point} {actions}")
            self.lines += [f"shift 0 p{point} 0 {to} 60000" for to in range(1, 16)]
        for receiver in range(1, 16):
            self.tell(0, receiver)
        for turn in range(16 + turns):
            node = turn % 16
            self.lines.append(f"pass {node} p{(turn + turn // 16) % points}")
            self.tell(node, node ^ 1)
            self.tell(node ^ 1, node)
        self.changes = 15 + 16 + turns

    def tell(self, sender, receiver):
        """A message that is delivered at once."""
        self.lines += [f"emit {sender} {receiver}", f"deliver {receiver} {len(self.receivers)}"]
        self.receivers.append(receiver)

    def deliver_again(self, message, times):
        """The last message is also -1."""
        message %= len(self.receivers)
        self.lines += [f"deliver {self.receivers[message]} {message}"] * times

    def run(self, program):
        return run(program, "\n".join(self.lines).encode(), b"changed", self.changes)


def run(program, text, answer, count):
    """Seconds of a processor, and the most memory in MiB. So many lines begin with the answer."""
    ran = Ran((program, "sim"), text, first=FIRST)
    answers = sum(line.startswith(answer) for line in ran.printed.splitlines())
    if answers != count:
        sys.exit(f"{program} sim: {answers} of {count} calls answered {answer.decode()}")
    return ran.seconds, ran.memory / 2**20


def timed(program, texts, answer, counts):
    """Seconds at each size, the best of the rounds, and the most memory. The sizes go in turn."""
    rounds = [[run(program, text, answer, count) for text, count in zip(texts, counts)] for _ in range(ROUNDS)]
    times = [min(seconds for seconds, _ in runs) for runs in zip(*rounds)]
    return times, max(most for runs in rounds for _, most in runs)


def time_passes(program):
    few, many = PASSES
    print(f"{'setting':<12}{'points':>7}{f'ns a pass, {few}':>20}{many:>8}{'ratio':>7}{'most MiB':>10}")
    for setting in SETTINGS:
        for points in POINTS:
            texts = [script(setting, points, passes) for passes in PASSES]
            (first, second), memory = timed(program, texts, b"act ", PASSES)
            print(f"{setting:<12}{points:>7}{first / few * 1e9:>20.0f}{second / many * 1e9:>8.0f}{second / first:>7.2f}{memory:>10.1f}")


def compare_passes(before, now):
    """Two programs in turn, 200,000 passes each, and how many times the first one's time the second takes."""
    many = PASSES[-1]
    print(f"{'setting':<12}{'points':>7}{'ns a pass, before':>20}{'now':>8}{'ratio':>7}")
    for setting in SETTINGS:
        for points in POINTS:
            text = script(setting, points, many)
            rounds = [[run(program, text, b"act ", many)[0] for program in (before, now)] for _ in range(ROUNDS_BESIDE)]
            first, second = (min(times) for times in zip(*rounds))
            print(f"{setting:<12}{points:>7}{first / many * 1e9:>20.0f}{second / many * 1e9:>8.0f}{second / first:>7.3f}")


def time_calls(program):
    print(f"\n{'call':<24}{'us a call, n':>14}{'2n':>8}{'ratio':>7}{'most MiB':>10}")
    for name, make, answer, counts in (
        ("load of 256 points", load_script, b"loaded 256", LOADS),
        ("shift", shift_script, b"shifted ", SHIFTS),
        ("grant", grant_script, b"granted ", GRANTS),
    ):
        (first, second), memory = timed(program, [make(count) for count in counts], answer, counts)
        few, many = counts
        print(f"{name:<24}{first / few * 1e6:>14.2f}{second / many * 1e6:>8.2f}{second / first:>7.2f}{memory:>10.1f}")


def time_exchanges(program):
    few, many = EXCHANGES
    print(f"\n{'nodes':<7}{f'us an exchange, {few}':>22}{many:>8}{'ratio':>7}{'most MiB':>10}")
    for nodes in CLUSTERS:
        texts = [exchange_script(nodes, count) for count in EXCHANGES]
        counts = [count + nodes - 1 for count in EXCHANGES]
        (first, second), memory = timed(program, texts, b"changed", counts)
        print(f"{nodes:<7}{first / few * 1e6:>22.1f}{second / many * 1e6:>8.1f}{second / first:>7.2f}{memory:>10.1f}")


def seconds_of_turns(program, points, turns):
    """What so many turns take beyond those before them, the best of the rounds, and the most memory."""
    rounds = [[Turns(points, count).run(program) for count in (0, turns)] for _ in range(ROUNDS_OF_TURNS)]
    before, all_turns = (min(seconds for seconds, _ in runs) for runs in zip(*rounds))
    return all_turns - before, max(most for runs in rounds for _, most in runs)


def bytes_kept(program, points, message):
    """What a node keeps of one delivery of a message: so many more of them take so much more memory."""
    memory, times = {}, 256
    while True:
        for count in (times, 2 * times):
            turns = Turns(points, 16)
            turns.deliver_again(message, count)
            memory[count] = turns.run(program)[1]
        if memory[times] >= MIB_OF_COPIES or times == MOST_COPIES:
            return (memory[2 * times] - memory[times]) * 2**20 / times
        times *= 4


def time_turns(program):
    print(f"\n{'points':<8}{'turns n':>8}{'us a turn, n':>14}{'2n':>9}{'ratio':>7}{'bytes there':>13}{'back':>8}{'most MiB':>10}")
    # Message 0 tells nothing, in 32 bytes.
    beside = bytes_kept(program, KNOWN_POINTS[0], 0) - 32
    for points in KNOWN_POINTS:
        few = 16
        while (first := seconds_of_turns(program, points, few)[0]) < SECONDS_OF_TURNS and few < MOST_TURNS:
            few *= 2
        second, memory = seconds_of_turns(program, points, 2 * few)
        there, back = (bytes_kept(program, points, message) - beside for message in (-2, -1))
        print(
            f"{points:<8}{few:>8}{first / few * 1e6:>14.1f}{second / few / 2 * 1e6:>9.1f}{second / first:>7.2f}"
            f"{there:>13.0f}{back:>8.0f}{memory:>10.1f}"
        )


def time_messages(program):
    """Milliseconds in which a node takes in a message of as many cells as it accepts, and in which it writes one that tells
    the same, the least of some runs."""
    print(f"\n{'message':<9}{'names':>6}{'bytes':>12}{'ms, taken in':>14}{'ratio':>7}{'written':>9}{'ratio':>7}{'most MiB':>10}")
    for form in FORMS:
        before = None
        for names in NAMES:
            ran = Ran((program, form, str(names), str(TIMES)), first=FIRST)
            length, *took = (int(word) for word in ran.printed.split())
            read, written = (f"{now / past:.2f}" if past else "" for now, past in zip(took, before or (0, 0)))
            print(
                f"{form:<9}{names:>6}{length:>12}{took[0] / 1e6:>14.0f}{read:>7}{took[1] / 1e6:>9.0f}{written:>7}"
                f"{ran.memory / 2**20:>10.0f}"
            )
            before = took


def told(program, nodes, changed, rounds):
    """The messages and bytes of so many rounds of all nodes; their nanoseconds by the clock, without the changes before
    them; and the seconds of a processor that the whole run took."""
    ran = Ran((program, str(nodes), str(changed), str(rounds)), first=FIRST)
    messages, length, nanoseconds = map(int, ran.printed.split())
    return messages, length, nanoseconds, ran.seconds


def time_rounds(program):
    """In a round each node tells all others, one node after the other. The ratio is of what the rounds take of a processor,
    without what a run of none takes; the microseconds are by the clock."""
    print(f"\n{'nodes':<7}{'changed':>8}{'rounds n':>10}{'messages':>10}{'bytes':>12}{'us a round, n':>15}{'2n':>10}{'ratio':>7}{'us a message':>14}")
    for nodes in MEMBERS:
        for changed in CHANGED:
            few = max(4, MESSAGES[changed] // (nodes * (nodes - 1)))
            sizes = (0, few, 2 * few)
            rounds = [[told(program, nodes, changed, count) for count in sizes] for _ in range(ROUNDS_OF_TURNS)]
            messages, length = rounds[0][1][:2]
            _, first, second = (min(run[2] for run in runs) / 1e3 for runs in zip(*rounds))
            none, once, twice = (min(run[3] for run in runs) for runs in zip(*rounds))
            print(
                f"{nodes:<7}{changed:>8}{few:>10}{messages / few:>10.0f}{length / few:>12.0f}{first / few:>15.1f}"
                f"{second / few / 2:>10.1f}{(twice - none) / (once - none):>7.2f}{second / messages / 2:>14.2f}"
            )


def read_and_audited(program, folder):
    """Seconds of a processor in which parts are read and refused, since two are of one node, and are read and audited."""
    parts = [os.path.join(folder, f"part{node}") for node in range(16)]
    read = Ran((program, "audit", *parts[:-1], parts[0]), first=FIRST, wanted=1)
    audited = Ran((program, "audit", *parts), first=FIRST)
    if not audited.printed.startswith(b"audit yes\n"):
        sys.exit(f"{program} audit: {audited.printed.decode()}")
    return read.seconds, audited.seconds


def parts_of(ring, drill, entries, folder):
    """Makes the parts, and answers their MiB."""
    os.mkdir(folder)
    programs.do(ring, drill, str(entries), folder)
    return sum(os.path.getsize(os.path.join(folder, name)) for name in os.listdir(folder)) / 2**20


def time_parts(program, ring, room):
    """Microseconds an entry of drills in parts."""
    few, many = ENTRIES_OF_PARTS
    print(f"\n{'drill':<11}{'MiB of parts':>13}{'us to read one':>16}{f'audit it, {few}':>18}{many:>9}{'ratio':>7}")
    for drill in DRILLS:
        folders = [os.path.join(room, f"{drill}{entries}") for entries in ENTRIES_OF_PARTS]
        sizes = [parts_of(ring, drill, entries, folder) for entries, folder in zip(ENTRIES_OF_PARTS, folders)]
        rounds = [[read_and_audited(program, folder) for folder in folders] for _ in range(ROUNDS_OF_DRILLS)]
        best = [[min(parts) for parts in zip(*runs)] for runs in zip(*rounds)]
        (read, _), (first, second) = best[0], (whole - read for read, whole in best)
        print(
            f"{drill:<11}{sizes[0]:>13.1f}{read / few * 1e6:>16.2f}{first / few * 1e6:>18.2f}{second / many * 1e6:>9.2f}"
            f"{second / first:>7.2f}"
        )


def rounds_of_c(is_built):
    programs.library(is_built)
    with tempfile.TemporaryDirectory() as room:
        time_rounds(programs.of_c(room, "rounds"))


def parts_of_c(is_built):
    programs.library(is_built)
    failreg = programs.proved(is_built, "failreg", "--help")
    with tempfile.TemporaryDirectory() as room:
        time_parts(failreg, programs.of_c(room, "ring"), room)


def messages_of_c(is_built):
    programs.library(is_built)
    with tempfile.TemporaryDirectory() as room:
        time_messages(programs.of_c(room, "great_message", f"{programs.EMBEDDING}/c"))


# What is timed of scripts, and of programs of C.
OF_SCRIPTS = {"passes": time_passes, "calls": time_calls, "exchanges": time_exchanges, "turns": time_turns}
OF_C = {"rounds": rounds_of_c, "messages": messages_of_c, "parts": parts_of_c}
PARTS = (*OF_SCRIPTS, *OF_C)


def play(part, is_built):
    if part in OF_SCRIPTS:
        OF_SCRIPTS[part](programs.proved(is_built, "failreg", "--help"))
    else:
        OF_C[part](is_built)


def main():
    parser = argparse.ArgumentParser(description=__doc__)
    parser.add_argument("--built", action="store_true", help="take the programs and the library as they stand")
    parser.add_argument("--beside", metavar="PROGRAM", help="passes alone, of another failreg and of this one in turn")
    parser.add_argument("parts", nargs="*", metavar="PART", help=f"{', '.join(PARTS)}; none: all of them")
    asked = parser.parse_args()
    unknown = [part for part in asked.parts if part not in PARTS]
    if unknown:
        parser.error(f"no part is called {unknown[0]}: the parts are {', '.join(PARTS)}")
    if asked.beside:
        compare_passes(os.path.abspath(asked.beside), programs.proved(asked.built, "failreg", "--help"))
        return
    for part in asked.parts or PARTS:
        play(part, asked.built)


if __name__ == "__main__":
    main()
