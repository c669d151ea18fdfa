#!/usr/bin/env python3
"""What a pass costs, beside gofail, libfiu, a counter behind a mutex and Redis, where these are installed: one
table. See README.md beside this file."""

import argparse
import json
import os
import re
import shutil
import subprocess
import sys
import tempfile
from typing import NamedTuple

import programs
from programs import FIRST, Ran, instructions

# A run makes so many passes. All programs go in turn, so often, and of each the best run counts.
PASSES = 200_000
ROUNDS = 31
# Instructions are those of the second run less those of the first.
COUNTED = (20_000, 40_000)
# Redis takes so long that fewer tell as much.
PASSES_OF_REDIS = 20_000


class Way(NamedTuple):
    """How one program passes: what it is asked, but for how often."""

    program: str
    kind: str
    threads: int = 1


class Peer(NamedTuple):
    """A column of others: the program, what it is asked for a kind of passes, and whether ours are divided by it."""

    title: str
    program: str
    kinds: dict
    has_ratio: bool = False


NOT_COUNTED = ("nothing-set", "unset", "uncounted", "chance", "own", "many")
PEERS = (
    Peer("gofail", "gofail", {kind: kind for kind in (*NOT_COUNTED, "counted")}, True),
    Peer("libfiu", "libfiu", {kind: kind for kind in NOT_COUNTED}, True),
    Peer("a mutex", "mutex", {"counted": "counted"}),
    Peer("Redis", "redis", {"counted": "counted"}),
    Peer("Redis, 64 at once", "redis", {"counted": "piped"}),
)


class Line(NamedTuple):
    """A line of the table: ours, and the kind of passes of the others beside it, if there is one."""

    work: str
    caller: str
    ours: Way
    theirs: str = ""
    wished: str = ""


def drill_of(nodes, passes):
    """A script of threads: each node sets a point, which a worker of its own passes."""
    lines = [f"nodes {nodes} 4294967295", "seed " + "7" * 64]
    lines += [f"start set {node} p 4000000000*print(x)" for node in range(nodes)]
    for node in range(nodes):
        lines.append(f"worker {node}")
        # a line says so many passes at most
        lines += [f"pass p {min(left, 65_535)}" for left in range(passes // nodes, 0, -65_535)]
    return "\n".join(lines).encode()


def lines():
    yield Line("no point is set", "Rust", Way("rust", "nothing-set"), "nothing-set")
    unset = "not set, another point is"
    yield Line(unset, "Rust", Way("rust", "unset"), "unset", "2 ns")
    yield Line(unset, "C, which asks whether it is set", Way("c", "looked"), "unset")
    yield Line(unset, "C, which passes it all the same", Way("c", "unset-at"), "unset")
    for work, kind in (("set, no count", "uncounted"), ("counted", "counted")):
        yield Line(work, "C, by number", Way("c", f"{kind}-at"), kind, "150 ns")
        yield Line(work, "C, by name", Way("c", kind), kind)
        yield Line(work, "Rust", Way("rust", kind), kind)
    chance = "with a chance of 50%"
    yield Line(chance, "C, by number", Way("c", "chance-at"), "chance")
    yield Line(chance, "Rust", Way("rust", "chance"), "chance")
    for work, kind in (("set, four threads on one point", "uncounted"), ("counted, four threads", "counted")):
        yield Line(work, "C, by number", Way("c", f"{kind}-at", 4), kind, "gofail's")
        yield Line(work, "Rust", Way("rust", kind, 4), kind)
    yield Line("set, four threads with a point each", "C, a node each", Way("c", "own-at", 4), "own", "35 ns")
    yield Line("set, 256 points in turn", "C, by number", Way("c", "many-at"), "many", "1.2 times one point")
    yield Line("a line `pass` of a script", "`failreg sim`", Way("sim", "sim"), "", "200 ns")
    yield Line("a pass of a worker, kept and audited", "`failreg threads`", Way("threads", "threads"))
    yield Line("the audit of a pass", "`failreg audit`", Way("audit", "audit"), "", "300 ns")


class Speed:
    """A program that is told a kind, threads and passes, and prints nanoseconds and bytes a pass."""

    def __init__(self, path):
        self.path = path

    def words(self, way, passes):
        return self.path, way.kind, str(way.threads), str(passes)

    def time(self, way):
        return [float(word) for word in Ran(self.words(way, PASSES), first=FIRST).printed.split()]

    def figures(self, best):
        """Nanoseconds a pass, of the least that each of its runs told."""
        return best[0]

    def kept(self, way):
        """Bytes that a pass keeps: of ten times as many passes less those of one."""
        few, many = (float(Ran(self.words(way, passes)).printed.split()[1]) * passes for passes in (PASSES, 10 * PASSES))
        return (many - few) / (9 * PASSES)

    def count(self, way):
        few, many = (instructions(self.words(way, passes)) for passes in COUNTED)
        return (many - few) / (COUNTED[1] - COUNTED[0])


class Script(Speed):
    """A program that reads a script, whose passes are the difference of two, in time of a processor."""

    def script(self, way, passes):
        raise NotImplementedError

    def words(self, way, passes):
        """The same for each run: how many passes there are, the script says."""
        return self.path, way.kind

    def time(self, way):
        texts = (self.script(way, passes) for passes in (PASSES, 2 * PASSES))
        return [Ran(self.words(way, PASSES), text, first=FIRST).seconds for text in texts]

    def figures(self, best):
        once, twice = best
        return (twice - once) / PASSES * 1e9

    def kept(self, way):
        return None

    def count(self, way):
        few, many = (instructions(self.words(way, passes), self.script(way, passes)) for passes in COUNTED)
        return (many - few) / (COUNTED[1] - COUNTED[0])


class Sim(Script):
    """`failreg sim`."""

    def script(self, way, passes):
        return "\n".join(["nodes 1 4294967295", "set 0 p0 print(x)"] + ["pass 0 p0"] * passes).encode()


class Threads(Script):
    """`failreg threads`, whose workers stand at a node each."""

    def script(self, way, passes):
        return drill_of(way.threads, passes)


class Audit(Speed):
    """`failreg audit` of a drill of 16 nodes: what it takes more than to read the drill, in time of a processor. Its last
    line is none of a drill where it is only to be read."""

    def __init__(self, path, folder):
        super().__init__(path)
        self.drills = {}
        for passes in (PASSES, *COUNTED):
            audited, read = (os.path.join(folder, f"{kind}{passes}") for kind in ("audited", "read"))
            Ran((path, "threads", "--quiet", "--record", audited), drill_of(16, passes))
            shutil.copy(audited, read)
            with open(read, "a", encoding="utf-8") as drill:
                drill.write("x\n")
            self.drills[passes] = audited, read

    def time(self, way):
        audited, read = self.drills[PASSES]
        return [Ran((self.path, "audit", drill), first=FIRST, wanted=wanted).seconds for drill, wanted in ((audited, 0), (read, 1))]

    def figures(self, best):
        audited, read = best
        return (audited - read) / PASSES * 1e9

    def kept(self, way):
        return None

    def count(self, way):
        few, many = (self.counted(*self.drills[passes]) for passes in COUNTED)
        return (many - few) / (COUNTED[1] - COUNTED[0])

    def counted(self, audited, read):
        return instructions((self.path, "audit", audited)) - instructions((self.path, "audit", read), wanted=1)


class Redis(Speed):
    """A program whose passes are those of another process, so that its own instructions and memory say little."""

    def time(self, way):
        return [float(Ran(self.words(way, PASSES_OF_REDIS), first=FIRST).printed.split()[0])]

    def kept(self, way):
        return None

    def count(self, way):
        return None


class Figure(NamedTuple):
    """Of a pass."""

    nanoseconds: float
    instructions: float | None
    bytes: float | None


def build(folder, is_built):
    """Each program by its name. Those of Rust and of others are left out where what they take isn't installed."""
    programs.library(is_built)
    failreg = programs.proved(is_built, "failreg", "--help")
    found = {
        "sim": Sim(failreg),
        "threads": Threads(failreg),
        "audit": Audit(failreg, folder),
        "c": Speed(programs.of_c(folder, "speed")),
        "mutex": Speed(programs.of_mutex(folder)),
    }
    others = {"rust": programs.of_rust, "gofail": programs.of_gofail, "libfiu": programs.of_libfiu}
    for name, made in others.items():
        if path := made(folder):
            found[name] = Speed(path)
        else:
            print(f"{name} isn't installed, and was skipped")
    if path := programs.of_redis(folder):
        found["redis"] = Redis(path)
    else:
        print("Redis or its library for C isn't installed, and was skipped")
    return found


def way_of(peer, line):
    """How another one does the passes of a line, if it has such."""
    kind = peer.kinds.get(line.theirs)
    return kind and Way(peer.program, kind, line.ours.threads)


def ways_of(table, names):
    """Each way once, in the order of the table."""
    for line in table:
        yield line.ours
        yield from (way for peer in PEERS if peer.program in names and (way := way_of(peer, line)))


def count(program, way):
    """Only of one thread: cachegrind lets threads run one at a time. None where it isn't there, or can't run the program."""
    if way.threads > 1:
        return None
    try:
        return program.count(way)
    except (SystemExit, OSError) as why:
        print(f"the instructions of {way.program} {way.kind} weren't counted: {str(why).splitlines()[0]}", file=sys.stderr)
        return None


def measure(found, ways):
    """A figure of each way, of the best of rounds in which all go in turn."""
    rounds = [[found[way.program].time(way) for way in ways] for _ in range(ROUNDS)]
    figures = {}
    for way, runs in zip(ways, zip(*rounds)):
        program = found[way.program]
        best = program.figures([min(parts) for parts in zip(*runs)])
        figures[way] = Figure(best, count(program, way), program.kept(way) if way.threads == 1 else None)
    return figures


def number(value):
    return f"{value:,.0f}" if value >= 9.95 else f"{value:.1f}"


def cell(figure):
    if figure is None:
        return ""
    inner = "" if figure.instructions is None else f" ({figure.instructions:,.0f})"
    return number(figure.nanoseconds) + inner


def ratio(ours, theirs):
    return "" if theirs is None else f"{ours.nanoseconds / theirs.nanoseconds:.2f}"


def print_table(table, figures):
    titles = [title for peer in PEERS for title in ((peer.title, "to it") if peer.has_ratio else (peer.title,))]
    titles = ["A pass", "from", "failreg", *titles, "bytes", "wished"]
    print(f"| {' | '.join(titles)} |")
    print("|" + "---|" * len(titles))
    for before, line in zip((None, *table), table):
        # The first line of a work has its name and the others' figures, each line its ratios.
        is_first = before is None or before.work != line.work
        ours = figures[line.ours]
        words = [line.work if is_first else "", line.caller, cell(ours)]
        for peer in PEERS:
            theirs = figures.get(way_of(peer, line))
            words.append(cell(theirs) if is_first else "")
            if peer.has_ratio:
                words.append(ratio(ours, theirs))
        kept = "" if ours.bytes is None else number(max(ours.bytes, 0))
        print(f"| {' | '.join([*words, kept, line.wished])} |")


def write_figures(path, table, figures):
    """What a plot is drawn from: of each line the nanoseconds of each who passes, by their names."""
    rows = []
    for line in table:
        theirs = {peer.title: figures.get(way_of(peer, line)) for peer in PEERS}
        others = {title: figure.nanoseconds for title, figure in theirs.items() if figure}
        rows.append({"work": line.work, "from": line.caller, "failreg": figures[line.ours].nanoseconds, **others})
    with open(path, "w", encoding="utf-8") as file:
        json.dump(rows, file, indent=1)


def conditions():
    """What stands beside the figures, so that they can be read later."""
    with open("/proc/cpuinfo", encoding="utf-8") as info:
        model = re.search(r"model name\s*: (.*)", info.read())
    packages = ("golang-github-etcd-io-gofail-dev", "golang-go", "libfiu-dev", "redis-server", "libhiredis-dev")
    words = ["dpkg-query", "-W", "-f", "${Package} ${Version}, ", *packages]
    versions = subprocess.run(words, capture_output=True, text=True).stdout if os.path.exists("/usr/bin/dpkg-query") else ""
    print(f"{os.cpu_count()} processors, {model.group(1) if model else 'unknown'}; load {os.getloadavg()[0]:.0f}")
    print(f"{versions}before each program: {' '.join(FIRST) or 'nothing'}")
    print(f"best of {ROUNDS} runs of {PASSES:,} passes: nanoseconds (instructions) a pass\n")


def main():
    parser = argparse.ArgumentParser(description=__doc__)
    parser.add_argument("--built", action="store_true", help="take our programs and the library as they stand")
    parser.add_argument("--figures", metavar="FILE", help="write what bench/plots.py draws")
    asked = parser.parse_args()
    with tempfile.TemporaryDirectory() as folder:
        found = build(folder, asked.built)
        table = [line for line in lines() if line.ours.program in found]
        conditions()
        with programs.redis_server("redis" in found):
            figures = measure(found, list(dict.fromkeys(ways_of(table, found))))
        print_table(table, figures)
        if asked.figures:
            write_figures(asked.figures, table, figures)


if __name__ == "__main__":
    main()
