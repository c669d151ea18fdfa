#!/usr/bin/python3
"""Draws what bench/run.py and bench/lines.py measured, as SVG: the same bytes for the same figures.

    bench/plots.py passes FIGURES SVG      figures of `bench/run.py --figures`
    bench/plots.py growth FIGURES SVG      figures of `bench/lines.py --figures`

It takes matplotlib (Debian's python3-matplotlib).
"""

import argparse
import json

import matplotlib

matplotlib.use("Agg")
# Texts stay texts, and no name or date hangs on the run.
matplotlib.rcParams.update({"svg.hashsalt": "failreg", "svg.fonttype": "none", "font.size": 9})
from matplotlib import pyplot  # noqa: E402

# Colours that colour-blind people tell apart.
COLOURS = {
    "Rust": "#0072b2",
    "C, by number": "#56b4e9",
    "gofail": "#e69f00",
    "libfiu": "#d55e00",
    "a mutex": "#999999",
    "Redis, 64 at once": "#cc79a7",
    "Redis": "#882255",
}
WORKS = (
    "not set, another point is",
    "set, no count",
    "counted",
    "with a chance of 50%",
    "set, four threads on one point",
    "counted, four threads",
)
# Names of the table by names of a bar.
OTHERS = ("gofail", "libfiu", "a mutex", "Redis", "Redis, 64 at once")
MARKS = ("o", "s", "^")


def bars_of(rows, work):
    """Of a work each bar: who passes, and nanoseconds."""
    of_work = [row for row in rows if row["work"] == work]
    ours = [(row["from"], row["failreg"]) for row in of_work if row["from"] in COLOURS]
    others = [(title, of_work[0][title]) for title in OTHERS if title in of_work[0]]
    return sorted([*ours, *others], key=lambda bar: list(COLOURS).index(bar[0]))


def draw_passes(rows, path):
    works = [(work, bars_of(rows, work)) for work in WORKS]
    figure, place = pyplot.subplots(figsize=(8, 8.5))
    height, labels, shown = 0.0, [], set()
    for work, bars in works:
        labels.append((height, work))
        height += 1
        for title, nanoseconds in bars:
            label = None if title in shown else title
            shown.add(title)
            place.barh(height, nanoseconds, color=COLOURS[title], label=label, height=0.85)
            told = f"{nanoseconds:,.0f}" if nanoseconds >= 9.95 else f"{nanoseconds:.1f}"
            place.text(nanoseconds * 1.06, height, f"{title} {told}", va="center", fontsize=8)
            height += 1
        height += 0.4
    place.set_xscale("log")
    place.set_xlim(0.2, 400_000)
    steps = [10**step for step in range(6)]
    place.set_xticks(steps, [f"{step:,}" for step in steps])
    place.minorticks_off()
    place.invert_yaxis()
    place.set_yticks([])
    for at, work in labels:
        place.text(0.22, at + 0.15, work, fontweight="bold", va="center")
    place.set_xlabel("nanoseconds a pass, of all threads together; each step is ten times the one before")
    for side in ("top", "right", "left"):
        place.spines[side].set_visible(False)
    save(figure, path)


def draw_growth(found, path):
    titles = {
        "points": ("points", "ns a pass in a script"),
        "nodes": ("nodes", "us a message of gossip"),
        "calls": ("calls in a row, from C", "a counted pass"),
    }
    figure, places = pyplot.subplots(1, 3, figsize=(11, 3.6))
    colours = list(COLOURS.values())
    for place, (part, (sizes, values)) in zip(places, titles.items()):
        for (name, line), colour, mark in zip(found[part]["lines"].items(), colours, MARKS):
            place.plot(found[part]["sizes"], line, marker=mark, color=colour, label=name)
        place.set_xscale("log", base=10 if part == "calls" else 2)
        place.set_xticks(found[part]["sizes"], [f"{size:,}" if size < 1_000_000 else f"{size // 1_000_000} M" for size in found[part]["sizes"]])
        place.minorticks_off()
        place.set_ylim(bottom=0)
        place.set_xlabel(sizes)
        place.set_ylabel(values)
        place.legend(frameon=False)
        for side in ("top", "right"):
            place.spines[side].set_visible(False)
    save(figure, path)


def save(figure, path):
    figure.tight_layout()
    figure.savefig(path, format="svg", metadata={"Date": None, "Creator": None}, facecolor="white")


DRAWN = {"passes": draw_passes, "growth": draw_growth}


def main():
    parser = argparse.ArgumentParser(description=__doc__, formatter_class=argparse.RawDescriptionHelpFormatter)
    parser.add_argument("what", choices=DRAWN)
    parser.add_argument("figures")
    parser.add_argument("svg")
    asked = parser.parse_args()
    with open(asked.figures, encoding="utf-8") as file:
        DRAWN[asked.what](json.load(file), asked.svg)


if __name__ == "__main__":
    main()
