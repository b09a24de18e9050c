#!/usr/bin/env python3
"""Draws what words of beats do to the memory in the course of a run, as an SVG picture on standard output.

    tools/plot_beats.py examples/phases.elf --words h,hc,hhhhhhhmhhhhhhhc,hmc -- --l1-sets 4 --l2-sets 16 >docs/beats.svg

The program is run again and again, each time with a greater budget and under each of the words. Above stand the bytes of
all blocks as the pages lie, below the pages in blocks of 4,096 bytes; `layout` tells both. In black stands what they are at
the plans of the pages, which the report of the first word tells, and those of the others as well: where pages lie above the
black line, they were not repacked yet. What stands behind -- goes to all runs.
"""
import argparse
import json
import pathlib
import subprocess
import sys
from xml.sax.saxutils import escape

HOME = pathlib.Path(__file__).resolve().parent.parent
COLOURS = ["#4393c3", "#d6604d", "#1b7837", "#d9a441", "#762a83", "#8c510a"]
LEFT, TOP, WIDTH, HEIGHT, GAP, RIGHT = 90, 70, 640, 200, 60, 60


def output_of(words):
    """What the program prints on standard output, and its last line on standard error."""
    done = subprocess.run(words, stdin=subprocess.DEVNULL, capture_output=True, check=False)
    notes = done.stderr.decode(errors="replace").splitlines()
    return done.stdout.decode(errors="replace"), notes[-1] if notes else ""


def blocks_of(layout):
    """The bytes of all blocks, and how many of them have 4,096."""
    rows = [row.split() for row in layout.splitlines()]
    sizes = [int(row[4]) for row in rows if row[2] == "b"]
    return sum(sizes), sizes.count(4096)


def sample(program, word, budget, rest):
    """Blocks at their plans and as they lie, after a run with this budget: bytes, and how many are whole."""
    words = ["--beats", word, "--budget", str(budget), *rest]
    _, last = output_of([HOME / "hiersim", "run", program, "--json", *words])
    if not last.startswith("{"):
        sys.exit(f"plot_beats: under {word} the run has no report: {last}")
    layout, _ = output_of([HOME / "hiersim", "layout", program, *words])
    report = json.loads(last)
    return (report.get("blocks", 0), report.get("classes", [0] * 4)[3]), blocks_of(layout)


def text(x, y, words, anchor="start"):
    return f'<text x="{x}" y="{y}" text-anchor="{anchor}">{escape(str(words))}</text>'


def curve(points, most_x, most_y, top, colour, dashes=""):
    """One line through these points."""
    places = [f"{LEFT + WIDTH * x / most_x:.1f},{top + HEIGHT * (1 - y / most_y):.1f}" for x, y in points]
    return f'<polyline points="{" ".join(places)}" fill="none" stroke="{colour}" stroke-width="2"{dashes}/>'


def panel(title, most_x, most_y, top):
    """The frame of one panel, with the numbers at its axes."""
    parts = [text(LEFT, top - 10, title), f'<rect x="{LEFT}" y="{top}" width="{WIDTH}" height="{HEIGHT}" fill="none" stroke="#8c8c8c"/>']
    for part in (0, 0.5, 1):
        parts.append(text(LEFT - 8, top + HEIGHT * (1 - part) + 4, f"{most_y * part:,.0f}", "end"))
        parts.append(text(LEFT + WIDTH * part, top + HEIGHT + 18, f"{most_x * part:,.0f}", "middle"))
    return parts


def picture(runs, budgets):
    """The whole picture of the samples of each word."""
    most_x = budgets[-1]
    titles = ["bytes of blocks", "pages in blocks of 4,096 bytes"]
    tops = [TOP, TOP + HEIGHT + GAP]
    parts = []
    for number, (title, top) in enumerate(zip(titles, tops)):
        most_y = max([lies[number] for samples in runs.values() for _, lies in samples] + [1])
        parts += panel(title, most_x, most_y, top)
        for colour, samples in zip(COLOURS, runs.values()):
            points = [(x, lies[number]) for x, (_, lies) in zip(budgets, samples)]
            parts.append(curve(points, most_x, most_y, top, colour))
        plans = [(x, planned[number]) for x, (planned, _) in zip(budgets, next(iter(runs.values())))]
        parts.append(curve(plans, most_x, most_y, top, "black", ' stroke-dasharray="4 3"'))
    x = LEFT
    for colour, word in zip(COLOURS, runs):
        parts.append(f'<rect x="{x}" y="16" width="12" height="12" fill="{colour}"/>')
        parts.append(text(x + 18, 27, word))
        x += 60 + 9 * len(word)
    parts.append(text(x, 27, "- - at the plans"))
    parts.append(text(LEFT + WIDTH, tops[1] + HEIGHT + 40, "instructions", "end"))
    width, height = max(LEFT + WIDTH + RIGHT, x + 130), tops[1] + HEIGHT + 54
    head = f'<svg xmlns="http://www.w3.org/2000/svg" width="{width}" height="{height}" font-family="sans-serif" font-size="13">'
    return "\n".join([head, f'<rect width="{width}" height="{height}" fill="white"/>', *parts, "</svg>"])


def main():
    parser = argparse.ArgumentParser(description=__doc__.splitlines()[0])
    parser.add_argument("program", type=pathlib.Path)
    parser.add_argument("--words", required=True)
    parser.add_argument("--steps", type=int, default=40)
    words = sys.argv[1:]
    end = words.index("--") if "--" in words else len(words)
    rest = words[end + 1:]
    asked = parser.parse_args(words[:end])
    _, last = output_of([HOME / "hiersim", "run", asked.program, "--json", *rest])
    if not last.startswith("{"):
        sys.exit(f"plot_beats: the run has no report: {last}")
    budgets = [json.loads(last)["retired"] * step // asked.steps for step in range(1, asked.steps + 1)]
    runs = {word: [sample(asked.program, word, budget, rest) for budget in budgets] for word in asked.words.split(",")}
    print(picture(runs, budgets))


if __name__ == "__main__":
    main()
