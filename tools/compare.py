#!/usr/bin/env python3
"""Runs one program or trace over a grid of options of hiersim, and prints a table with a row for each run.

    tools/compare.py run examples/list.elf --vary codec=bdi,fpc --vary l2-sets=64,128 -- --l1-sets 32 --l1-ways 2
    tools/compare.py trace examples/six.trace --vary l1-ways=1,2,4 --svg six.svg

Each combination of the varied options is one run. What stands behind -- goes to all of them. Input is empty, and output
is dropped. A row has the varied options, the end, what retired, the reads that hit in the second level, the lines that
were read from the pages and written to them, the exceptions, and the ratio, 8.00 at best. With --svg the lines and the
ratio are drawn, too. A number that a report lacks is -. A run without a report has its last words for an end. The exit
status is 1 where there is such a run, or one that was cut short.
"""
import argparse
import itertools
import json
import pathlib
import subprocess
import sys
from xml.sax.saxutils import escape

NUMBERS = ["retired", "l2 read hits", "lines read", "lines written", "exceptions", "ratio"]
WHOLE_ENDS = ("exit ", "trap ", "budget", "done")
READ, WRITTEN, RATIO, FAILED = "#4393c3", "#d6604d", "#7fbf7b", "#b2182b"
LINES_WIDTH, RATIO_WIDTH, ROW, TOP, GAP = 360, 160, 26, 96, 150


def grid_option(word):
    """The name and the values of one varied option."""
    name, _, values = word.partition("=")
    if not name.strip("-") or not all(values.split(",")):
        raise argparse.ArgumentTypeError(f"{word} is not NAME=VALUE,VALUE..")
    return name.lstrip("-"), values.split(",")


def report_of(words):
    """The report of one run; where it gives none, one with an end alone."""
    try:
        done = subprocess.run(words, stdin=subprocess.DEVNULL, stdout=subprocess.DEVNULL, stderr=subprocess.PIPE)
    except OSError as fault:
        return {"end": f"{words[0]}: {fault.strerror}"}
    lines = done.stderr.decode(errors="replace").split("\n")
    last = next((line for line in reversed(lines) if line.strip()), f"status {done.returncode}")
    return json.loads(last) if last.startswith("{") else {"end": last.removeprefix("end ")}


def is_whole(report):
    return "retired" in report and report["end"].startswith(WHOLE_ENDS)


def numbers(report):
    """What the columns NUMBERS have of a report: - for what it does not tell."""
    _, hits, *_ = report.get("l2", ["-"] * 4)
    read, written = report.get("pages", ["-"] * 2)
    ratio = f'{report["ratio"] / 100:.2f}' if "ratio" in report else "-"
    return [report.get("retired", "-"), hits, read, written, report.get("exceptions", "-"), ratio]


def run_grid(asked, rest):
    """The values of each combination with the report of its run."""
    combinations = list(itertools.product(*(values for _, values in asked.vary)))
    shows, rows = sys.stderr.isatty(), []
    for number, values in enumerate(combinations, 1):
        if shows:
            print(f"\r{number} of {len(combinations)}: {' '.join(values)}\033[K", end="", file=sys.stderr, flush=True)
        options = [word for (name, _), value in zip(asked.vary, values) for word in (f"--{name}", value)]
        rows.append((values, report_of([asked.program, asked.command, asked.file, *options, *rest, "--json"])))
    if shows:
        print("\r\033[K", end="", file=sys.stderr, flush=True)
    return rows


def table(names, rows):
    """The rows as text, with numbers to the right."""
    cells = [[*names, "end", *NUMBERS]]
    cells += [[*values, report["end"], *map(str, numbers(report))] for values, report in rows]
    widths = [max(map(len, column)) for column in zip(*cells)]
    sides = [str.ljust] * (len(names) + 1) + [str.rjust] * len(NUMBERS)
    return "\n".join("  ".join(side(*cell) for side, *cell in zip(sides, row, widths)) for row in cells)


def text(x, y, words, anchor="start", colour="black"):
    return f'<text x="{x:.1f}" y="{y}" text-anchor="{anchor}" fill="{colour}">{escape(str(words))}</text>'


def box(x, y, width, colour):
    return f'<rect x="{x:.1f}" y="{y}" width="{width:.1f}" height="18" fill="{colour}"/>'


def bars(report, most_lines, most_ratio, left, y):
    """The bars of one run, with their numbers behind them."""
    if not is_whole(report):
        return [text(left, y + 14, report["end"], colour=FAILED)]
    read, written = report["pages"]
    first, both = (LINES_WIDTH * lines / most_lines for lines in (read, read + written))
    parts = [box(left, y, first, READ), box(left + first, y, both - first, WRITTEN)]
    parts.append(text(left + both + 6, y + 14, f"{read} + {written}"))
    if "ratio" in report:
        start, width = left + LINES_WIDTH + GAP, RATIO_WIDTH * report["ratio"] / most_ratio
        parts += [box(start, y, width, RATIO), text(start + width + 6, y + 14, f'{report["ratio"] / 100:.2f}')]
    return parts


def picture(title, names, rows):
    whole = [report for _, report in rows if is_whole(report)]
    most_lines = max([sum(report["pages"]) for report in whole] + [1])
    most_ratio = max([report.get("ratio", 0) for report in whole] + [1])
    heads = [" ".join(names)] + [" ".join(values) for values, _ in rows]
    left = 30 + 8 * max(map(len, heads))
    width = max(left + LINES_WIDTH + GAP + RATIO_WIDTH + 60, 20 + 8 * len(title))
    parts = [text(14, 26, title), text(left - 12, TOP - 20, heads[0], "end", "#555555")]
    for x, words, colour in [(0, "lines read", READ), (110, "lines written", WRITTEN), (LINES_WIDTH + GAP, "ratio", RATIO)]:
        parts += [box(left + x, TOP - 34, 12, colour), text(left + x + 18, TOP - 20, words)]
    y = TOP
    for place, (values, report) in enumerate(rows):
        if place and len(names) > 1 and values[0] != rows[place - 1][0][0]:
            y += ROW // 2
        parts += [text(left - 12, y + 14, heads[place + 1], "end"), *bars(report, most_lines, most_ratio, left, y)]
        y += ROW
    size = f'width="{width}" height="{y + 14}"'
    head = f'<svg xmlns="http://www.w3.org/2000/svg" {size} font-family="sans-serif" font-size="13">'
    return "\n".join([head, f'<rect {size} fill="white"/>', *parts, "</svg>", ""])


def main():
    past = (sys.argv + ["--"]).index("--")
    rest = sys.argv[past + 1 :]
    usage = "compare.py {run,demo,trace} FILE --vary NAME=VALUE,.. [--program PATH] [--svg FILE] [-- OPTION..]"
    parser = argparse.ArgumentParser(usage=usage, description="Runs a program or trace over a grid of options.")
    parser.add_argument("command", choices=["run", "demo", "trace"])
    parser.add_argument("file", help="the guest, the trace, or the number of demo")
    parser.add_argument("--vary", action="append", type=grid_option, required=True, help="an option and its values")
    launcher = pathlib.Path(__file__).resolve().parents[1] / "hiersim"
    parser.add_argument("--program", default=launcher, help="the program, in place of the launcher hiersim")
    parser.add_argument("--svg", type=pathlib.Path, help="the picture that is written")
    asked = parser.parse_args(sys.argv[1:past])
    names, rows = [name for name, _ in asked.vary], run_grid(asked, rest)
    print(table(names, rows))
    if asked.svg:
        asked.svg.write_text(picture(" ".join([asked.command, pathlib.Path(asked.file).name, *rest]), names, rows))
    sys.exit(0 if all(is_whole(report) for _, report in rows) else 1)


if __name__ == "__main__":
    try:
        main()
    except KeyboardInterrupt:
        sys.exit("\nstopped")
    except OSError as fault:
        sys.exit(f"{fault.filename}: {fault.strerror}")
