#!/usr/bin/env python3
"""Draws the sizes that JSON reports of hiersim tell, as an SVG picture on standard output.

    hiersim run FILE --json 2>one.json
    tools/plot_sizes.py one.json two.json >sizes.svg

Each report has one bar: its pages by the size of their blocks. Beside it stand its exceptions and its ratio. A bar is
named after its file. A file may hold several reports, one a line; they are numbered then.
"""
import json
import pathlib
import sys
from xml.sax.saxutils import escape

CLASSES = [("512", "#1b7837"), ("1024", "#7fbf7b"), ("2048", "#d9a441"), ("4096", "#b2182b")]
LEFT, BAR, ROW, TOP = 180, 360, 34, 64


def reports(names):
    """Each report with the name of its bar."""
    for name in names:
        lines = [line for line in pathlib.Path(name).read_text().splitlines() if line.startswith("{")]
        for number, line in enumerate(lines, 1):
            stem = pathlib.Path(name).stem
            yield (stem if len(lines) == 1 else f"{stem} {number}"), json.loads(line)


def text(x, y, words, anchor="start"):
    return f'<text x="{x}" y="{y}" text-anchor="{anchor}">{escape(str(words))}</text>'


def bar(label, report, most, y):
    """The bar of one report, with its numbers beside it; a run that could not be settled has none."""
    parts = [text(LEFT - 10, y + 16, label, "end")]
    if "classes" not in report:
        return parts + [text(LEFT, y + 16, report.get("settle", report.get("end", "no sizes")))]
    x = LEFT
    for (_, colour), pages in zip(CLASSES, report["classes"]):
        width = BAR * pages / most
        parts.append(f'<rect x="{x:.1f}" y="{y}" width="{width:.1f}" height="22" fill="{colour}"/>')
        x += width
    parts.append(text(LEFT + BAR + 14, y + 16, sum(report["classes"])))
    parts.append(text(LEFT + BAR + 90, y + 16, report["exceptions"]))
    parts.append(text(LEFT + BAR + 190, y + 16, f'{report["ratio"] / 100:.2f}'))
    return parts


def picture(rows):
    most = max([sum(report.get("classes", [])) for _, report in rows] + [1])
    width, height = LEFT + BAR + 260, TOP + ROW * len(rows) + 16
    parts = [
        f'<svg xmlns="http://www.w3.org/2000/svg" width="{width}" height="{height}" font-family="sans-serif" font-size="13">',
        f'<rect width="{width}" height="{height}" fill="white"/>',
    ]
    for place, (size, colour) in enumerate(CLASSES):
        x = LEFT + 115 * place
        parts.append(f'<rect x="{x}" y="14" width="12" height="12" fill="{colour}"/>')
        parts.append(text(x + 18, 25, f"{size} bytes"))
    for x, word in [(14, "pages"), (90, "exceptions"), (190, "ratio")]:
        parts.append(text(LEFT + BAR + x, TOP - 14, word))
    for place, (label, report) in enumerate(rows):
        parts += bar(label, report, most, TOP + ROW * place)
    return "\n".join(parts + ["</svg>"])


def main():
    rows = list(reports(sys.argv[1:]))
    if not rows:
        sys.exit("usage: plot_sizes.py REPORT.json .. >PICTURE.svg")
    print(picture(rows))


if __name__ == "__main__":
    main()
