#!/usr/bin/env python3
"""Draws the text of `hiersim layout` as an SVG picture on standard output.

    hiersim layout FILE >layout.txt
    tools/plot_layout.py layout.txt >layout.svg
    tools/plot_layout.py layout.txt --page 00020000 --frames 16 >layout.svg

Above stands the memory, a box of eight units of 512 bytes for each frame: every block in the colour of its size with the
number of its page, and white where a unit is free. Without --frames the last frame that is drawn is the last one in use.
Below stands one page, 64 bytes a row: its metadata, its slots, each filled as far as it is used, and its exceptions.
Without --page it is the first page with the most kinds of places.
"""
import argparse
import pathlib
from typing import NamedTuple
from xml.sax.saxutils import escape

UNIT, FRAME, CHUNK, PAGE = 512, 4096, 64, 4096
BLOCKS = {512: "#1b7837", 1024: "#7fbf7b", 2048: "#d9a441", 4096: "#b2182b"}
PLACES = {"m": ("metadata", "#8c8c8c"), "s": ("slot, used", "#4393c3"), "x": ("exception", "#d6604d"), "r": ("raw line", "#b2182b")}
ROOM = "#d1e5f0"
LEFT, ACROSS = 40, 8
UNIT_WIDTH, UNIT_HEIGHT, FRAME_GAP = 13, 26, 10
BYTE_WIDTH, CHUNK_HEIGHT = 12, 20


class Place(NamedTuple):
    page: int
    line: str
    kind: str
    at: int
    room: int
    used: int


def places(text):
    """The rows of a layout."""
    for row in text.splitlines():
        page, line, kind, at, room, used = row.split()
        yield Place(int(page, 16), line, kind, int(at, 16), int(room), int(used))


def shown_page(rows):
    """The first page with the most kinds of places."""
    kinds = {}
    for place in rows:
        kinds.setdefault(place.page, set()).add(place.kind)
    return max(kinds, key=lambda page: len(kinds[page]))


def text(x, y, words, anchor="start", colour="black", size=13):
    return f'<text x="{x:.1f}" y="{y:.1f}" text-anchor="{anchor}" fill="{colour}" font-size="{size}">{escape(str(words))}</text>'


def box(x, y, width, height, colour, line="none"):
    return f'<rect x="{x:.1f}" y="{y:.1f}" width="{width:.1f}" height="{height:.1f}" fill="{colour}" stroke="{line}"/>'


def legend(entries, y):
    parts, x = [], LEFT
    for words, colour in entries:
        parts += [box(x, y - 11, 12, 12, colour, "#555555"), text(x + 18, y, words)]
        x += 36 + 7 * len(words)
    return parts


def memory(blocks, frames, shown, top):
    """The frames with their blocks, and where they end."""
    width = 8 * UNIT_WIDTH
    parts = []

    def corner(unit):
        frame = unit // 8
        x = LEFT + frame % ACROSS * (width + FRAME_GAP) + unit % 8 * UNIT_WIDTH
        return x, top + frame // ACROSS * (UNIT_HEIGHT + FRAME_GAP)

    for unit in range(8 * frames):
        parts.append(box(*corner(unit), UNIT_WIDTH, UNIT_HEIGHT, "white", "#bbbbbb"))
    for block in blocks:
        x, y = corner(block.at // UNIT)
        units = block.room // UNIT
        line = "black" if block.page == shown else "#555555"
        parts.append(box(x, y, units * UNIT_WIDTH, UNIT_HEIGHT, BLOCKS[block.room], line))
        if units > 1:
            parts.append(text(x + units * UNIT_WIDTH / 2, y + 17, f"{block.page // PAGE:x}", "middle", "white", 11))
    rows = (frames + ACROSS - 1) // ACROSS
    return parts, top + rows * (UNIT_HEIGHT + FRAME_GAP)


def stretch(start, length, colour, line, top):
    """Bytes of the page from one on, which may go over the end of a row."""
    parts, past = [], start + length
    while start < past:
        end = min(past, (start // CHUNK + 1) * CHUNK)
        x, y = LEFT + start % CHUNK * BYTE_WIDTH, top + start // CHUNK * CHUNK_HEIGHT
        parts.append(box(x, y, (end - start) * BYTE_WIDTH, CHUNK_HEIGHT - 3, colour, line))
        start = end
    return parts


def page(block, own, top):
    """One page in its block, and where it ends."""
    parts = []
    for chunk in range(block.room // CHUNK):
        parts += stretch(CHUNK * chunk, CHUNK, "white", "#bbbbbb", top)
        parts.append(text(LEFT - 6, top + CHUNK_HEIGHT * chunk + 13, f"{CHUNK * chunk:x}", "end", "#555555", 11))
    for place in own:
        start = place.at - block.at
        parts += stretch(start, place.room, ROOM, "#555555", top)
        parts += stretch(start, place.used, PLACES[place.kind][1], "none", top)
        if place.room == CHUNK and place.line != "--":
            parts.append(text(LEFT + 5, top + start // CHUNK * CHUNK_HEIGHT + 13, f"line {place.line}", "start", "white", 11))
    return parts, top + block.room // CHUNK * CHUNK_HEIGHT


def picture(rows, frames, shown):
    blocks = [place for place in rows if place.kind == "b"]
    block = next(block for block in blocks if block.page == shown)
    own = [place for place in rows if place.page == shown and place.kind != "b"]
    frames = max([frames] + [(block.at + block.room + FRAME - 1) // FRAME for block in blocks])
    parts = [text(LEFT, 24, f"the first {frames * FRAME} bytes of the memory, with the blocks of pages: {len(blocks)}", size=15)]
    parts += legend([(f"{size} bytes", colour) for size, colour in BLOCKS.items()] + [("free", "white")], 48)
    more, end = memory(blocks, frames, shown, 66)
    parts += more
    parts.append(text(LEFT, end + 34, f"page {shown:08x} in {block.room} bytes from {block.at:08x}", size=15))
    kinds = [PLACES[kind] for kind in PLACES if any(place.kind == kind for place in own)]
    parts += legend(kinds + [("the rest of its slot", ROOM), ("not used", "white")], end + 58)
    more, end = page(block, own, end + 76)
    parts += more
    width, height = LEFT + ACROSS * (8 * UNIT_WIDTH + FRAME_GAP) + 20, end + 16
    head = f'<svg xmlns="http://www.w3.org/2000/svg" width="{width}" height="{height}" font-family="sans-serif">'
    return "\n".join([head, box(0, 0, width, height, "white")] + parts + ["</svg>"])


def main():
    parser = argparse.ArgumentParser(description="Draws the text of a layout as an SVG picture.")
    parser.add_argument("layout", type=pathlib.Path)
    parser.add_argument("--page", type=lambda word: int(word, 16), help="the address of the page that is drawn")
    parser.add_argument("--frames", type=int, default=0, help="how many frames are drawn at least")
    asked = parser.parse_args()
    rows = list(places(asked.layout.read_text()))
    if not rows:
        parser.exit(1, f"{asked.layout}: no page has a block\n")
    shown = shown_page(rows) if asked.page is None else asked.page
    if all(place.page != shown for place in rows):
        parser.exit(1, f"{asked.layout}: no block of page {shown:08x}\n")
    print(picture(rows, asked.frames, shown))


if __name__ == "__main__":
    main()
