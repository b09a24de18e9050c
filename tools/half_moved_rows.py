#!/usr/bin/env python3
"""Prints the rows of a half-moved page, in the form of `hiersim layout`, for tools/plot_layout.py.

    tools/half_moved_rows.py >rows.txt
    tools/plot_layout.py rows.txt --frames 1 >docs/half_moved.svg

The page is the one that the tests of page_mover drive: lines of 23 bytes in slots of 24 became lines of 18. Twenty of
them have moved to slots of 20 when line 5 takes 23 bytes again, and becomes an exception.
"""
SMALL, LARGE, AT, BLOCK, CHUNK = 20, 24, 20, 2048, 64
LONG, SHORT = 23, 18
LONG_LINES = {5: 25, 40: None}


def row(line, kind, at, room, used):
    print(f"00100000 {line} {kind} {at:08x} {room} {used}")


row("--", "b", 0, BLOCK, BLOCK)
row("--", "m", 0, CHUNK, CHUNK)
for line in range(64):
    room = SMALL if line < AT else LARGE
    used = LONG if line in LONG_LINES else SHORT
    if used > room:
        row(f"{line:02}", "x", CHUNK * LONG_LINES[line], CHUNK, CHUNK)
    else:
        row(f"{line:02}", "s", CHUNK + room * line, room, used)
