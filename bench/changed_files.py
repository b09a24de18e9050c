#!/usr/bin/env python3
"""Runs hiersim on files that differ from an accepted one in one byte, and tells how they ended.

Each has to be refused with the kind of what is wrong, and nothing on standard output, or to run to an end of its own.
A run of more than ten seconds is stopped and counted as one that runs.
"""
import collections
import concurrent.futures
import pathlib
import subprocess
import sys
import tempfile

folder = pathlib.Path(__file__).resolve().parent
program = folder.parent / "hiersim"
accepted = (folder.parent / "examples" / "exit_three.elf").read_bytes()
values = [0x00, 0x01, 0x02, 0x04, 0x08, 0x10, 0x20, 0x34, 0x40, 0x54, 0x60, 0x64, 0x73, 0x7F, 0x80, 0x93,
          0xA5, 0xC0, 0xE0, 0xEF, 0xF0, 0xF3, 0xFE, 0xFF]


def ending(change):
    """The kind of the end of the file with one byte changed, or None where it is none that is allowed."""
    place, value = change
    data = bytearray(accepted)
    data[place] = value
    with tempfile.NamedTemporaryFile() as file:
        file.write(data)
        file.flush()
        try:
            done = subprocess.run([program, "run", file.name], capture_output=True, timeout=10, input=b"")
        except subprocess.TimeoutExpired:
            return "still running"
    words = done.stderr.decode().split()
    if words[:3] == ["end", "bad", "image"]:
        return "refused" if done.returncode == 204 and not done.stdout and len(words) == 5 else None
    if words[:1] == ["end"] and words[1] in ("exit", "trap", "budget") and "retired" in words:
        return words[1]
    return None


def main():
    changes = [(place, value) for place in range(len(accepted)) for value in values if accepted[place] != value]
    with concurrent.futures.ThreadPoolExecutor() as pool:
        ends = list(pool.map(ending, changes))
    wrong = [change for change, end in zip(changes, ends) if end is None]
    for end, count in sorted(collections.Counter(end for end in ends if end).items()):
        print(f"{count:5} {end}")
    for place, value in wrong:
        print(f"byte {place} as {value:02x}: another end")
    sys.exit(1 if wrong else 0)


main()
