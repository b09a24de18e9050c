#!/usr/bin/env python3
"""Measures what each crate costs the gate, in processor seconds, and writes the table of docs/GATE.md.

    tools/gate_cost.py watch cost.json &
    .ci/run
    tools/gate_cost.py table cost.json

The first looks at the processes of the prover once a second while `rt ci` runs in this repository, and ends with it. It
misses the last part of a second of each. The last one counts lines and edits anew. A crate that the gate did not try anew
keeps the seconds of its row.
"""
import json
import os
import pathlib
import sys
import time

HOME = pathlib.Path(__file__).resolve().parent.parent
PAGE = HOME / "docs" / "GATE.md"
TICKS = os.sysconf("SC_CLK_TCK")
KINDS = ["proof", "tests", "edits"]


def processes():
    """Of each process its number, when it began, its words, its folder, and its processor seconds."""
    for entry in pathlib.Path("/proc").iterdir():
        if not entry.name.isdigit():
            continue
        try:
            words = (entry / "cmdline").read_text().split("\0")
            fields = (entry / "stat").read_text().rsplit(")", 1)[1].split()
            yield entry.name, fields[19], words, os.readlink(entry / "cwd"), sum(map(int, fields[11:13])) / TICKS
        except OSError:
            continue


def gates(found):
    """The numbers of the gates that run in this repository."""
    return {number for number, _, words, folder, _ in found if pathlib.Path(folder) == HOME and words[-2:-1] == ["ci"]}


def kind_of(words, folder, running):
    """What the prover works on for one of these gates: a crate's proof, its tests or one of its edits."""
    if any(f"/rt-edit-{number}-" in folder for number in running):
        return "edits"
    if not folder.startswith(str(HOME / "crates")):
        return None
    return "tests" if "--test" in words else "proof"


def watch(path):
    seen, idle = {}, 0
    while idle < 30:
        found = list(processes())
        running = gates(found)
        idle = 0 if running else idle + 1
        for number, began, words, folder, seconds in found:
            if not words[0].endswith("/rattle") or "--crate-name" not in words:
                continue
            kind = kind_of(words, folder, running)
            if kind:
                seen[number, began] = words[words.index("--crate-name") + 1], kind, seconds
        path.write_text(json.dumps(summed(seen.values()), indent=1))
        time.sleep(1)


def summed(costs):
    total = {}
    for crate, kind, seconds in costs:
        row = total.setdefault(crate, dict.fromkeys(KINDS, 0))
        row[kind] = round(row[kind] + seconds, 1)
    return total


def lines(files):
    return sum(len(file.read_text().splitlines()) for file in files)


def counts(crate):
    """The lines of a crate's code, definitions, proofs and tests, and the number of its edits."""
    folder = HOME / "crates" / crate
    code = list((folder / "src").rglob("*.rt"))
    tests = [file for file in code if file.name == "tests.rt" or "tests" in file.parts]
    return [lines(file for file in code if file not in tests), lines((folder / "specs").rglob("*.antt")),
            lines((folder / "proofs").rglob("*.antt")), lines(tests), len(list((folder / "must-fail").glob("*.edit")))]


def row(old, measured):
    """The row of a crate, with the seconds that were measured anew."""
    crate = old[0].strip("` ")
    cost = measured.get(crate)
    seconds = [str(round(cost[kind])) if cost and cost[kind] else was for kind, was in zip(KINDS, old[6:])]
    return "| " + " | ".join([f"`{crate}`", *map(str, counts(crate)), *seconds]) + " |"


def table(path):
    measured = json.loads(path.read_text())
    page = PAGE.read_text().splitlines()
    for place, line in enumerate(page):
        if line.startswith("| `"):
            page[place] = row([cell.strip() for cell in line.strip("|").split("|")], measured)
    PAGE.write_text("\n".join(page) + "\n")


def main():
    if len(sys.argv) != 3 or sys.argv[1] not in ("watch", "table"):
        sys.exit("usage: gate_cost.py watch|table COST.json")
    {"watch": watch, "table": table}[sys.argv[1]](pathlib.Path(sys.argv[2]))


if __name__ == "__main__":
    main()
