#!/usr/bin/env python3
"""Runs the commands that the documents show, and compares what they print with what the documents say that they print.

    tools/check_commands.py

A command is a line of a block, or a phrase between backticks, that begins as those of `BEGINS` do. Each line
of a block without commands has to be printed by a command that stands between it and the block before, and so has each
phrase in the first column of a table of lines. A document may leave lines out. The commands run in a folder of their own.
"""
import pathlib
import re
import subprocess
import sys
import tempfile

HOME = pathlib.Path(__file__).resolve().parent.parent
PROGRAM = "crates/hier_cli/out/hier_cli"
PAGES = ["README.md", "docs/GUIDE.md", "docs/LAYOUT.md"]
BEGINS = ("./hiersim ", "tools/", "echo ", ".ci/", "bench/")
# Not run: what stands for a file of the reader's, files that a reader makes, scripts by their names, and what takes long.
LEFT_OUT = re.compile(r"\bFILE\b|seven\.txt|plot_beats|^tools/\S+$|^\.ci/|^bench/")
# What a command prints that could not be run: words that the program refuses, a script that fails.
REFUSED = ("end usage", "Traceback")
SECONDS = 60


def is_command(words):
    return words.startswith(BEGINS) and not LEFT_OUT.search(words)


def parts(text):
    """The parts of a document in their order: commands, and lines that were printed."""
    in_block, block, in_table = False, [], False
    for line in text.splitlines():
        if line.startswith("```"):
            if in_block:
                commands = [words for words in block if is_command(words)]
                shown = [words for words in block if words.strip()]
                if commands or any(words.startswith(BEGINS) for words in shown):
                    yield "commands", commands
                else:
                    yield "printed", shown
            in_block, block = not in_block, []
        elif in_block:
            block.append(line)
        elif line.startswith("|"):
            cell = line.split("|")[1]
            in_table = in_table or cell.strip() == "Line"
            phrases = re.findall(r"`([^`]+)`", cell)
            yield ("printed", phrases) if in_table else ("commands", [words for words in phrases if is_command(words)])
        else:
            in_table = False
            yield "commands", [words for words in re.findall(r"`([^`]+)`", line) if is_command(words)]


def printed_by(command, folder):
    """What a command prints on both streams, and whether it could be run."""
    done = subprocess.run(["sh", "-c", command], cwd=folder, stdin=subprocess.DEVNULL, timeout=SECONDS,
                          stdout=subprocess.PIPE, stderr=subprocess.STDOUT, check=False)
    text = done.stdout.decode("utf-8", "replace")
    return text.splitlines(), done.returncode not in (126, 127) and not any(word in text for word in REFUSED)


def check(page, folder, faults):
    """Runs the commands of a document. The number of these, and of the lines that were compared."""
    known, fresh, ran, compared = [], False, 0, 0
    for kind, words in parts((HOME / page).read_text(encoding="utf-8")):
        for word in words:
            if kind == "commands":
                if fresh:
                    known, fresh = [], False
                lines, could = printed_by(word, folder)
                known += lines
                ran += 1
                if not could:
                    faults.append(f"{page}: can't be run: {word}")
            else:
                fresh = True
                compared += 1
                if word.rstrip() not in (line.rstrip() for line in known):
                    faults.append(f"{page}: no command above prints: {word}")
    return ran, compared


def main():
    if not (HOME / PROGRAM).exists():
        sys.exit("light: the program is not built, so no command of the documents was run")
    faults, ran, compared = [], 0, 0
    with tempfile.TemporaryDirectory() as folder:
        for entry in HOME.iterdir():
            if not entry.name.startswith("."):
                (pathlib.Path(folder) / entry.name).symlink_to(entry)
        for page in PAGES:
            more = check(page, folder, faults)
            ran, compared = ran + more[0], compared + more[1]
    for fault in faults:
        print(f"light: {fault}")
    print(f"light: {ran} commands of the documents were run, and {compared} lines compared")
    sys.exit(1 if faults else 0)


if __name__ == "__main__":
    main()
