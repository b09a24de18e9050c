#!/usr/bin/env python3
"""Runs a program under twelve words of beats, and compares what no word may change.

    tools/check_beats.py

The program's pages outgrow their blocks and shrink again, over small caches. Under each word its output, the memory that
it leaves, how it ends, and the last five lines of its report have to be those under the first one. Beside that the lines of
the two cache levels have to be the same, and each word has to be one that leaves the run whole.
"""
import pathlib
import subprocess
import sys

HOME = pathlib.Path(__file__).resolve().parent.parent
PROGRAM = HOME / "crates/hier_cli/out/hier_cli"
GUEST = HOME / "examples/phases.elf"
WORDS = ["h", "hm", "hc", "hmc", "hhhm", "hhhc", "hmmm", "hccc", "mch", "hhhhhhhmhhhhhhhc", "hmmmmmmmmmmmmmmc", "hcmhhcmmhc"]
OPTIONS = ["--l1-sets", "4", "--l2-sets", "16", "--meta", "8"]
SECONDS = 60


def printed(command, word, codec):
    """What the program prints on both streams, and its status."""
    words = [PROGRAM, command, GUEST, *OPTIONS, "--codec", codec, "--beats", word]
    done = subprocess.run(words, stdin=subprocess.DEVNULL, capture_output=True, timeout=SECONDS, check=False)
    return done.stdout, done.stderr.decode().splitlines(), done.returncode


def fixed_part(word, codec):
    """What has to be the same under every word."""
    output, report, status = printed("run", word, codec)
    image, _, _ = printed("image", word, codec)
    levels = [line for line in report if line.startswith(("end ", "retired ", "l1 ", "l2 "))]
    return {"status": status, "output": output, "image": image, "levels": levels, "sizes": report[-5:]}


def main():
    faults = 0
    for codec in ("bdi", "fpc"):
        first = fixed_part(WORDS[0], codec)
        if first["status"] != 0 or len(first["sizes"]) != 5:
            print(f"check_beats: under {codec} the run is not whole: {first['levels']}")
            faults += 1
        for word in WORDS[1:]:
            other = fixed_part(word, codec)
            for name in first:
                if other[name] != first[name]:
                    print(f"check_beats: {name} under {codec} and {word} is not that under {WORDS[0]}")
                    faults += 1
    return 1 if faults else 0


if __name__ == "__main__":
    sys.exit(main())
