#!/usr/bin/env python3
"""Runs `fixd node` beside `fixd run`: units.py [--interleavings N] [PROGRAM]

With --interleavings N it tests: N inputs, each of rows of three units in a random order, and of each unit the lines of
`node` are those of `run` on its rows alone; a difference ends the script with 1. Without, it measures: rows a second of
`node` with 1, 32 and 1,024 units in a random order, and of `run` on the same rows, where the column of units is one
that it doesn't need: the least of nine runs that take turns, in seconds of the processor. Outside the gate: it needs a
built program, and figures depend on the machine.
"""
import argparse
import os
import random
import resource
import subprocess
import sys
import tempfile

HERE = os.path.dirname(os.path.abspath(__file__))
AVERAGE = os.path.join(HERE, "..", "examples", "average", "average.bundle")
ROWS = 2000000


def number(draw):
    return draw.choice(["", "-"]) + f"0.{draw.randrange(10 ** 6):06d}"


def page(words, rows):
    """What a call prints, which has to end with status 0."""
    return subprocess.run(words, input=rows, capture_output=True, text=True, check=True).stdout.splitlines()


def interleaved(program, count, draw):
    """Compares the lines of three units with those of each one's run."""
    for turn in range(count):
        events = [(draw.randrange(3), number(draw)) for _ in range(draw.randrange(1, 40))]
        lines = page([program, "node", "--units", "3", AVERAGE],
                     "".join(["u,unit\n"] + [f"{value},{unit}\n" for unit, value in events]))[1:]
        for unit in range(3):
            rows = [value + "\n" for whose, value in events if whose == unit]
            alone = page([program, "run", AVERAGE], "".join(["u\n"] + rows))[1:]
            if [line.split(",")[1] for line in lines if line.split(",")[0] == str(unit)] != alone:
                raise SystemExit(f"units: unit {unit} differs at input {turn}: {events}")
    print(f"{count} interleavings of three units: each unit's lines are those of its own run")


def seconds(words, rows, out):
    """The seconds of the processor of a run."""
    with open(rows, "rb") as source, open(out, "wb") as sink:
        before = resource.getrusage(resource.RUSAGE_CHILDREN)
        subprocess.run(words, stdin=source, stdout=sink, check=True)
        after = resource.getrusage(resource.RUSAGE_CHILDREN)
    return after.ru_utime - before.ru_utime + after.ru_stime - before.ru_stime


def measured(program, draw):
    """Rows a second of so many units, and of one run over the same rows."""
    with tempfile.TemporaryDirectory() as folder:
        rows, out = f"{folder}/rows", f"{folder}/out"
        for units in (1, 32, 1024):
            some = [f"{draw.randrange(units)},{number(draw)}\n" for _ in range(100003)]
            with open(rows, "w", encoding="utf-8") as file:
                file.write("unit,u\n")
                file.writelines(some[k % 100003] for k in range(ROWS))
            pairs = [(seconds([program, "node", "--units", str(units), AVERAGE], rows, out),
                      seconds([program, "run", AVERAGE], rows, out)) for _ in range(9)]
            node, run = min(a for a, _ in pairs), min(b for _, b in pairs)
            print(f"{units} units: node {ROWS / node:.0f} rows/s, run {ROWS / run:.0f} rows/s, node / run "
                  f"{run / node:.2f}")


def main():
    options = argparse.ArgumentParser(description=__doc__.split("\n\n")[0])
    options.add_argument("--interleavings", type=int, default=0)
    options.add_argument("program", nargs="?", default=os.path.join(HERE, "..", "build", "fixd"))
    given = options.parse_args()
    draw = random.Random(18)
    if given.interleavings:
        interleaved(given.program, given.interleavings, draw)
    else:
        measured(given.program, draw)
    return 0


if __name__ == "__main__":
    sys.exit(main())
