#!/usr/bin/env python3
"""Measures how good the programs that `synth` finds are:

    quality.py [PROGRAM] [--widths 8,16,..] [--tries 20,200,..] [--rounds floor,nearest] [--seed 0] [--seconds]

For each function without state of examples/daisy and of bench/functions.fixd: the certified bound after so many tries
over that of the program as it is written, which 0 tries give at floor (of several outputs the mean of their quotients).
The columns *reading* say what the reading of the inputs alone costs (bench/reading.py), over the bound after the most
tries: no program of the width has a bound below so much of it. It prints two tables, as they stand in docs/quality.md:
median, geometric mean and greatest of the functions at each width, and each function at 32 bits. `-` stands where
nothing is found. With --seconds it says on the error stream what each call took. Outside the gate; it takes some
minutes.
"""
import argparse
import glob
import os
import statistics
import sys
from fractions import Fraction

from calls import Fixd
from reading import reading_limits
from sources import functions_of

HERE = os.path.dirname(os.path.abspath(__file__))
SHOWN_WIDTH = 32


def functions():
    """Each function without state, behind its file."""
    files = sorted(glob.glob(os.path.join(HERE, "../examples/daisy/*.fixd")))
    for path in files + [os.path.join(HERE, "functions.fixd")]:
        with open(path, encoding="utf-8") as file:
            for function in functions_of(file.read()):
                if not function.states:
                    yield path, function


def quotient(found, written):
    """The mean of the bounds' quotients; nothing where one of both isn't there."""
    if found is None or written is None:
        return None
    return float(sum(a / b if b else Fraction(1) for a, b in zip(found, written)) / len(written))


def shown(value):
    return "-" if value is None else f"{value:.3f}"


class Measuring:
    """The program, and which columns its tables have: each a rounding and a number of tries."""

    def __init__(self, words):
        self.fixd = Fixd(os.path.abspath(words.program))
        self.seed = words.seed
        numbers = [int(tries) for tries in words.tries.split(",")]
        self.columns = [(rounding, tries) for rounding in words.rounds.split(",") for tries in numbers]
        self.last = list({rounding: k for k, (rounding, _) in enumerate(self.columns)}.values())
        self.tells = words.seconds

    def bounds(self, path, name, width, rounding, tries):
        """The bounds of what is found, or None."""
        text, seconds = self.fixd.synthesised(path, name, width, tries, rounding, self.seed)
        if self.tells:
            print(f"{name} {width} {rounding} {tries}: {seconds:.3f} s", file=sys.stderr)
        return None if text is None else self.fixd.bounds_in(text)

    def row(self, path, function, width):
        """The quotients of one function, a column each."""
        written = self.bounds(path, function.name, width, "floor", 0)
        found = [self.bounds(path, function.name, width, *column) for column in self.columns]
        limits = reading_limits(function, width) if written else None
        return [*(quotient(bounds, written) for bounds in found), *(quotient(limits, found[k]) for k in self.last)]

    def heads(self):
        told = [f"{rounding}, {tries} {'try' if tries == 1 else 'tries'}" for rounding, tries in self.columns]
        return " | ".join([*told, *(f"reading / {told[k]}" for k in self.last)])


def summed(column):
    """The median, the geometric mean and the greatest."""
    values = [value for value in column if value is not None]
    shown_of = (statistics.median, statistics.geometric_mean, max)
    return ", ".join(f"{of(values):.3f}" for of in shown_of) if values else "-"


def main():
    parser = argparse.ArgumentParser(description=__doc__.splitlines()[0])
    parser.add_argument("program", nargs="?", default=os.path.join(HERE, "../build/fixd"))
    parser.add_argument("--widths", default="8,16,24,32,48,64")
    parser.add_argument("--tries", default="1,20,200")
    parser.add_argument("--rounds", default="floor,nearest")
    parser.add_argument("--seed", type=int, default=0)
    parser.add_argument("--seconds", action="store_true")
    measuring = Measuring(parser.parse_args())
    widths = [int(width) for width in parser.parse_args().widths.split(",")]
    each = list(functions())
    rule = "|---" * (1 + len(measuring.columns) + len(measuring.last)) + "|"
    print(f"| width | {measuring.heads()} |\n{rule}")
    kept = []
    for width in widths:
        rows = [(function.name, measuring.row(path, function, width)) for path, function in each]
        columns = zip(*(row for _, row in rows))
        print(f"| {width} | {' | '.join(map(summed, columns))} |", flush=True)
        kept = rows if width == SHOWN_WIDTH else kept
    print(f"\n| function | {measuring.heads()} |\n{rule}")
    for name, row in kept:
        print(f"| `{name}` | " + " | ".join(map(shown, row)) + " |")


if __name__ == "__main__":
    main()
