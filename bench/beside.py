#!/usr/bin/env python3
"""Lays what two programs find for functions without state beside each other:

    beside.py OLD NEW [--widths 32] [--tries 200] [--rounds floor,nearest] [--seeds 0,1,2] [--growing 0,1,20,200]

The functions are those of bench/quality.py. For each width, rounding and seed: the geometric mean of NEW's certified
bounds over OLD's, and which functions have a bound that is greater by more than 2 % (of several outputs the mean of
their quotients); last which of them have one at every seed. With --growing: where more tries give NEW a greater bound
of any output. Of NEW's calls at --tries the processor's seconds, median and greatest. Outside the gate; it takes some
minutes.
"""
import argparse
import os
import statistics

from calls import Fixd
from quality import functions, quotient

WORSE = 1.02


class Found:
    """What a program finds, asked once."""

    def __init__(self, program):
        self.fixd = Fixd(os.path.abspath(program))
        self.kept = {}
        self.seconds = {}

    def bounds(self, path, name, width, rounding, tries, seed):
        """The bounds of what is found, or None."""
        key = (name, width, rounding, tries, seed)
        if key not in self.kept:
            text, self.seconds[key] = self.fixd.synthesised(path, name, width, tries, rounding, seed)
            self.kept[key] = None if text is None else self.fixd.bounds_in(text)
        return self.kept[key]


def compared(old, new, each, *key):
    """The quotients of NEW's bounds and OLD's by name, and what OLD alone has found."""
    quotients, lost = {}, []
    for path, name in each:
        before, after = (found.bounds(path, name, *key) for found in (old, new))
        if before and after:
            quotients[name] = quotient(after, before)
        elif before:
            lost.append(name)
    return quotients, lost


def lay_beside(old, new, each, width, rounding, words):
    """Prints a line for each seed and one for what is worse at all of them."""
    worse = []
    for seed in words.seeds:
        quotients, lost = compared(old, new, each, width, rounding, words.tries, seed)
        above = [name for name, value in quotients.items() if value > WORSE]
        worse.append({*above, *lost})
        told = ", ".join([f"{name} {quotients[name]:.3f}" for name in above] + [f"{name} not found" for name in lost])
        mean = statistics.geometric_mean(quotients.values())
        print(f"{width} bits, {rounding}, seed {seed}: geometric mean {mean:.4f}, worse: {told or 'none'}", flush=True)
    always = ", ".join(sorted(set.intersection(*worse)))
    print(f"{width} bits, {rounding}: worse at every seed: {always or 'none'}")


def tell_growing(new, each, width, rounding, words):
    """Prints where more tries give a greater bound of an output, or nothing where fewer found something."""
    for seed in words.seeds:
        count = 0
        for path, name in each:
            found = [new.bounds(path, name, width, rounding, tries, seed) for tries in words.growing]
            for tries, few, many in zip(words.growing[1:], found, found[1:]):
                if few and (not many or any(b > a for a, b in zip(few, many))):
                    count += 1
                    told = [float(b / a) for a, b in zip(few, many)] if many else "not found"
                    print(f"{width} bits, {rounding}, seed {seed}, {name}: {tries} tries are worse: {told}")
        print(f"{width} bits, {rounding}, seed {seed}: {count} times worse with more tries", flush=True)


def numbers(text):
    return [int(word) for word in text.split(",")]


def main():
    parser = argparse.ArgumentParser(description=__doc__.splitlines()[0])
    parser.add_argument("old")
    parser.add_argument("new")
    parser.add_argument("--widths", type=numbers, default=[32])
    parser.add_argument("--tries", type=int, default=200)
    parser.add_argument("--rounds", default="floor,nearest")
    parser.add_argument("--seeds", type=numbers, default=[0, 1, 2])
    parser.add_argument("--growing", type=numbers, default=[])
    words = parser.parse_args()
    old, new = Found(words.old), Found(words.new)
    each = [(path, function.name) for path, function in functions()]
    for width in words.widths:
        for rounding in words.rounds.split(","):
            lay_beside(old, new, each, width, rounding, words)
            tell_growing(new, each, width, rounding, words) if words.growing else None
    seconds = [value for key, value in new.seconds.items() if key[3] == words.tries]
    told = f"median {statistics.median(seconds):.3f}, greatest {max(seconds):.3f}"
    print(f"seconds of the processor at {words.tries} tries: {told}")


if __name__ == "__main__":
    main()
