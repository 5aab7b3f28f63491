#!/usr/bin/env python3
"""Measures which realisation of a filter has which bound: realisations.py [PROGRAM] [--width 32] [--only NAME,..], with
scipy (Debian: apt-get install python3-scipy, then /usr/bin/python3).

Each of 17 designs of bench/designs.py is written in nine forms, the coupled and the balanced ones by companion/. The
table has for each form how many designs are found, and the bound over the least one of the design: geometric mean and
worst. Outside the gate: it takes some minutes.
"""
import argparse
import os
import statistics
import sys
import time

import designs
import numpy as np
from scipy import signal

sys.path.insert(0, os.path.join(os.path.dirname(os.path.abspath(__file__)), ".."))
from companion.fixd import find
from companion.forms import row_of
from companion.linear import linear_of
from companion.search import search
from companion.sources import function_of

NAMES = """
butter4lp_05 butter4lp_01 butter4hp_01 butter5lp_02 butter6lp_05 bessel4lp_02 cheby14lp_01 cheby14hp_05 cheby15lp_02
cheby16hp_02 cheby24lp_02 ellip4lp_05 ellip4hp_05 ellip5lp_02 butter2bp_05_1 butter3bs_1_15 ellip3bp_05_1
""".split()


def direct_cascade(name, sos):
    """Sections in a row in direct form I, which share their delays."""
    values, states, nexts, x = [], ["x1", "x2"], ["x", "x1"], "x"
    for i, (b0, b1, b2, _, a1, a2) in enumerate(sos, 1):
        y, older = f"y{i}", [f"y{i}a", f"y{i}b"]
        before = ["x1", "x2"] if i == 1 else [f"y{i - 1}a", f"y{i - 1}b"]
        terms = [(b0, x), (b1, before[0]), (b2, before[1]), (-a1, older[0]), (-a2, older[1])]
        values.append((y, designs.sum_of(terms)))
        states, nexts, x = states + older, nexts + [y, older[0]], y
    return designs.function(name, ["x"], states, values, [x], nexts)


def direct_whole(name, b, a):
    """Direct form I of the whole filter: earlier inputs and outputs."""
    n = len(a) - 1
    xs, ys = [f"x{i}" for i in range(1, n + 1)], [f"y{i}" for i in range(1, n + 1)]
    y = designs.sum_of([(b[0], "x"), *zip(b[1:], xs), *zip(-a[1:], ys)])
    return designs.function(name, ["x"], xs + ys, [("y", y)], ["y"], ["x", *xs[:-1], "y", *ys[:-1]])


def lattice(name, b, a):
    """A lattice with a ladder of taps."""
    n, a, b, k, taps = len(a) - 1, np.array(a), np.array(b), {}, {}
    for m in range(n, -1, -1):
        taps[m] = b[m]
        b = (b - taps[m] * a[::-1])[:m]
        if m:
            k[m] = a[m]
            a = ((a - k[m] * a[::-1]) / (1 - k[m] ** 2))[:m]
    values, forward = [], "x"
    for m in range(n, 0, -1):
        values.append((f"f{m}", designs.sum_of([(1, forward), (-k[m], f"d{m}")])))
        forward = f"f{m}"
    values += [(f"g{m}", designs.sum_of([(k[m], f"f{m}"), (1, f"d{m}")])) for m in range(1, n + 1)]
    out = designs.sum_of([(taps[0], forward), *((taps[m], f"g{m}") for m in range(1, n + 1))])
    return designs.function(name, ["x"], [f"d{m}" for m in range(1, n + 1)], values, [out],
                            [forward, *(f"g{m}" for m in range(1, n))])


def whole(sos):
    """Returns top and bottom of the whole filter, without the zero that a section of one pole leaves at their ends."""
    b, a = signal.sos2tf(sos)
    order = max(np.flatnonzero(np.abs(a) > 1e-13))
    return b[:order + 1], a[:order + 1]


def forms(name):
    """Yields the forms of a design: what each is and its source."""
    sos = designs.sections(name)
    b, a = whole(sos)
    given = designs.cascade(name, sos)
    made = function_of(given.encode())
    system = linear_of(made)
    for form, what in (("parallel", "coupled blocks side by side"), ("balanced", "balanced"),
                       ("cascade", "coupled sections in a row")):
        row = row_of(made, system, form)
        if not row.why:
            yield what, row.source
    yield "transposed sections, their outputs multiplied out of their next states", designs.cascade(name, sos, True)
    yield "lattice", lattice(name, b, a)
    yield "direct form I in sections", direct_cascade(name, sos)
    yield "transposed sections, as `sosfilt` runs them", given
    yield "direct form I", direct_whole(name, b, a)
    yield "transposed, as `lfilter` runs it", designs.direct(name, b, a)


def main():
    parser = argparse.ArgumentParser(description=__doc__.split("\n\n")[0])
    parser.add_argument("program", nargs="?")
    parser.add_argument("--width", type=int, default=32)
    parser.add_argument("--only", type=lambda text: text.split(","), default=NAMES)
    options = parser.parse_args()
    fixd, bounds = find(options.program), {}
    for name in options.only:
        begin = time.monotonic()
        for what, source in forms(name):
            found = search(fixd, source.encode(), name, options.width, seconds=60)
            bounds.setdefault(what, {})[name] = float(found.bounds()[0]) if found.is_found else None
        shown = ", ".join("none" if of[name] is None else f"{of[name]:.3g}" for of in bounds.values() if name in of)
        print(f"{name}: {shown}; {time.monotonic() - begin:.1f} s", file=sys.stderr, flush=True)
    least = {name: min(of[name] for of in bounds.values() if of.get(name)) for name in options.only}
    print("| form | found | bound over the least of the design: geometric mean, worst |\n|---|---|---|")
    for what, of in bounds.items():
        over = [bound / least[name] for name, bound in of.items() if bound]
        print(f"| {what} | {len(over)} of {len(of)} | "
              + (f"{statistics.geometric_mean(over):.2f}, {max(over):.2f} |" if over else "- |"))


if __name__ == "__main__":
    main()
