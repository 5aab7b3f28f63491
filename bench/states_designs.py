#!/usr/bin/env python3
"""Measures what `synth` finds for filters as designed: states_designs.py [PROGRAM] [--widths 16,24,..] [--write]

For each source of bench/designs (bench/designs.py made them) what bench/states.py measures, summed by what the designs
are; the head of that script says what the ratios are. *Classical cascades* are low-, high- and band-passes and
band-stops of second-order sections in transposed form II; their order is that of the polynomials. Seconds are those of
the processor. Below the tables stand the designs that aren't found, and those furthest from 1 at the last width. With
--write all of it goes to docs/measures.md. Outside the gate; it takes some minutes.
"""
import os
import re
import sys
import textwrap

from calls import Fixd
from corpus import DESIGNS, bundle_folder, corpus, hand_out, parser_of
from pages import summed
from states import RATIOS, known, measured, source_line

FAMILIES = {"butter": "Butterworth", "cheby1": "Chebyshev I", "cheby2": "Chebyshev II", "ellip": "elliptic",
            "bessel": "Bessel"}
CLASSICAL = re.compile(rf"({'|'.join(FAMILIES)})(\d+)([lh]p|b[ps])(?:_\d+)+(?:_([a-z]+))?$")
FORMS = {"out": "cascades, outputs multiplied out", "coupled": "coupled, side by side", "direct": "direct, transposed"}
OTHERS = (("notch|hum_|equaliser|peak", "notches and equalisers"), ("kalman|observer", "observers and Kalman filters"),
          ("undriven", "states that no input drives"), ("", "small literals, FIR filters, a dense matrix"))
FURTHEST = 4


def order_of(source):
    """Returns the order of a classical cascade, or None."""
    found = CLASSICAL.match(source.name)
    is_cascade = found and found[4] in (None, "raw")
    return int(found[2]) * (2 if found[3].startswith("b") else 1) if is_cascade else None


def group_of(source):
    """Returns what a design is."""
    order, found = order_of(source), CLASSICAL.match(source.name)
    if order:
        return f"classical cascades, order {order if order <= 8 else '10 to 16'}"
    return FORMS[found[4]] if found else next(group for start, group in OTHERS if re.match(start, source.name))


def family_of(source):
    """Returns the family of a classical cascade of order 4 to 8, or None."""
    return FAMILIES[CLASSICAL.match(source.name)[1]] if 4 <= (order_of(source) or 0) <= 8 else None


def line(name, width, column):
    """The figures of a group at a width."""
    found = f"{sum(at.found for at in column)} of {len(column)}"
    fields = [name, width, found, *(summed(known(column, ratio), max) for ratio in RATIOS)]
    return "| " + " | ".join(map(str, [*fields, summed(known(column, "seconds"), max, 2)])) + " |"


def table(rows, widths, key, head):
    """Returns the table of the groups that `key` makes, cascades first; sources without a group are left out."""
    groups = {}
    for source, row in rows:
        if key(source):
            groups.setdefault(key(source), []).append(row)
    names = sorted(groups, key=lambda name: (not name.startswith("classical"), "cascades" not in name, len(name), name))
    ratios = " | ".join(f"{name}: median, worst" for name in RATIOS.values())
    lines = [f"| {head} | width | found | {ratios} | seconds: median, worst |", "|---" * 8 + "|"]
    each = [(name, k) for name in names for k in range(len(widths))]
    return lines + [line(name, widths[k], [row[k] for row in groups[name]]) for name, k in each]


def missing(rows, widths):
    """Says which designs aren't found, at which widths."""
    gone = [(source, [str(width) for width, at in zip(widths, row) if not at.found]) for source, row in rows]
    told = ", ".join(f"`{source.name}` ({' '.join(at)})" for source, at in gone if at)
    return f"Not found, at these widths: {told or 'none'}."


def furthest(rows, ratio):
    """Names the designs whose ratio is greatest at the last width."""
    at = [(getattr(row[-1], ratio), source.name) for source, row in rows if getattr(row[-1], ratio) is not None]
    greatest = sorted(at, reverse=True)[:FURTHEST]
    return f"{RATIOS[ratio]}: " + ", ".join(f"`{name}` {value:.3f}" for value, name in greatest)


def text_of(rows, widths):
    lines = table(rows, widths, group_of, "designs") + [""]
    lines += table(rows, widths, family_of, "classical cascades of order 4 to 8")
    ends = "; ".join(furthest(rows, ratio) for ratio in RATIOS)
    told = [missing(rows, widths), f"Furthest from 1 at {widths[-1]} bits. {ends}."]
    return "\n".join(lines) + "".join("\n\n" + textwrap.fill(text, 120) for text in told) + "\n"


def main():
    options = parser_of(__doc__, DESIGNS).parse_args()
    fixd, rows = Fixd(os.path.abspath(options.program)), []
    with bundle_folder(options) as folder:
        for source in corpus(options):
            rows.append((source, [measured(fixd, source, width, options, folder) for width in options.widths]))
            print(source_line(*rows[-1], options.widths), file=sys.stderr, flush=True)
    hand_out(options, "designs", text_of(rows, options.widths))


if __name__ == "__main__":
    main()
