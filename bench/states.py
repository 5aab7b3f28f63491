#!/usr/bin/env python3
"""Measures what `synth` finds for functions with state: states.py [PROGRAM] [--widths 16,24,..] [--bundles FOLDER]
[--write]

For each source of examples/states and each width: whether a bundle is found and in how many seconds, and, where the
source is linear, how far its certificate is from the least that holds:

- *range / limit*: the width of the certified range of a state or output over that of the least interval that holds its
  exact value at all times, for any inputs in range: sums of absolute impulse responses, and the way back from the
  start. The worst state or output.
- *error / limit*: the certified bound of an output over the worst error that the roundings of this very program can add
  up to, each rounding taken as a source of its own (bench/programs.py says exactly what is counted). The worst output.
- *error / boxed*: likewise, but a rounding that enters several next states is another one in each.
- *error / counted*: likewise, and a rounding that comes to a next state by several ways is another one on each, as a
  certificate counts it. So 1 is what templates can reach.

- *nearest*: whether a bundle that rounds to the nearest is found, and its bounds over those of the one that rounds
  down, their mean.

1 means that no certificate of that program can be narrower, if roundings are looked at one by one. Of a nonlinear
source no limits are known. A source whose comment begins with `not found` has no bound and must end so; all others
count. With --bundles the bundles are kept as NAME.WIDTH.bundle, and with --write the tables go to docs/measures.md.
Outside the gate: it takes some minutes, and seconds depend on the machine.
"""
import os
import sys
from dataclasses import dataclass
from fractions import Fraction

from calls import Fixd
from corpus import bundle_folder, bundle_made, bundle_path, corpus, hand_out, parser_of
from pages import shown, summed
from programs import Roundings, codes_of

LOST = Fraction(1, 2 ** 80)
RATIOS = {"range_ratio": "range / limit", "error_ratio": "error / limit", "boxed_ratio": "error / boxed",
          "counted_ratio": "error / counted"}


@dataclass
class Measured:
    """What came of a source at a width; a ratio that isn't known is None."""
    found: bool
    seconds: float
    range_ratio: float = None
    error_ratio: float = None
    boxed_ratio: float = None
    counted_ratio: float = None
    found_nearest: bool = False
    nearest_ratio: float = None


def width_of(ends):
    return ends[1] - ends[0]


def holds(certified, limit):
    """Says whether an interval holds a limit, but for what its sum lost on the way."""
    return (limit is not None and certified[0] <= limit[0] + LOST * width_of(limit)
            and limit[1] - LOST * width_of(limit) <= certified[1])


def told(ends):
    return f"from {float(ends[0]):.9g} to {float(ends[1]):.9g}" if ends else "none"


def worst(pairs):
    """Returns the greatest quotient of what is certified and its limit, where the limit isn't 0."""
    return max((float(certified / limit) for certified, limit in pairs if limit), default=None)


def worst_error(pairs):
    """Returns the greatest quotient of a bound and the greater end of its limit."""
    return worst((bound, max(-limit[0], limit[1])) for bound, limit in pairs)


def unit_row(k, count):
    return [int(i == k) for i in range(count)]


def limits_of(linear):
    """Returns the least intervals of the states and of the outputs."""
    states, none = len(linear.A), [0] * len(linear.ranges)
    return ([linear.span(unit_row(k, states), none) for k in range(states)]
            + [linear.span(c, d) for c, d in zip(linear.C, linear.D)])


def certified_of(source, ranges):
    """Returns the certified ranges of the states and of the outputs, of those of all codes."""
    inputs, states = len(source.function.inputs), len(source.function.states)
    first = len(ranges) - states
    return ranges[inputs:inputs + states] + ranges[first - len(source.linear.C):first]


def ratios(fixd, source, path):
    """Returns the ratios of a linear source's bundle; ends the script where a limit isn't within what is certified."""
    intervals, bounds = fixd.intervals_of(path), fixd.bounds_of(path)
    with open(path, encoding="utf-8") as file:
        roundings = Roundings(source.function, source.linear, codes_of(file.read()), intervals)
    ranges = list(zip(certified_of(source, intervals[0]), limits_of(source.linear)))
    errors = list(zip(bounds, roundings.limits()))
    for certified, limit in ranges + [((-bound, bound), limit) for bound, limit in errors]:
        if not holds(certified, limit):
            sys.exit(f"{source.name}: {told(certified)} is certified, and the limit is {told(limit)}")
    return (worst((width_of(certified), width_of(limit)) for certified, limit in ranges),
            worst_error(errors), *(worst_error(zip(bounds, roundings.limits(name))) for name in ("boxed", "counted")))


def nearest_over(fixd, nearest, floor):
    """Returns the mean of the quotients of two bundles' bounds, or None where one of both isn't there."""
    if nearest is None or floor is None:
        return None
    pairs = list(zip(fixd.bounds_of(nearest), fixd.bounds_of(floor)))
    return float(sum(own / other if other else Fraction(1) for own, other in pairs) / len(pairs))


def measured(fixd, source, width, options, folder):
    """Returns what comes of a source at a width, but for what is told of nearest."""
    path, seconds = bundle_made(fixd, source, width, folder, options.limit)
    if path and source.mark == "not found":
        sys.exit(f"{source.name}: a bundle is found, and no state of it is bounded")
    of_limits = ratios(fixd, source, path) if path and source.linear else [None] * len(RATIOS)
    return Measured(path is not None, seconds, *of_limits)


def with_nearest(fixd, source, width, options, folder):
    """Returns all that comes of a source at a width."""
    known = measured(fixd, source, width, options, folder)
    nearest, _ = bundle_made(fixd, source, width, folder, options.limit, "nearest")
    if nearest and source.mark == "not found":
        sys.exit(f"{source.name}: a bundle is found, and no state of it is bounded")
    known.found_nearest = nearest is not None
    known.nearest_ratio = nearest_over(fixd, nearest, bundle_path(folder, source, width) if known.found else None)
    return known


# ---- tables

def source_line(source, row, widths):
    found = " ".join(str(width) for width, at in zip(widths, row) if at.found) or "no"
    kind = source.kind() + (f", {source.mark}" if source.mark == "a limit" else "")
    seconds = max(at.seconds for at in row)
    fields = [f"`{source.name}`", kind if source.mark != "not found" else "unbounded", len(source.function.states),
              found]
    is_measured = source.linear and found != "no"
    fields += [shown(getattr(at, name) for at in row) if is_measured else "" for name in RATIOS]
    return "| " + " | ".join(map(str, [*fields, f"{seconds:.2f}"])) + " |"


def known(column, name):
    """Returns the figures of this name that are known."""
    return [getattr(at, name) for at in column if getattr(at, name) is not None]


def width_line(width, column):
    """The figures of one width, of the sources that have a bound."""
    found, nearest = sum(at.found for at in column), sum(at.found_nearest for at in column)
    fields = [width, f"{found} of {len(column)}", *(summed(known(column, name), max) for name in RATIOS)]
    fields += [summed(known(column, "seconds"), max, 2), nearest, summed(known(column, "nearest_ratio"), max)]
    return "| " + " | ".join(map(str, fields)) + " |"


def tables(rows, widths):
    """Returns the table of widths and that of sources."""
    bounded = [row for source, row in rows if source.mark != "not found"]
    names, ends = list(RATIOS.values()), ": median, worst | "
    lines = [f"| width | found | {ends.join(names)}{ends}seconds{ends}nearest: found | bound / that at floor"
             + ends.rstrip(), "|---" * 9 + "|"]
    lines += [width_line(width, [row[k] for row in bounded]) for k, width in enumerate(widths)] if bounded else []
    names[0] += f" at {', '.join(map(str, widths))}"
    lines += ["", f"| source | kind | states | found at | {' | '.join(names)} | longest, s |", "|---" * 9 + "|"]
    lines += [source_line(source, row, widths) for source, row in rows]
    return "\n".join(lines) + "\n"


def main():
    options = parser_of(__doc__).parse_args()
    fixd, rows = Fixd(os.path.abspath(options.program)), []
    with bundle_folder(options) as folder:
        for source in corpus(options):
            rows.append((source, [with_nearest(fixd, source, width, options, folder) for width in options.widths]))
            print(source_line(*rows[-1], options.widths), file=sys.stderr, flush=True)
    hand_out(options, "found", tables(rows, options.widths))


if __name__ == "__main__":
    main()
