#!/usr/bin/env python3
"""Runs the bundles of functions with state on long inputs: states_rows.py [PROGRAM] [--rows 100000] [--bundles FOLDER]
[--write]

For each source of examples/states, one run of so many rows through the bundle of each width that `synth` finds; with
--bundles those that bench/states.py kept there are taken. In this order, and without a new start between them:

- of a linear source, at most a third of the rows: for each output the input that drives it furthest up, and then
  furthest down, which are the signs of its impulse response from the last row back. Inputs with an error are off by all
  of it, to the same side;
- steps: inputs that are held at an end or anywhere between, for 1 to 2,000 rows;
- random rows. Here and in steps, where an input has an error, the given value differs from the true one by a random
  part of it or all.

Each printed number is compared with the exact output of the true inputs. The numbers of an exact run grow with each
row, so that it is done in whole numbers at 2^-200, and what that loses has to be below 2^-60 of the bound:

- of a linear source by its exact matrices, with one rounding down for each next state and output. What is lost is then
  below 2^-200 times one more than twice the sum of the output's absolute impulse responses from each state; twice that
  is allowed for;
- of a nonlinear source by its formulas, once at 2^-200 and once at 2^-264. What is lost is taken as the greatest
  difference of both, which is a test and no proof.

The script ends with an error where a number is further off than its bound. Its table has, for each width, the greatest
error seen over the bound, and the width of the exact outputs that were seen over that of the certified range; the worst
output. With --write it goes to docs/measures.md. Outside the gate; it takes some minutes.
"""
import math
import os
import random
import sys
import tempfile
from dataclasses import dataclass
from fractions import Fraction

from calls import Fixd
from corpus import bundle_folder, bundles_at, corpus, hand_out, parser_of
from linear import reach
from pages import shown, summed

FINE, FINER = 200, 264
LONGEST_HOLD = 2000
CLOSE = Fraction(1, 2 ** 60)


# ---- rows: whole numbers of 10^-places, true and given

@dataclass
class Span:
    """An input's ends and error, in units of 10^-places."""
    lo: int
    hi: int
    err: int


def places_of(function):
    """Returns how many decimal places the rows have: six, or as many as the ranges and errors need."""
    places, numbers = 6, [x for span in function.inputs.values() for x in (span["lo"], span["hi"], span["err"])]
    while any((x * 10 ** places).denominator != 1 for x in numbers):
        places += 1
    return places


def spans_of(function, places):
    return [Span(*(int(span[name] * 10 ** places) for name in ("lo", "hi", "err")))
            for span in function.inputs.values()]


def responses(linear, output, most):
    """Returns what a unit of each input adds to an output 0, 1, 2, .. rows later, till it is small beside the greatest;
    as floats."""
    inputs = len(linear.ranges) - 1
    A, B = ([[float(x) for x in row] for row in matrix] for matrix in (linear.A, linear.B))
    sizes = [float(hi - lo) for lo, hi in linear.ranges[:inputs]]
    image, found, top, quiet = [float(x)
                                for x in linear.C[output]], [[float(x) for x in linear.D[output][:inputs]]], 0.0, 0
    while len(found) < most and quiet <= len(A):
        found.append([sum(x * row[i] for x, row in zip(image, B)) for i in range(inputs)])
        image = [sum(x * row[j] for x, row in zip(image, A)) for j in range(len(A))]
        size = max((abs(x) * s for x, s in zip(found[-1], sizes)), default=0.0)
        top, quiet = max(top, size), quiet + 1 if size <= top * 2.0 ** -20 else 0
    return found


def furthest_rows(linear, spans, count):
    """Yields the rows that drive each output furthest up and down, at most so many."""
    most = count // (2 * len(linear.C))
    for output in range(len(linear.C)):
        found = responses(linear, output, most)
        for side in (1, -1):
            for row in reversed(found):
                ups = [side * x >= 0 for x in row]
                trues = [span.hi if up else span.lo for up, span in zip(ups, spans)]
                yield trues, [true + span.err if up else true - span.err for true, up, span in zip(trues, ups, spans)]


def given_row(draw, trues, spans):
    return [true + draw.choice((-span.err, span.err, draw.randint(-span.err, span.err)))
            for true, span in zip(trues, spans)]


def step_rows(draw, spans, count):
    left = [0] * len(spans)
    trues = [0] * len(spans)
    for _ in range(count):
        for k, span in enumerate(spans):
            if left[k] == 0:
                left[k] = int(LONGEST_HOLD ** draw.random())
                trues[k] = draw.choice((span.lo, span.hi, draw.randint(span.lo, span.hi)))
            left[k] -= 1
        yield list(trues), given_row(draw, trues, spans)


def random_rows(draw, spans, count):
    for _ in range(count):
        trues = [draw.randint(span.lo, span.hi) for span in spans]
        yield trues, given_row(draw, trues, spans)


def rows_of(source, spans, count):
    draw = random.Random(1)
    rows = list(furthest_rows(source.linear, spans, count // 3)) if source.linear else []
    rows += step_rows(draw, spans, (count - len(rows)) // 2)
    rows += random_rows(draw, spans, count - len(rows))
    return rows


def decimal(value, places):
    digits = str(abs(value)).rjust(places + 1, "0")
    return f"{'-' if value < 0 else ''}{digits[:-places]}.{digits[-places:]}"


def write_rows(path, source, rows, places):
    with open(path, "w", encoding="utf-8") as file:
        file.write(",".join(source.function.inputs) + "\n")
        file.writelines(",".join(decimal(value, places) for value in given) + "\n" for _, given in rows)


# ---- exact outputs, as whole numbers at 2^-FINE

def compiled(lines):
    place = {}
    exec("\n".join(lines), place)
    return place["step"]


def linear_step(linear, places):
    """Returns the step of a linear source: from inputs in units of 10^-places and states at 2^-FINE to the results."""
    rows = list(zip(linear.C + linear.A, linear.D + linear.B))
    factor = math.lcm(*(x.denominator for row in rows for part in row for x in part))
    scale = factor * 10 ** places
    names = [f"s{k}" for k in range(len(linear.A))] + [f"u{k}" for k in range(len(linear.ranges) - 1)]
    sums = []
    for of_states, of_inputs in rows:
        terms = [f"{int(x * scale)} * {name}" for x, name in zip(of_states, names) if x]
        terms += [f"{int(x * factor) << FINE} * {name}" for x, name in zip(of_inputs, names[len(linear.A):]) if x]
        terms.append(str(int(of_inputs[-1] * scale) << FINE))
        sums.append(f"({' + '.join(terms)}) // {scale}")
    inputs, states = names[len(linear.A):], names[:len(linear.A)]
    return compiled([f"def step({', '.join(inputs + states)}):", f"    return ({', '.join(sums)},)"])


def formula(tree, bits):
    """Returns a tree as a formula of whole numbers at 2^-bits."""
    if isinstance(tree, str):
        return f"v_{tree}"
    if isinstance(tree, Fraction):
        return f"({(tree.numerator << bits) // tree.denominator})"
    parts = [formula(part, bits) for part in tree[1:]]
    if tree[0] == "neg":
        return f"(-{parts[0]})"
    if tree[0] == "*":
        return f"({parts[0]} * {parts[1]} >> {bits})"
    return f"(({parts[0]} << {bits}) // {parts[1]})" if tree[0] == "/" else f"({parts[0]} {tree[0]} {parts[1]})"


def formula_step(function, places, bits):
    names = [f"v_{name}" for name in [*function.inputs, *function.states]]
    lines = [f"def step({', '.join(names)}):"]
    lines += [f"    v_{name} = (v_{name} << {bits}) // {10 ** places}" for name in function.inputs]
    lines += [f"    v_{name} = {formula(tree, bits)}" for name, tree in function.temps]
    return compiled(lines + [f"    return ({', '.join(formula(tree, bits) for tree in function.results)},)"])


def outputs_of(step, function, rows, bits):
    """Returns the outputs of all rows, at 2^-FINE."""
    states = [(x.numerator << bits) // x.denominator for x in function.states.values()]
    found = []
    for trues, _ in rows:
        results = step(*trues, *states)
        first = len(results) - len(states)
        found.append([x >> bits - FINE for x in results[:first]])
        states = results[first:]
    return found


def lost_of(linear):
    """Returns for each output of a linear source what its exact output may be off by."""
    count = len(linear.A)
    once = [([int(k == j) for k in range(count)], (Fraction(0), Fraction(1))) for j in range(count)]
    spread = [reach(row, linear.A, once, [0] * count) for row in linear.C]
    # a next state loses below one unit at each row, a start too; the sum itself is rounded
    return [Fraction(2 * (1 + 2 * math.ceil(ends[1] - ends[0])), 2 ** FINE) for ends in spread]


def exact_outputs(source, rows, places):
    """Returns the outputs of all rows at 2^-FINE, and for each output what they may be off by."""
    if source.linear:
        return outputs_of(linear_step(source.linear, places), source.function, rows, FINE), lost_of(source.linear)
    fine = outputs_of(formula_step(source.function, places, FINE), source.function, rows, FINE)
    finer = outputs_of(formula_step(source.function, places, FINER), source.function, rows, FINER)
    lost = [Fraction(1 + max(abs(a[j] - b[j]) for a, b in zip(fine, finer)), 2 ** FINE) for j in range(len(fine[0]))]
    return finer, lost


# ---- the comparison

def printed_value(text):
    """Returns the exact value of a printed word, at 2^-FINE."""
    digits, _, rest = text.partition(".")
    return (int(digits + rest) << FINE) // 10 ** len(rest)


@dataclass
class Seen:
    """The greatest error over its bound, and the part of its certified range that an output took: of the worst output
    each."""
    error: float
    range: float


def compared(fixd, source, bundle, rows_file, exact, lost):
    with open(rows_file, encoding="utf-8") as file:
        printed = [list(map(printed_value, line.split(",")))
                   for line in fixd.call(["run", bundle], stdin=file).splitlines()[1:]]
    if len(printed) != len(exact):
        sys.exit(f"{source.name}: {len(printed)} rows are printed, and {len(exact)} are due")
    ranges, first = fixd.intervals_of(bundle)[0], -len(source.function.states) - len(exact[0])
    errors, parts = [], []
    for j, bound in enumerate(fixd.bounds_of(bundle)):
        if lost[j] > CLOSE * bound:
            sys.exit(f"{source.name}: the exact outputs aren't known well enough")
        seen = max(abs(a[j] - b[j]) for a, b in zip(printed, exact))
        if Fraction(seen, 2 ** FINE) > bound + lost[j]:
            sys.exit(f"{source.name}: output {j + 1} is further from the exact one than {float(bound):.9g}")
        lo, hi = ranges[first + j]
        values = [row[j] for row in exact]
        least, most = Fraction(min(values), 2 ** FINE), Fraction(max(values), 2 ** FINE)
        if least < lo - lost[j] or most > hi + lost[j]:
            sys.exit(f"{source.name}: output {j + 1} leaves its certified range")
        errors.append(float(Fraction(seen, 2 ** FINE) / bound))
        parts.append(float((most - least) / (hi - lo)))
    return Seen(max(errors), min(parts))


def source_row(fixd, source, options, folder):
    """Returns what is seen of a source at each width, None where there is no bundle."""
    bundles = bundles_at(fixd, source, folder, options)
    if not any(bundles):
        return bundles
    places = places_of(source.function)
    rows = rows_of(source, spans_of(source.function, places), options.rows)
    exact, lost = exact_outputs(source, rows, places)
    with tempfile.NamedTemporaryFile("w", suffix=".csv") as file:
        write_rows(file.name, source, rows, places)
        return [bundle and compared(fixd, source, bundle, file.name, exact, lost) for bundle in bundles]


# ---- the table

def source_line(source, row):
    fields = [f"`{source.name}`", source.kind(), shown(at and at.error for at in row),
              shown(at and at.range for at in row)]
    return "| " + " | ".join(fields) + " |"


def table(found, options):
    widths = ", ".join(map(str, options.widths))
    lines = [f"{options.rows:,} rows a bundle; the ranges of the first table are those of linear sources.", ""]
    lines += ["| width | bundles | error seen / bound: median, greatest | range seen / certified: median, least |",
              "|---|---|---|---|"]
    for k, width in enumerate(options.widths):
        at = [(source, row[k]) for source, row in found if row[k]]
        ranges = [seen.range for source, seen in at if source.linear]
        lines.append(f"| {width} | {len(at)} | {summed([seen.error for _, seen in at], max)} | {summed(ranges, min)} |")
    lines += ["", f"| source | kind | error seen / bound at {widths} | range seen / certified |", "|---|---|---|---|"]
    return "\n".join(lines + [source_line(source, row) for source, row in found]) + "\n"


def main():
    parser = parser_of(__doc__)
    parser.add_argument("--rows", type=int, default=100_000)
    options = parser.parse_args()
    fixd, found = Fixd(os.path.abspath(options.program)), []
    with bundle_folder(options) as folder:
        for source in corpus(options):
            row = source_row(fixd, source, options, folder)
            if any(row):
                found.append((source, row))
                print(source_line(source, row), file=sys.stderr, flush=True)
    hand_out(options, "seen", table(found, options))


if __name__ == "__main__":
    main()
