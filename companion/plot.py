"""fixd-tools plot BUNDLE [ROWS]: errors between the lines of the bound; of filters the step and the frequency
response."""
from __future__ import annotations

import cmath
import os
import random
import sys
from dataclasses import dataclass
from fractions import Fraction
from math import pi

from .bundles import Bundle
from .exact import as_decimal, at_most
from .explain_rows import values_of
from .fixd import Fixd, Trouble, find, progress, readable
from .linear import linear_of
from .show import accepted
from .sources import function_of
from .functions import evaluate, Function
from .svg import Panel, picture

HELP = "a picture: errors between the lines of the bound, and a filter's responses"
DESCRIPTION = """Prints an SVG: by how much printed values differ from exact ones, between the lines of the certified
bound, over the rows of ROWS, or else over rows at random and over rows that are driven to the worst; of a filter its
step and, where it is linear, its frequency response, exact and as the integer program gives it."""
PLACES = 9


def add_to(parser) -> None:
    """Adds this subcommand's words."""
    parser.add_argument("bundle", metavar="BUNDLE")
    parser.add_argument("rows", metavar="ROWS", nargs="?", help="a file of rows, as for fixd run")
    parser.add_argument("--count", type=int, default=1000, metavar="N", help="how many rows at random (default: 1000)")
    parser.add_argument("--output", metavar="NAME", help="the output that is shown (default: the first)")
    parser.add_argument("--out", metavar="FILE.svg", help="write the picture into this file")


@dataclass
class Plotted:
    """A bundle that is plotted: its program, its function, and the output that is shown."""
    fixd: Fixd
    path: str
    bundle: Bundle
    made: Function
    output: int

    def errors(self, rows: list) -> list:
        """Returns by how much the printed value of each row differs from the exact one, and the exact ones."""
        lines = [[it.name for it in self.made.inputs], *(map(as_decimal, row) for row in rows)]
        csv = "".join(",".join(line) + "\n" for line in lines)
        printed = self.fixd.printed("run", self.path, rows=csv.encode()).decode().splitlines()[1:]
        states, exact = [it.start for it in self.made.states], []
        for row in rows:
            outputs, states = evaluate(self.made, row, states)
            states = [shortened(it) for it in states]
            exact.append(outputs[self.output])
        return [Fraction(line.split(",")[self.output]) - value for line, value in zip(printed, exact)], exact

    def chance(self, source: random.Random) -> list:
        """Returns a row at random."""
        return [limited(it, Fraction(source.randint(int(it.lo * 10 ** PLACES), int(it.hi * 10 ** PLACES)),
                                     10 ** PLACES)) for it in self.made.inputs]


def shortened(value: Fraction) -> Fraction:
    """Returns a number to 2^-200: what is lost is far below what is shown."""
    if value.denominator.bit_length() < 260:
        return value
    return Fraction((value.numerator << 200) // value.denominator, 1 << 200)


def limited(it, value: Fraction) -> Fraction:
    return min(max(value, it.lo), it.hi)


def rows_of(path: str, made: Function) -> list:
    """Returns the values of a file of rows."""
    try:
        return values_of(readable(path), made.inputs)
    except (ValueError, IndexError, ZeroDivisionError):
        names = ", ".join(it.name for it in made.inputs)
        raise Trouble(f"{path} has a bad row, or no column for each input ({names}): fixd-tools explain run BUNDLE < "
                      f"{path}") from None


def driven(shown: Plotted, count: int) -> list:
    """Returns rows whose errors are greater than at random: of a filter an input that follows its impulse response,
    else a climb from row to row."""
    source = random.Random(1)
    system = linear_of(shown.made) if shown.made.states else None
    if shown.made.states:
        return (follow(shown, system, count) if system
                else [[(it.lo, it.hi)[source.randint(0, 1)] for it in shown.made.inputs] for _ in range(count)])
    rows = [shown.chance(source) for _ in range(count)]
    for turn in range(4):
        errors, _ = shown.errors(rows)
        best = [row for _, row in sorted(zip(errors, rows), key=lambda pair: -abs(pair[0]))][:max(1, count // 20)]
        rows = best + [[moved(source, it, x, 4 ** (turn + 2)) for it, x in zip(shown.made.inputs, source.choice(best))]
                       for _ in range(count - len(best))]
    return rows


def moved(source: random.Random, it, value: Fraction, part: int) -> Fraction:
    """Returns a value of an input, mostly one that is off by a part of its range at most."""
    if source.random() < 0.7:
        value = limited(it, value + Fraction(source.randint(-10 ** 9, 10 ** 9), 10 ** 9) * (it.hi - it.lo) / part)
    return Fraction(round(value * 10 ** PLACES), 10 ** PLACES)


def follow(shown: Plotted, system, count: int) -> list:
    """Returns an input from end to end that drives the output as far as it goes at the last row, in blocks of a settled
    response."""
    made, kernel = shown.made, []
    image = [float(x) for x in system.C[shown.output]]
    A = [[float(x) for x in row] for row in system.A]
    for _ in range(count):
        kernel.append([sum(x * row[i] for x, row in zip(image, [[float(y) for y in line] for line in system.B]))
                       for i in range(len(made.inputs))])
        image = [sum(image[k] * A[k][j] for k in range(len(A))) for j in range(len(A))]
    return [[it.hi if x > 0 else it.lo for it, x in zip(made.inputs, kernel[count - 1 - k])] for k in range(count)]


def error_panel(shown: Plotted, names_and_rows: list) -> Panel:
    """Returns the panel of the errors between the lines of the bound."""
    name, line = shown.made.outputs[shown.output].name, shown.bundle.lines[shown.bundle.first_output + shown.output]
    panel = Panel(f"{shown.bundle.name}, {shown.bundle.width} bits: printed less exact {name}", "row", "error")
    for label, rows in names_and_rows:
        progress(f"running {len(rows)} rows, {label}")
        errors, _ = shown.errors(rows)
        panel.dots.append((f"{label}: {float(max(map(abs, errors))):.3g}",
                           [(k + 1, float(error)) for k, error in enumerate(errors)]))
    bound = max(abs(end) for end in line.error)
    panel.marks = [(float(line.error[0]), "certified"), (float(line.error[1]), "certified")]
    panel.title += f"; certified to be within {at_most(bound)}"
    return panel


def step_panel(shown: Plotted, count: int = 120) -> Panel:
    """Returns the panel of the step response, exact and printed."""
    middle = [limited(it, Fraction(0)) for it in shown.made.inputs]
    rows = [middle] * (count // 8) + [[it.hi for it in shown.made.inputs]] * (count - count // 8)
    errors, exact = shown.errors(rows)
    panel = Panel("a step to the greatest inputs", "row", shown.made.outputs[shown.output].name)
    panel.lines = [("exact", [(k + 1, float(x)) for k, x in enumerate(exact)]),
                   ("printed", [(k + 1, float(x + e)) for k, (x, e) in enumerate(zip(exact, errors))])]
    return panel


def frequency_panel(shown: Plotted, system) -> Panel:
    """Returns the panel of the frequency response of the first input: exact by the matrices, and of the integer program
    by sines through it."""
    one = shown.made.inputs[0]
    A, b, c = ([[float(x) for x in row] for row in system.A], [float(row[0]) for row in system.B],
               [float(x) for x in system.C[shown.output]])
    exact = [(f, 20 * log(abs(gain(A, b, c, float(system.D[shown.output][0]), f))))
             for f in (0.5 * 10 ** (-3 + 3 * k / 160) for k in range(160))]
    middle, size = (one.lo + one.hi) / 2, (one.hi - one.lo) / 2 * Fraction(9, 10)
    measured = []
    for k in range(20):
        periods, length = max(2, round(0.5 * 10 ** (-2.2 + 2.15 * k / 19) * 512)), 512
        frequency = periods / length
        progress(f"frequency {k + 1} of 20")
        wave = [Fraction(round((float(middle) + float(size) * cmath.sin(2 * pi * frequency * t).real) * 10 ** PLACES),
                         10 ** PLACES) for t in range(2 * length)]
        rows = [[limited(one, x), *[limited(it, Fraction(0)) for it in shown.made.inputs[1:]]] for x in wave]
        errors, outs = shown.errors(rows)
        turn = [cmath.exp(-2j * pi * frequency * t) for t in range(length, 2 * length)]
        got = sum(float(x + e) * z for x, e, z in zip(outs[length:], errors[length:], turn))
        given = sum(float(row[0]) * z for row, z in zip(rows[length:], turn))
        measured.append((frequency, 20 * log(abs(got / given))))
    panel = Panel(f"from {one.name} to {shown.made.outputs[shown.output].name}", "frequency, in rows' rates", "dB",
                  log_x=True)
    panel.lines, panel.dots = [("exact", exact)], [("integer program", measured)]
    return panel


def log(value: float) -> float:
    return cmath.log10(max(value, 1e-12)).real


def gain(A, b, c, d, frequency):
    """Returns the response at a frequency: c (zI - A)^-1 b + d."""
    z, size = cmath.exp(2j * pi * frequency), len(A)
    rows = [[(z if i == j else 0) - A[i][j] for j in range(size)] + [b[i]] for i in range(size)]
    for k in range(size):
        best = max(range(k, size), key=lambda i: abs(rows[i][k]))
        rows[k], rows[best] = rows[best], rows[k]
        for i in range(size):
            if i != k and rows[i][k]:
                factor = rows[i][k] / rows[k][k]
                rows[i] = [x - factor * y for x, y in zip(rows[i], rows[k])]
    return sum(c[k] * rows[k][size] / rows[k][k] for k in range(size)) + d


def plotted(words, fixd: Fixd) -> Plotted:
    """Returns what is plotted, by the words of a call."""
    bundle, _, judge = accepted(fixd, words.bundle)
    made = function_of(bundle.source, bundle.name)
    names = [it.name for it in made.outputs]
    if getattr(words, "output", None) and words.output not in names:
        raise Trouble(f"no output is called '{words.output}': outputs are {', '.join(names)}")
    return Plotted(fixd, words.bundle, bundle, made, names.index(words.output) if getattr(words, "output", None) else 0)


def panels_of(shown: Plotted, rows_path: str, count: int) -> list:
    """Returns the panels of a picture."""
    if rows_path:
        return [error_panel(shown, [(os.path.basename(rows_path), rows_of(rows_path, shown.made))])]
    source = random.Random(0)
    panels = [error_panel(shown, [("at random", [shown.chance(source) for _ in range(count)]),
                                  ("driven", driven(shown, count))])]
    if shown.made.states:
        panels.append(step_panel(shown))
        system = linear_of(shown.made)
        if system:
            panels.append(frequency_panel(shown, system))
    return panels


def run(words) -> int:
    """Runs the subcommand."""
    shown = plotted(words, find(words.fixd))
    text = picture(panels_of(shown, words.rows, words.count))
    if words.out:
        with open(words.out, "w", encoding="utf-8") as file:
            file.write(text)
    else:
        sys.stdout.write(text)
    return 0
