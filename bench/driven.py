#!/usr/bin/env python3
"""Drives the errors of linear functions with state near their bounds: driven.py [PROGRAM] [--widths 32] [--bundles
FOLDER] [--write]

The error of an output at a row is a sum over this row and all before: what each rounding loses, times the response of
the output to it; each input's error and what its reading loses, likewise; and the input itself, times what the
literals' words make its response differ from the exact one. For each linear source of examples/states and each output,
this script looks for inputs that make the sum great.

It goes forward from the start, for as many rows as the responses last, or --rows. At each row it draws inputs (--draws
for all rows), half of them anywhere and half near the end that the literals favour, each with its error to the side
that counts. It works out what the program loses in this row, and in later rows where that is settled by now, whatever
follows: in a product with a state, say. The best is taken. The side, up or down, that could bring more goes first; the
other is left out where all of it is less than what was reached.

The chosen rows go through `fixd run`. The script ends with an error where a printed number isn't that of its own run of
the codes, or is further from the exact output than its bound. The table has for each width:

- *error seen / bound*: the greatest error over the certified bound; of a source with several outputs, where it is
  least;
- *losses at most / bound*: what these rows' sum could be at most, were each rounding as great as its shift allows and
  each input at the end that counts, whatever the others are. Inputs can't bring more than this, but for what starts and
  rows further back add.

With --write the table goes to docs/measures.md. Outside the gate; it takes some minutes.
"""
import os
import random
import sys
import tempfile
import time
from dataclasses import dataclass
from fractions import Fraction

from calls import Fixd
from corpus import bundle_folder, bundles_at, corpus, hand_out, parser_of
from pages import shown, summed
from programs import codes_of, unit
from states_rows import FINE, compiled, linear_step, lost_of, outputs_of, places_of, printed_value, spans_of, write_rows

AHEAD = 16
TAIL = 0.002
LEAST_TRIES, MOST_TRIES = 48, 1024


# ---- a program: what a code counts in a result, and what it loses

def factors_of(codes):
    """Returns for each code its operands, and how often each counts in it; a known word counts 0."""
    values, found = [], []
    for code in codes:
        first, second = ([values[at] for at in code.operands] + [None, None])[:2]
        value, counts = None, [1] * len(code.operands)
        if code.word == "const":
            value = code.numbers[0] * unit(code.point)
        elif code.word == "neg":
            value, counts = None if first is None else -first, [-1]
        elif code.word == "copy":
            value = first
        elif code.word == "mul":
            value, counts = None if None in (first, second) else first * second, [second or 0, first or 0]
        elif code.word == "div":
            value, counts = None if None in (first, second) else first / second, [1 / second, 0]
        elif code.word in ("add", "sub"):
            sign = 1 if code.word == "add" else -1
            value, counts = None if None in (first, second) else first + sign * second, [1, sign]
        values.append(value)
        found.append([(at, float(count)) for at, count in zip(code.operands, counts) if values[at] is None])
    return found


@dataclass
class Loss:
    """A shift to the right in a code, of `term` with the codes that `reads` names; one that is lost there adds `each`
    to the code."""
    code: int
    reads: list
    term: str
    shift: int
    each: float


def losses_of(codes):
    found = []
    for k, code in enumerate(codes):
        one = float(unit(code.point))
        if code.word == "mul":
            found.append(Loss(k, code.operands, "{} * {}", code.numbers[0], -one / 2 ** code.numbers[0]))
        elif code.word in ("copy", "add", "sub"):
            signs = (-one, one if code.word == "sub" else -one)
            parts = zip(code.operands, code.numbers, signs)
            found += [Loss(k, [at], "{}", shift, sign / 2.0 ** shift) for at, shift, sign in parts]
    return [loss for loss in found if loss.shift > 0]


def shifted(name, shift):
    return f"({name} >> {shift})" if shift > 0 else f"({name} << {-shift})" if shift < 0 else name


def code_term(code, names):
    """Returns the formula of a code's word, from those of its operands."""
    shifts = code.numbers
    if code.word == "neg":
        return f"-{names[0]}"
    if code.word == "const":
        return f"({shifts[0]})"
    if code.word == "copy":
        return shifted(names[0], shifts[0])
    if code.word == "mul":
        return shifted(f"({names[0]} * {names[1]})", shifts[0])
    if code.word == "div":
        return f"quotient({names[0]} << {shifts[0]}, {names[1]})"
    return f"{shifted(names[0], shifts[0])} {'+' if code.word == 'add' else '-'} {shifted(names[1], shifts[1])}"


QUOTIENT = ["def quotient(a, b):", "    return abs(a) // abs(b) * (1 if (a >= 0) == (b >= 0) else -1)"]


class Program:
    """A linear program, with a step that also says what is lost."""

    def __init__(self, function, codes):
        self.codes, self.inputs, self.states = codes, len(function.inputs), len(function.states)
        self.first = len(codes) - self.states
        self.outputs = range(len(codes) - len(function.results), self.first)
        self.starts = tuple(code.numbers[2] for code in codes[self.inputs:self.inputs + self.states])
        self.factors, self.losses = factors_of(codes), losses_of(codes)
        self.step = compiled(self.lines())

    def counts(self, ends):
        """Returns how often each code counts, where the last ones count so much."""
        found = [0.0] * (len(self.codes) - len(ends)) + ends
        for k in range(len(self.codes) - 1, -1, -1):
            if found[k]:
                for at, factor in self.factors[k]:
                    found[at] += factor * found[k]
        return found

    def settled(self):
        """Returns for this row and later ones which codes are known whatever inputs follow, as long as any of them
        loses."""
        found, states = [[True] * len(self.codes)], [True] * self.states
        while len(found) <= AHEAD:
            known = [False] * self.inputs + states
            for code in self.codes[len(known):]:
                known.append(all(known[at] for at in code.operands))
            if not any(all(known[at] for at in loss.reads) for loss in self.losses):
                break
            found.append(known)
            states = known[self.first:]
        return found

    def wanted(self, settled):
        """Returns for each row which of the settled codes are to be computed: all of the first row, and of others what
        is lost from."""
        found = [set() for _ in settled]
        found[0] = set(range(len(self.codes)))
        for row in range(len(settled) - 1, 0, -1):
            found[row].update(at for loss in self.losses if all(settled[row][at] for at in loss.reads)
                              for at in loss.reads)
            for k in range(len(self.codes) - 1, -1, -1):
                if k in found[row]:
                    found[row].update(self.codes[k].operands)
                    if self.codes[k].word == "st":
                        found[row - 1].add(self.first + self.codes[k].numbers[0])
        return found

    def lines(self):
        """Returns the lines of the step: from words and what counts in each row to what all losses bring, the outputs
        and next states."""
        variables = [f"x0_{k}" for k in range(self.inputs + self.states)]
        lines, sums = QUOTIENT + [f"def step({', '.join(variables + ['counts'])}):"], []
        settled = self.settled()
        for row, wanted in enumerate(self.wanted(settled)):
            lines.append(f"    counts{row} = counts[{row}]")
            for k in sorted(wanted):
                code = self.codes[k]
                if code.word == "st" and row > 0:
                    lines.append(f"    x{row}_{k} = x{row - 1}_{self.first + code.numbers[0]}")
                elif code.word not in ("in", "st"):
                    lines.append(f"    x{row}_{k} = {code_term(code, [f'x{row}_{at}' for at in code.operands])}")
            for n, loss in enumerate(self.losses):
                if all(settled[row][at] for at in loss.reads):
                    term = loss.term.format(*(f"x{row}_{at}" for at in loss.reads))
                    sums.append(f"({term} & {2 ** loss.shift - 1}) * counts{row}[{n}]")
        self.ahead = len(settled)
        results = [", ".join(f"x0_{k}" for k in part) for part in (self.outputs, range(self.first, len(self.codes)))]
        return lines + [f"    return {' + '.join(sums) or 0}, ({results[0]},), ({results[1]},)"]


# ---- what counts in each row before the last

@dataclass
class Left:
    """A row so many rows before the last: what one that is lost counts, and how often a word of an input counts, and
    the input itself."""
    losses: list
    words: list
    trues: list

    def turned(self, side):
        return Left(*([side * x for x in part] for part in (self.losses, self.words, self.trues)))

    def most(self, program, function):
        """Returns the most that the row may bring, up, were each loss by itself and each input at an end."""
        brought = sum(max(0.0, x) * (2 ** loss.shift - 1) for x, loss in zip(self.losses, program.losses))
        for word, true, code, span in zip(self.words, self.trues, program.codes, function.inputs.values()):
            brought += max((word - true) * float(x) for x in (span["lo"], span["hi"]))
            brought += abs(word) * float(span["err"]) + max(0.0, -word) * float(unit(code.point))
        return brought


def exact_responses(linear, output, inputs):
    """Yields what a unit of each input adds to the exact output 0, 1, 2, .. rows later."""
    A, B = ([[float(x) for x in row] for row in matrix] for matrix in (linear.A, linear.B))
    image = [float(x) for x in linear.C[output]]
    yield [float(x) for x in linear.D[output][:inputs]]
    while True:
        yield [sum(x * row[i] for x, row in zip(image, B)) for i in range(inputs)]
        image = [sum(x * row[j] for x, row in zip(image, A)) for j in range(len(A))]


def plan_of(program, source, output, most):
    """Returns what counts in each row from the last one back, till hardly anything is left of what rows before may
    bring."""
    exact, found, states = exact_responses(source.linear, output, program.inputs), [], [0.0] * program.states
    ends = [float(k == output) for k in range(len(program.outputs))]
    while len(found) < most:
        counts = program.counts(ends + states)
        losses = [counts[loss.code] * loss.each for loss in program.losses]
        found.append(Left(losses, counts[:program.inputs], next(exact)))
        ends, states = [0.0] * len(ends), counts[program.inputs:program.inputs + program.states]
    sizes = [max(left.turned(side).most(program, source.function) for side in (1, -1)) for left in found]
    rest = sum(sizes)
    enough = TAIL * rest
    for count, size in enumerate(sizes):
        if rest <= enough:
            return found[:count]
        rest -= size
    return found


# ---- the choice of inputs

@dataclass
class Port:
    """An input: its ends and error in units of 10^-places. A unit of its point is `size / parts` of these."""
    span: object
    size: int
    parts: int

    def word(self, given):
        return given * self.parts // self.size

    def ends(self, up):
        """Returns the words of both ends, with the error up or down."""
        off = self.span.err if up else -self.span.err
        return self.word(self.span.lo + off), self.word(self.span.hi + off)

    def placed(self, word, up):
        """Returns the true and the given value whose reading is this word: as far below it as may be, or as far
        above."""
        given = -(-word * self.size // self.parts) if up else -(-(word + 1) * self.size // self.parts) - 1
        off = self.span.err if up else -self.span.err
        true = min(max(given - off, self.span.lo), self.span.hi)
        return true, true + off


def ports_of(program, function, places):
    points = [code.point for code in program.codes[:program.inputs]]
    return [Port(span, 10 ** places * 2 ** max(0, -point), 2 ** max(0, point))
            for point, span in zip(points, spans_of(function, places))]


def fine_places(program, function):
    """Returns how many decimal places rows need to come near both ends of what reads as one word."""
    places, fine = places_of(function), 16 * 2 ** max(code.point for code in program.codes[:program.inputs])
    greatest = max(max(abs(span["lo"]), abs(span["hi"])) + span["err"] for span in function.inputs.values())
    while places < 18 and 10 ** places < fine and greatest * 10 ** (places + 1) < 2 ** 62:
        places += 1
    return places


def drawn(draw, port, low, high, upper):
    """Returns a word anywhere, or near one of the ends."""
    if draw.random() < 0.5:
        return draw.randint(low, high)
    away = int((high - low + 1) ** draw.random()) - 1
    return high - away if upper else low + away


def candidates(draw, ports, left, places, tries):
    """Returns rows as what they bring by themselves, the words, the true and the given values."""
    ups = [x >= 0 for x in left.words]
    uppers = [word >= true for word, true in zip(left.words, left.trues)]
    ends, found = [port.ends(up) for port, up in zip(ports, ups)], []
    for n in range(tries):
        words = [drawn(draw, port, *at, upper) if n else at[upper] for port, at, upper in zip(ports, ends, uppers)]
        pairs = [port.placed(word, up) for port, word, up in zip(ports, words, ups)]
        trues, givens = [pair[0] for pair in pairs], [pair[1] for pair in pairs]
        words = [port.word(given) for port, given in zip(ports, givens)]
        brings = sum(x * word * port.size / port.parts / 10 ** places
                     for x, word, port in zip(left.words, words, ports))
        brings -= sum(x * true / 10 ** places for x, true in zip(left.trues, trues))
        found.append((brings, words, trues, givens))
    return found


def driven_rows(program, ports, plan, places, tries):
    """Returns rows for all of the plan, as the true and the given values; and the outputs' words that the program
    gives."""
    draw, none = random.Random(1), [0.0] * len(program.losses)
    states, rows, words = program.starts, [], []
    for k in range(len(plan) - 1, -1, -1):
        counts, best = [plan[k - n].losses if k >= n else none for n in range(program.ahead)], None
        for brings, inputs, trues, givens in candidates(draw, ports, plan[k], places, tries):
            lost, outputs, following = program.step(*inputs, *states, counts)
            if best is None or brings + lost > best[0]:
                best = brings + lost, outputs, following, (trues, givens)
        _, outputs, states, row = best
        rows.append(row)
        words.append(outputs)
    return rows, words


# ---- the run

@dataclass
class Case:
    """A bundle's file, its program and bounds, how many decimal places its rows have, and what exact outputs may be off
    by."""
    source: object
    bundle: str
    program: object
    bounds: list
    places: int
    lost: list


def case_of(fixd, source, bundle, lost):
    with open(bundle, encoding="utf-8") as file:
        program = Program(source.function, codes_of(file.read()))
    return Case(source, bundle, program, fixd.bounds_of(bundle), fine_places(program, source.function), lost)


def printed_of(fixd, case, rows):
    with tempfile.NamedTemporaryFile("w", suffix=".csv") as file:
        write_rows(file.name, case.source, rows, case.places)
        with open(file.name, encoding="utf-8") as lines:
            return [list(map(printed_value, line.split(",")))
                    for line in fixd.call(["run", case.bundle], stdin=lines).splitlines()[1:]]


def seen_of(fixd, case, rows, words):
    """Runs rows of which these words are due. Returns for each output the greatest error seen over the bound."""
    source, printed = case.source, printed_of(fixd, case, rows)
    points = [case.program.codes[k].point for k in case.program.outputs]
    if printed != [[word << FINE - point for word, point in zip(outputs, points)] for outputs in words]:
        sys.exit(f"{source.name}: what is printed isn't what the program's codes give")
    exact, found = outputs_of(linear_step(source.linear, case.places), source.function, rows, FINE), []
    for j, bound in enumerate(case.bounds):
        error = Fraction(max(abs(a[j] - b[j]) for a, b in zip(printed, exact)), 2 ** FINE)
        if error > bound + case.lost[j]:
            sys.exit(f"{source.name}: output {j + 1} is further from the exact one than {float(bound):.9g}")
        found.append(float(error / bound))
    return found


@dataclass
class Driven:
    """The greatest error of an output that is seen, and what all losses could bring at most, both over the bound."""
    error: float
    most: float


def driven_of(fixd, case, options):
    """Returns what is found of each output."""
    program, function = case.program, case.source.function
    ports, best, could = ports_of(program, function, case.places), [0.0] * len(case.bounds), []
    for output, bound in enumerate(case.bounds):
        plan = plan_of(program, case.source, output, options.rows)
        tries = min(MOST_TRIES, max(LEAST_TRIES, options.draws // len(plan)))
        sides = [[left.turned(side) for left in plan] for side in (1, -1)]
        mosts = [sum(left.most(program, function) for left in side) / float(bound) for side in sides]
        could.append(max(mosts))
        for most, side in sorted(zip(mosts, sides), key=lambda pair: -pair[0]):
            if most > best[output]:
                seen = seen_of(fixd, case, *driven_rows(program, ports, side, case.places, tries))
                best = [max(pair) for pair in zip(best, seen)]
    return [Driven(*pair) for pair in zip(best, could)]


# ---- the table

def source_row(fixd, source, options, folder):
    """Returns for each width the output that is driven least far, None where there is no bundle, and the seconds."""
    bundles = bundles_at(fixd, source, folder, options)
    lost, row = lost_of(source.linear) if any(bundles) else None, []
    for bundle in bundles:
        start = time.monotonic()
        found = driven_of(fixd, case_of(fixd, source, bundle, lost), options) if bundle else []
        row.append((min(found, key=lambda output: output.error, default=None), time.monotonic() - start))
    return row


def source_line(source, row):
    outputs = [output for output, _ in row]
    return (f"| `{source.name}` | {shown(at and at.error for at in outputs)} | "
            f"{shown(at and at.most for at in outputs)} |")


def table(found, options):
    lines = ["| width | bundles | error seen / bound: median, least | losses at most / bound: median, least | "
             "minutes |"]
    lines.append("|---|---|---|---|---|")
    for k, width in enumerate(options.widths):
        at = [row[k][0] for _, row in found if row[k][0]]
        if at:
            errors, mosts = summed([x.error for x in at], min), summed([x.most for x in at], min)
            minutes = sum(row[k][1] for _, row in found) / 60
            lines.append(f"| {width} | {len(at)} | {errors} | {mosts} | {minutes:.1f} |")
    lines += ["", f"| source | error seen / bound at {', '.join(map(str, options.widths))} | losses at most / bound |",
              "|---|---|---|"]
    return "\n".join(lines + [source_line(source, row) for source, row in found]) + "\n"


def main():
    parser = parser_of(__doc__)
    parser.add_argument("--rows", type=int, default=3000, help="the most rows that are chosen for an output and a side")
    parser.add_argument("--draws", type=int, default=60_000,
                        help=f"inputs drawn for all of them, {LEAST_TRIES} to {MOST_TRIES} a row")
    options = parser.parse_args()
    fixd, found = Fixd(os.path.abspath(options.program)), []
    with bundle_folder(options) as folder:
        for source in corpus(options):
            if source.linear and source.mark != "not found":
                row = source_row(fixd, source, options, folder)
                if not any(output for output, _ in row):
                    continue
                found.append((source, row))
                print(source_line(source, row), f"{sum(seconds for _, seconds in row):.1f} s", file=sys.stderr,
                      flush=True)
    hand_out(options, "driven", table(found, options))


if __name__ == "__main__":
    main()
