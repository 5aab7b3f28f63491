"""The inequalities of a certificate in fractions, to show both sides of one: docs/inequalities.md has them in words.

`fixd check` judges; this tells what was compared. A condition of which 128 bits can't tell (Beyond) is shown as it is.
"""
from __future__ import annotations

from dataclasses import dataclass
from fractions import Fraction

from .bundles import Bundle
from .exact import NOTHING, dyadic, minus, plus, scaled, shown, times, word_value
from .nodes import nodes_of, rewritten
from .functions import Function

OPS = {"+": ("add",), "-": ("sub",), "*": ("mul", "mulr"), "/": ("div",), "neg": ("neg",), "in": ("in",), "st": ("st",),
       "const": ("const",), "copy": ("copy", "copyr")}
JOINED = {"+": plus, "-": minus, "*": times}
ENDLESS = Fraction(10 ** 30)


@dataclass
class Side:
    """A comparison: what comes of the operands, and what is written, with its name; `holds` says whether it does."""
    what: str
    comes: tuple
    written: tuple

    @property
    def holds(self) -> bool:
        low = self.written[0] is None or self.written[0] <= self.comes[0]
        return low and (self.written[1] is None or self.comes[1] <= self.written[1])

    def told(self) -> str:
        """Returns it as a sentence with decimals."""
        if None in self.written:
            end, side, got = ((self.written[1], "above", self.comes[1]) if self.written[0] is None
                              else (self.written[0], "below", self.comes[0]))
            relation = "it is not" if self.holds else "it is"
            return f"{self.what}: {number(got)} may not be {side} {number(end)}; {relation}"
        text = (f"{self.what} comes to [{number(self.comes[0])}, {number(self.comes[1])}] and has to lie in "
                f"[{number(self.written[0])}, {number(self.written[1])}]")
        faults = []
        if self.comes[0] < self.written[0]:
            faults.append(f"it leaves the lower end by {shown(self.written[0] - self.comes[0], 3)}")
        if self.comes[1] > self.written[1]:
            faults.append(f"it leaves the upper end by {shown(self.comes[1] - self.written[1], 3)}")
        return text + (": " + " and ".join(faults) if faults else ": it does")


def number(value: Fraction) -> str:
    """Returns a decimal, and where that isn't the whole number, the dyadic too."""
    text = shown(value, 7)
    return (text if Fraction(text) == value or value.denominator & (value.denominator - 1)
            else f"{text} ({dyadic(value)})")


def quotient(first, second):
    """Returns the quotient of two intervals; a divisor that may be zero makes it endless."""
    low, high = second
    return times(first, (1 / high, 1 / low)) if low * high > 0 else (-ENDLESS, ENDLESS)


def loss(code) -> list:
    """Returns for each shift of a code what it may lose."""
    if code.word in ("mulr", "copyr"):
        half = word_value(1, code.point + 1)
        return [(-half, half)]
    return [(-word_value(1, code.point), Fraction(0)) if shift > 0 else NOTHING for shift in code.shifts]


class Judge:
    """A bundle with its function behind the steps, ready to say what each condition compares."""

    def __init__(self, bundle: Bundle, made: Function):
        self.bundle, self.made = bundle, rewritten(made, bundle.steps)
        self.nodes = nodes_of(self.made)
        self.variables = bundle.inputs + bundle.states

    def ranges(self, n):
        return self.bundle.lines[n].range

    def errors(self, n):
        return self.bundle.lines[n].error

    def bound(self, coefficients, rest, of_lines, templates, shares):
        """Returns the interval of a sum of variables and a rest, by shares of templates."""
        total = rest
        inputs = self.bundle.inputs
        for j in range(inputs):
            total = plus(total, scaled(coefficients[j], of_lines(j)))
        left = list(coefficients[inputs:])
        for k, many in shares:
            total = plus(total, scaled(many, templates[k].ends))
            left = [x - many * y for x, y in zip(left, templates[k].coefficients)]
        for k, x in enumerate(left):
            total = plus(total, scaled(x, templates[k].ends))
        return total

    def form(self, n):
        """Returns coefficients, rest and error's rest of a node, written or not."""
        line = self.bundle.lines[n]
        if n < self.variables:
            return [Fraction(int(k == n)) for k in range(self.variables)], NOTHING, NOTHING
        if line.form:
            return line.form.coefficients, line.form.rest, line.form.error_rest
        return [Fraction(0)] * self.variables, line.range, line.error

    def form_sides(self, n):
        """Returns what the form condition of a node compares."""
        node, code, form = self.nodes[n], self.bundle.codes[n], self.bundle.lines[n].form
        if form is None or node.op in ("const", "/", "in", "st"):
            return []
        given = [self.form(k) for k in node.operands]
        lost = loss(code) + [NOTHING, NOTHING]
        if node.op in ("+", "-"):
            sign = 1 if node.op == "+" else -1
            coefficients = [x + sign * y for x, y in zip(given[0][0], given[1][0])]
            rest = plus(given[0][1], scaled(sign, given[1][1]))
            error = plus(plus(given[0][2], scaled(sign, given[1][2])), plus(lost[0], scaled(sign, lost[1])))
        elif node.op == "*":
            coefficients, rest, error = self.product_form(node, form, given, lost[0])
        else:
            sign = -1 if node.op == "neg" else 1
            coefficients = [sign * x for x in given[0][0]]
            rest, error = scaled(sign, given[0][1]), plus(scaled(sign, given[0][2]),
                                                          lost[0] if node.op == "copy" else NOTHING)
        left = [x - y for x, y in zip(coefficients, form.coefficients)]
        for j, x in enumerate(left):
            rest, error = plus(rest, scaled(x, self.ranges(j))), plus(error, scaled(x, self.errors(j)))
        return [Side("the rest of the value beside the form", rest, form.rest),
                Side("the rest of the error beside the form", error, form.error_rest)]

    def product_form(self, node, form, given, lost):
        (a, b), (ma, mb) = node.operands, form.centres
        coefficients = [mb * x + ma * y for x, y in zip(given[0][0], given[1][0])]
        da, db = minus(self.ranges(a), (ma, ma)), minus(self.ranges(b), (mb, mb))
        rest = plus(plus(plus(scaled(mb, given[0][1]), scaled(ma, given[1][1])), (-ma * mb, -ma * mb)), times(da, db))
        error = plus(plus(scaled(mb, given[0][2]), scaled(ma, given[1][2])),
                     plus(times(da, self.errors(b)), times(db, self.errors(a))))
        return coefficients, rest, plus(plus(error, times(self.errors(a), self.errors(b))), lost)

    def range_side(self, n):
        node, line = self.nodes[n], self.bundle.lines[n]
        if line.form and line.form.shares is not None:
            return Side("the value by its form",
                        self.bound(line.form.coefficients, line.form.rest, self.ranges, self.bundle.templates,
                                   line.form.shares), line.range)
        return Side("the exact value", self.value_of(n, node), line.range)

    def value_of(self, n, node):
        if node.op == "in":
            it = self.made.inputs[n]
            return it.lo, it.hi
        if node.op == "st":
            return self.bundle.templates[n - self.bundle.inputs].ends
        if node.op == "const":
            return node.tree.value, node.tree.value
        given = [self.ranges(k) for k in node.operands]
        if node.op == "/":
            return quotient(*given)
        if node.op in JOINED:
            return JOINED[node.op](*given)
        return scaled(-1, given[0]) if node.op == "neg" else given[0]

    def error_side(self, n):
        node, line = self.nodes[n], self.bundle.lines[n]
        if line.form and line.form.error_shares is not None:
            return Side("the error by its form",
                        self.bound(line.form.coefficients, line.form.error_rest, self.errors,
                                   self.bundle.error_templates, line.form.error_shares), line.error)
        return Side("the error", self.error_of(n, node), line.error)

    def error_of(self, n, node):
        code = self.bundle.codes[n]
        unit, lost = word_value(1, code.point), loss(code) + [NOTHING, NOTHING]
        if node.op == "in":
            off = self.made.inputs[n].off
            return -off - unit, off
        if node.op == "st":
            return self.bundle.error_templates[n - self.bundle.inputs].ends
        if node.op == "const":
            off = word_value(code.numbers[0], code.point) - node.tree.value
            return off, off
        g, h = [self.ranges(k) for k in node.operands], [self.errors(k) for k in node.operands]
        if node.op == "+":
            return plus(plus(*h), plus(lost[0], lost[1]))
        if node.op == "-":
            return plus(minus(*h), minus(lost[0], lost[1]))
        if node.op == "*":
            return plus(plus(plus(times(g[0], h[1]), times(g[1], h[0])), times(*h)), lost[0])
        if node.op == "/":
            top, below = minus(h[0], times(self.ranges(n), h[1])), plus(g[1], h[1])
            return plus(quotient(top, below), (-unit, unit))
        return scaled(-1, h[0]) if node.op == "neg" else plus(h[0], lost[0])

    def word_side(self, n):
        code, line = self.bundle.codes[n], self.bundle.lines[n]
        most = 2 ** (self.bundle.width - 1)
        ends = word_value(-most, code.point), word_value(most - 1, code.point)
        return Side(f"the word's value at point {code.point}", plus(line.range, line.error), ends)

    def divisor_sides(self, n):
        _, b = self.nodes[n].operands
        return [f"the divisor lies in [{number(self.ranges(b)[0])}, {number(self.ranges(b)[1])}], and the machine's in "
                f"[{number(plus(self.ranges(b), self.errors(b))[0])}, "
                f"{number(plus(self.ranges(b), self.errors(b))[1])}]: zero may lie in neither"]

    def start_sides(self, part, k):
        bundle = self.bundle
        if part == "start":
            state, (value, error) = self.made.states[k], bundle.starts[k]
            code = bundle.state_codes()[k]
            word = word_value(code.numbers[2], code.point)
            return [Side(f"the start of '{state.name}'", (state.start, state.start), value),
                    Side("what the start word is off", (word - state.start,) * 2, error)]
        templates, which = (bundle.templates, 0) if part == "row" else (bundle.error_templates, 1)
        total = NOTHING
        for k2, x in enumerate(templates[k].coefficients):
            total = plus(total, scaled(x, bundle.starts[k2][which]))
        return [Side("the template's sum at the start", total, templates[k].ends)]

    def row_side(self, part, k):
        bundle, errors = self.bundle, part == "errorrow"
        templates = bundle.error_templates if errors else bundle.templates
        template, first = templates[k], len(bundle.codes) - bundle.states
        total, rest = [Fraction(0)] * self.variables, NOTHING
        for s, x in enumerate(template.coefficients):
            coefficients, value, error = self.form(first + s)
            total = [y + x * z for y, z in zip(total, coefficients)]
            rest = plus(rest, scaled(x, error if errors else value))
        return Side("the template's sum behind a step",
                    self.bound(total, rest, self.errors if errors else self.ranges, templates, template.shares),
                    template.ends)

    def demand_sides(self, j):
        n = self.bundle.first_output + j
        demand, line = self.made.outputs[j], self.bundle.lines[n]
        found = []
        if demand.error is not None:
            found.append(Side("the certified error", line.error, (-demand.error, demand.error)))
        if demand.lo is not None or demand.hi is not None:
            found.append(Side("the printed value, range and error together", plus(line.range, line.error),
                              (demand.lo, demand.hi)))
        return found

    def sides(self, kind: str, part: str, index: int) -> list:
        """Returns what the condition of a fault compares: sides and sentences."""
        if kind == "Beyond":
            return self.all_sides(part, index)
        if kind == "Form":
            return self.form_sides(index) or ["a form stands at a literal, a quotient, an input or a state, which "
                                              "can't have one"]
        one = {"Range": self.range_side, "Error": self.error_side, "WordTooSmall": self.word_side}.get(kind)
        if one:
            return [one(index)]
        if kind == "Divisor":
            return self.divisor_sides(index)
        if kind == "Start":
            return self.start_sides(part, index)
        if kind in ("Row", "ErrorRow"):
            return [self.row_side(part, index)]
        return self.demand_sides(index - 1) if kind == "Demand" else []

    def all_sides(self, part, index):
        if part == "node":
            return [*self.form_sides(index), self.range_side(index), self.error_side(index), self.word_side(index)]
        if part == "output":
            return self.demand_sides(index - 1)
        return self.start_sides(part, index) + ([self.row_side(part, index)] if part != "start" else [])
