"""Where a certified bound comes from: what each reading, literal and rounding adds to an output's error, and what the
analysis adds.

The error of an output is exactly a sum: of each place where the program departs from the exact function, times how that
place comes through. How it comes through is a number where the function is linear there, else an interval; of a filter
it is the impulse response. So the parts add up to a bound of their own, and what the certified one has beside it is the
analysis.
"""
from __future__ import annotations

from dataclasses import dataclass
from fractions import Fraction

from .bundles import Bundle
from .exact import NOTHING, minus, plus, scaled, times, word_value
from .inequalities import Judge, loss
from .linear import linear_of, responses
from .nodes import Node


@dataclass
class Push:
    """A place where the program departs from the exact function: what it is, at which node, and by how much."""
    label: str
    node: int
    ends: tuple


@dataclass
class Part:
    """What a place adds to an output's error."""
    label: str
    ends: tuple


@dataclass
class Budget:
    """The parts of an output's error, the certified error, and how the parts were found."""
    name: str
    parts: list
    certified: tuple
    how: str

    @property
    def side(self) -> int:
        """Which end the bound is: 1 the upper one, -1 the lower one."""
        return 1 if self.certified[1] >= -self.certified[0] else -1

    @property
    def bound(self) -> Fraction:
        return max(self.certified[1], -self.certified[0])

    def sizes(self) -> list:
        """Returns each part's label with what it adds at the bound's end, the greatest first, and last what the
        analysis adds."""
        merged = {}
        for part in self.parts:
            merged[part.label] = merged.get(part.label, 0) + (part.ends[1] if self.side > 0 else -part.ends[0])
        rows = sorted(((label, size) for label, size in merged.items() if size), key=lambda row: -row[1])
        return [*rows, ("the analysis itself", self.bound - sum(size for _, size in rows))]


def term(judge: Judge, n: int) -> str:
    node: Node = judge.nodes[n]
    text = node.term
    return f"{node.val} = {text}" if node.val else text


def pushes_of(bundle: Bundle, judge: Judge) -> list:
    """Returns all places where the program departs from the exact function in one row."""
    found = []
    for n, (node, code) in enumerate(zip(judge.nodes, bundle.codes)):
        unit = word_value(1, code.point)
        if node.op == "in":
            it = judge.made.inputs[n]
            found.append(Push(f"reading {it.name} down to 2^-{code.point}", n, (-unit, Fraction(0))))
            if it.off:
                found.append(Push(f"the declared error of {it.name}", n, (-it.off, it.off)))
        elif node.op == "const":
            found += literal_pushes(bundle, judge, n, word_value(code.numbers[0], code.point) - node.tree.value)
        elif node.op == "/":
            found.append(Push(f"rounding {term(judge, n)}", n, (-unit, unit)))
        else:
            total = NOTHING
            for sign, one in zip((1, -1 if node.op == "-" else 1), loss(code)):
                total = plus(total, scaled(sign, one))
            if any(total):
                found.append(Push(f"rounding {term(judge, n)}", n, total))
    return found


def machine(bundle, n):
    """Returns where the machine's value of a node lies."""
    return plus(bundle.lines[n].range, bundle.lines[n].error)


def exact(bundle, judge, n):
    """Returns where the exact value of a node lies: a literal's is known, others' are the certificate's."""
    node = judge.nodes[n]
    return (node.tree.value, node.tree.value) if node.op == "const" else bundle.lines[n].range


def literal_pushes(bundle, judge, n, off) -> list:
    """Returns what a literal's word that isn't the literal does, at each node that reads it."""
    if off == 0:
        return []
    label, found = f"the word of {term(judge, n)}", []
    for k, node in enumerate(judge.nodes):
        for place, operand in enumerate(node.operands):
            if operand != n:
                continue
            if node.op == "*":
                found.append(Push(label, k, scaled(off, machine(bundle, node.operands[1 - place]))))
            elif node.op == "/" and place == 1:
                below = machine(bundle, n)
                found.append(Push(label, k, scaled(-off, times(bundle.lines[k].range, (1 / below[1], 1 / below[0])))))
            elif node.op == "/":
                below = machine(bundle, node.operands[1])
                found.append(Push(label, k, scaled(off, (1 / below[1], 1 / below[0]))))
            else:
                sign = -1 if node.op == "neg" or node.op == "-" and place == 1 else 1
                found.append(Push(label, k, (sign * off, sign * off)))
    return found


def slopes_of(bundle: Bundle, judge: Judge, top: int) -> list:
    """Returns for each node how an error of it comes through to the node `top` within a row, as an interval."""
    slopes = [NOTHING] * len(judge.nodes)
    slopes[top] = (Fraction(1), Fraction(1))
    for n in range(top, -1, -1):
        node, here = judge.nodes[n], slopes[n]
        if not any(here) or not node.operands:
            continue
        if node.op == "*":
            a, b = node.operands
            # a'b' - ab is b(a' - a) + a'(b' - b); a literal is taken exactly, and what its word is off stands apart
            through_a = exact(bundle, judge, b)
            through_b = exact(bundle, judge, a) if judge.nodes[a].op == "const" else machine(bundle, a)
            slopes[a] = plus(slopes[a], times(here, through_a))
            slopes[b] = plus(slopes[b], times(here, through_b))
        elif node.op == "/":
            a, b = node.operands
            below = exact(bundle, judge, b) if judge.nodes[b].op == "const" else machine(bundle, b)
            one = (1 / below[1], 1 / below[0])
            slopes[a] = plus(slopes[a], times(here, one))
            slopes[b] = minus(slopes[b], times(here, times(bundle.lines[n].range, one)))
        else:
            first = node.operands[0]
            slopes[first] = plus(slopes[first], scaled(-1, here) if node.op == "neg" else here)
            if node.op in ("+", "-"):
                second = node.operands[1]
                slopes[second] = plus(slopes[second], here if node.op == "+" else scaled(-1, here))
    return slopes


def filter_parts(bundle, judge, pushes, direct, j):
    """Returns the parts of an output of a filter by impulse responses, or None where these don't settle or it isn't
    linear."""
    system = linear_of(judge.made)
    if system is None:
        return None
    first = len(bundle.codes) - bundle.states
    through = [slopes_of(bundle, judge, first + k) for k in range(bundle.states)]
    if any(slopes[push.node][0] != slopes[push.node][1] for slopes in [*through, direct] for push in pushes):
        return None
    columns = [[slopes[push.node][0] for slopes in through] for push in pushes]
    offs = [word_value(code.numbers[2], code.point) - state.start
            for code, state in zip(bundle.state_codes(), judge.made.states)]
    sums = responses(system.A, system.C[j],
                     columns + [[off if k == i else Fraction(0) for i in range(bundle.states)]
                                for k, off in enumerate(offs) if off])
    if not all(it.settled for it in sums):
        return None
    parts = []
    for push, total in zip(pushes, sums):
        low, high = push.ends
        later = total.up * low - total.down * high, total.up * high - total.down * low
        parts.append(Part(push.label, plus(scaled(direct[push.node][0], push.ends), later)))
    for total in sums[len(pushes):]:
        parts.append(Part("start words", (-total.size, total.size)))
    return parts


def budgets_of(bundle: Bundle, judge: Judge) -> list:
    """Returns the budget of each output."""
    pushes, found = pushes_of(bundle, judge), []
    for j in range(bundle.outputs):
        top = bundle.first_output + j
        direct, parts, how = slopes_of(bundle, judge, top), None, "by how each place comes through"
        if bundle.states:
            parts, how = filter_parts(bundle, judge, pushes, direct, j), "by impulse responses, over all rows"
        if parts is None:
            parts = [Part(push.label, times(direct[push.node], push.ends)) for push in pushes]
            if bundle.states:
                how = ("of one row, with what the states are off before it as parts of their own: it isn't linear in "
                       "its states")
                parts += [Part(f"what {it.name} is off before",
                               times(direct[bundle.inputs + k], bundle.lines[bundle.inputs + k].error))
                          for k, it in enumerate(judge.made.states)]
        found.append(Budget(judge.made.outputs[j].name, parts, bundle.lines[top].error, how))
    return found
