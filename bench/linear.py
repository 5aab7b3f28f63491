"""How far what is linear in the states of a function may reach. For bench/states.py, states_rows.py and driven.py.

The matrices are those of companion/linear.py, exact fractions. A reach is summed in whole numbers of its unit, so that
what is lost on the way stays far below the figures that are printed.
"""
import os
import sys
from dataclasses import dataclass, field
from fractions import Fraction

sys.path.insert(0, os.path.join(os.path.dirname(os.path.abspath(__file__)), ".."))
from companion import linear
from companion.exact import NOTHING, plus, scaled
from companion.polynomials import BITS, ONE, whole
from companion.sources import functions_of

LONGEST = 1 << 21
SETTLED = 30


@dataclass
class Linear(linear.Linear):
    """A linear function with the ranges of its inputs, of which the last one is always 1, and the starts of its
    states."""
    ranges: list
    start: list
    spans: dict = field(default_factory=dict)

    def drives(self):
        """Returns what may push the states anew at each step: a column of B, and where its input lies."""
        return [([row[i] for row in self.B], ends) for i, ends in enumerate(self.ranges)]

    def span(self, of_states, of_inputs):
        """Returns the least interval that holds this sum of states and inputs at all times, or None where there is
        none."""
        wanted = tuple(of_states), tuple(of_inputs)
        if wanted not in self.spans:
            ends = reach(of_states, self.A, self.drives(), self.start)
            self.spans[wanted] = ends and plus(ends, direct(of_inputs, self.ranges))
        return self.spans[wanted]


def linear_of(text):
    """Returns the first function of a source with its matrices, or None where it isn't linear."""
    made = functions_of(text.encode())[0]
    found = linear.linear_of(made)
    ranges = [(it.lo, it.hi) for it in made.inputs] + [(Fraction(1), Fraction(1))]
    return found and Linear(found.A, found.B, found.C, found.D, ranges, [it.start for it in made.states])


def direct(factors, intervals):
    """Returns the sum of intervals, each times its factor."""
    ends = NOTHING
    for factor, interval in zip(factors, intervals):
        if factor:
            ends = plus(ends, scaled(factor, interval))
    return ends


def sum_of(pairs, row):
    return sum(row[k] * x for k, x in pairs) >> BITS


def reach(row, A, drives, start):
    """Returns the least interval that holds `row * states` at all times, or None where what drives it doesn't settle.

    `drives` has for each source what a unit of it adds to each next state, and the interval in which it lies anew at
    each step. The sum over the images `row * A^t` ends where the second half of the steps so far brought less than
    2^-30 of all.
    """
    columns = [[(k, whole(line[j])) for k, line in enumerate(A) if line[j]] for j in range(len(A))]
    pushes = [([(k, whole(x)) for k, x in enumerate(column) if x], (whole(lo), whole(hi)))
              for column, (lo, hi) in drives if any(column)]
    begins = [(k, whole(x)) for k, x in enumerate(start) if x]
    image = [whole(x) for x in row]
    low = high = 0
    least = most = sum_of(begins, image)
    brought, before, step, mark = 0, 0, 0, 64
    while any(image):
        at = sum_of(begins, image)
        least, most = min(least, low + at), max(most, high + at)
        brought += abs(at)
        for column, ends in pushes:
            below, above = scaled(sum_of(column, image), ends)
            low, high = low + (below >> BITS), high - (-above >> BITS)
            brought += max(abs(below), abs(above)) >> BITS
        image = [sum_of(column, image) for column in columns]
        step += 1
        if step == mark:
            if (brought - before) << SETTLED <= brought:
                break
            if step >= LONGEST or max(map(abs, image)) >> (BITS + 64):
                return None
            before, mark = brought, 2 * mark
    return Fraction(min(least, low), ONE), Fraction(max(most, high), ONE)
