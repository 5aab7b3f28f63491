"""What the reading of inputs alone costs: a bound that no program of a width can be better than.

A program knows of an input only its word, which is the floor at some point. So it answers alike for all inputs of a
cell, a side of which is one unit of the input's finest point, and where the exact output differs by d over a cell,
half of d is lost at least, however it computes and rounds. The worst cell is sought among corners of the ranges and
random ones, and by changing the worst of these; it may be missed, so that the limit may be greater than what is
found here, and never is smaller. Cells and outputs are exact.
"""
import itertools
import math
import random
from fractions import Fraction

from sources import evaluator

POINTS = range(62, -65, -1)
CORNERS, DRAWN, CHANGES = 512, 100, 200


def finest_point(ends, width):
    """The greatest point at which a certificate can show that the input's word fits, its error one unit down."""
    most = 2 ** (width - 1)
    lo, hi = ends["lo"] - ends["err"], ends["hi"] + ends["err"]
    scales = ((point, Fraction(2) ** point) for point in POINTS)
    return next((point for point, scale in scales if -most <= lo * scale - 1 and hi * scale <= most - 1), None)


class Cells:
    """The cells of a function's inputs, each a list of words."""

    def __init__(self, function, width):
        self.exact = evaluator(function)
        self.ends = list(function.inputs.values())
        self.units = [Fraction(2) ** -finest_point(ends, width) for ends in self.ends]
        self.words = [self.words_of(ends, unit) for ends, unit in zip(self.ends, self.units)]

    @staticmethod
    def words_of(ends, unit):
        """The first and the last word that inputs in range are read as; a cell of one point is left out."""
        first, last = math.floor((ends["lo"] - ends["err"]) / unit), math.ceil((ends["hi"] + ends["err"]) / unit) - 1
        return first, max(first, last)

    def sides(self, words):
        """The lower and the upper end of each true input that is read as these words."""
        for word, unit, ends in zip(words, self.units, self.ends):
            yield max(ends["lo"], word * unit - ends["err"]), min(ends["hi"], (word + 1) * unit + ends["err"])

    def lost(self, words):
        """Half of what each output differs by between two corners of a cell, which its slopes choose."""
        sides = list(self.sides(words))
        low = [lower for lower, _ in sides]
        at_low = self.exact(*low)
        beside = [self.exact(*low[:i], upper, *low[i + 1:]) for i, (_, upper) in enumerate(sides)]
        found = []
        for j, _ in enumerate(at_low):
            rises = [outputs[j] > at_low[j] for outputs in beside]
            top, bottom = ([side[rise == upward] for side, rise in zip(sides, rises)] for upward in (True, False))
            found.append((self.exact(*top)[j] - self.exact(*bottom)[j]) / 2)
        return found

    def drawn(self, draw):
        return [draw.randint(*between) for between in self.words]

    def changed(self, words, draw):
        """A cell with one input's word drawn anew."""
        i = draw.randrange(len(words))
        return [*words[:i], draw.randint(*self.words[i]), *words[i + 1:]]


def reading_limits(function, width):
    """For each output a bound that no certified program of this width is below; None where an input has no point."""
    if any(finest_point(ends, width) is None for ends in function.inputs.values()):
        return None
    cells, draw = Cells(function, width), random.Random(1)
    tried = [list(words) for words in itertools.islice(itertools.product(*cells.words), CORNERS)]
    tried += [cells.drawn(draw) for _ in range(DRAWN)]
    worst = [max((cells.lost(words)[j], words) for words in tried) for j, _ in enumerate(function.results)]
    for j, _ in enumerate(worst):
        for _ in range(CHANGES):
            words = cells.changed(worst[j][1], draw)
            worst[j] = max(worst[j], (cells.lost(words)[j], words))
    return [lost for lost, _ in worst]
