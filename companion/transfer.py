"""Transfer functions of linear systems in fractions, their parts by poles, and how far two systems' answers can be
apart, as a proved bound."""
from __future__ import annotations

from dataclasses import dataclass
from fractions import Fraction
from math import ceil

from .linear import Linear, characteristic
from .polynomials import BITS, ONE, Root, common_divisor, divided, roots_of, trimmed, whole

DEEP = 400
UNIT = 1 << DEEP
# a response is summed until the rest is bounded by so little, in units of 2^-DEEP, or for so many steps
FADED, LONGEST = UNIT // 10 ** 30, 1 << 19


@dataclass
class Transfer:
    """What comes through: for output j and column i the polynomial `tops[j][i]` over `below`, and what comes through at
    once."""
    tops: list
    below: list
    direct: list

    @property
    def order(self) -> int:
        return len(self.below) - 1


def transfer_of(system: Linear, columns: list) -> Transfer:
    """Returns C (zI - A)^-1 b for each column b, in lowest terms over all of them; `columns` stand as lists over the
    states."""
    size, below = system.states, characteristic(system.A)
    tops = [[[] for _ in columns] for _ in system.C]
    images = [list(column) for column in columns]
    for k in range(size):
        # the adjoint's coefficient of z^(size-1-k) is A times the one before it, and `below[k]` times the identity
        for i, image in enumerate(images):
            for j, row in enumerate(system.C):
                tops[j][i].append(sum((x * y for x, y in zip(row, image) if x), Fraction(0)))
        if k + 1 < size:
            images = [[sum((x * image[m] for m, x in enumerate(row) if x), Fraction(0)) + below[k + 1] * column[n]
                       for n, row in enumerate(system.A)]
                      for image, column in zip(images, columns)]
    shared = below
    for row in tops:
        for top in row:
            if any(top):
                shared = common_divisor(shared, trimmed(top))
    if len(shared) > 1 and any(any(top) for row in tops for top in row):
        below = divided(below, shared)[0]
        tops = [[divided(trimmed(top), shared)[0] if any(top) else [Fraction(0)] for top in row] for row in tops]
    return Transfer(tops, below, system.D)


def valued(poly: list, root: Root):
    """Returns a polynomial's value at a root, as a pair of fractions rounded to 2^-BITS."""
    re, im = 0, 0
    for x in poly:
        re, im = ((re * root.re - im * root.im) >> BITS) + whole(x), (re * root.im + im * root.re) >> BITS
    return Fraction(re, ONE), Fraction(im, ONE)


def over(a, b):
    size = b[0] * b[0] + b[1] * b[1]
    return (a[0] * b[0] + a[1] * b[1]) / size, (a[1] * b[0] - a[0] * b[1]) / size


def times(a, b):
    return a[0] * b[0] - a[1] * b[1], a[0] * b[1] + a[1] * b[0]


def poles(transfer: Transfer) -> list:
    """Returns the poles with how often each is one."""
    return roots_of(transfer.below)


def residues(transfer: Transfer, root: Root) -> list:
    """Returns the residue of each output and column at a simple pole."""
    size = transfer.order
    slope = valued([x * (size - k) for k, x in enumerate(transfer.below[:-1])], root)
    return [[over(valued(top, root), slope) for top in row] for row in transfer.tops]


# how far apart


def product(a, b):
    return [[sum(x * b[k][j] for k, x in enumerate(row) if x) >> DEEP for j in range(len(b[0]))] for row in a]


def norm(a, off=0):
    """Returns a bound of the greatest sum of a row's sizes, in units of 2^-DEEP; each entry may be off by `off`."""
    return max((sum(abs(x) + off for x in row) for row in a), default=0)


def growth(A: list):
    """Returns a bound of the sum over t of the norm of A^t, a whole number, or None where none is found.

    A^(2^k) is squared in whole numbers, with what each entry may be off, until its norm is below 1/2.
    """
    size = len(A)
    power = [[(x.numerator << DEEP) // x.denominator for x in row] for row in A]
    off, total = 1, Fraction(1)
    for _ in range(40):
        now = Fraction(norm(power, off), UNIT)
        if now < Fraction(1, 2):
            return ceil(total / (1 - now))
        total *= 1 + now
        top = norm(power, off)
        if top >> (DEEP + 200):
            return None
        power = product(power, power)
        off = size + 1 + ((2 * off * top * size) >> DEEP)
    return None


def sum_of_sizes(A: list, row: list, column: list) -> Fraction:
    """Returns a bound of the sum over t of |row A^t column| that isn't below it, or None where none is found."""
    total = growth(A)
    if total is None:
        return None
    size = len(A)
    turned = [[(k, (line[j].numerator << DEEP) // line[j].denominator) for k, line in enumerate(A) if line[j]]
              for j in range(size)]
    push = [(x.numerator << DEEP) // x.denominator for x in column]
    image = [(x.numerator << DEEP) // x.denominator for x in row]
    widest = ceil(max([abs(x) for x in column], default=Fraction(0))) + 1
    # what an image is off in all: each step rounds each entry by less than size + 1 units, and that comes through by
    # `total`
    off = Fraction(size * (size + 2), UNIT) * total * (sum(abs(x) for x in row) + 1)
    found, steps = 0, 0
    while steps < LONGEST:
        found += abs(sum(x * y for x, y in zip(image, push)) >> DEEP) + 2
        image = [sum(image[k] * x for k, x in line) >> DEEP for line in turned]
        steps += 1
        if steps % 16 == 0 and sum(map(abs, image)) * total * widest < FADED:
            break
    tail = (Fraction(sum(map(abs, image)), UNIT) + size * off) * total * widest
    return Fraction(found, UNIT) + steps * size * off * widest + tail


def is_same(first: Linear, second: Linear, pulses: tuple) -> bool:
    """Returns whether two systems give exactly the same answers to the same inputs."""
    def all_of(system, start):
        if not system.states:
            return [Fraction(1)], [[[]] * (len(system.D[0]) + 1) for _ in system.C], system.D
        columns = [[row[i] for row in system.B] for i in range(len(system.D[0]))]
        found = transfer_of(system, [*columns, start])
        return found.below, [[trimmed(top) for top in row] for row in found.tops], system.D

    return all_of(first, list(pulses[0])) == all_of(second, list(pulses[1]))


def difference(first: Linear, second: Linear, pulses: tuple, j: int, i: int) -> Fraction:
    """Returns a bound of the sum over t of how far two impulse responses are apart, of output j and input i; i of -1
    are the starts in `pulses`."""
    a, b = first.states, second.states
    joined = [row + [Fraction(0)] * b for row in first.A] + [[Fraction(0)] * a + row for row in second.A]
    row = first.C[j] + [-x for x in second.C[j]]
    column = [*pulses[0], *pulses[1]] if i < 0 else [line[i] for line in first.B] + [line[i] for line in second.B]
    at_once = Fraction(0) if i < 0 else abs(first.D[j][i] - second.D[j][i])
    if not joined:
        return at_once
    later = sum_of_sizes(joined, row, column)
    return None if later is None else at_once + later
