"""Polynomials by their coefficients from the highest power down, and their roots in whole numbers."""
from __future__ import annotations

from cmath import rect
from dataclasses import dataclass
from fractions import Fraction
from math import pi

BITS = 200
ONE = 1 << BITS
# what roots are looked for at: zeros that a design tool left near together are told apart by the last of these bits
DEEP = 800
UNIT = 1 << DEEP


def whole(x: Fraction) -> int:
    """Returns a number in units of 2^-BITS, rounded down."""
    return (x.numerator << BITS) // x.denominator


def trimmed(poly: list) -> list:
    k = next((k for k, x in enumerate(poly) if x), len(poly))
    return poly[k:]


def divided(top: list, below: list):
    """Returns quotient and rest of polynomials."""
    rest, found = list(top), []
    while len(rest) >= len(below):
        factor = rest[0] / below[0]
        found.append(factor)
        rest = [x - factor * (below[k] if k < len(below) else 0) for k, x in enumerate(rest)][1:]
    return found, trimmed(rest)


def common_divisor(first: list, second: list) -> list:
    while second:
        first, second = second, divided(first, second)[1]
        second = [x / second[0] for x in second] if second else second
    return [x / first[0] for x in first]


def derivative(poly: list) -> list:
    size = len(poly) - 1
    return [x * (size - k) for k, x in enumerate(poly[:-1])]


def roots_of(poly: list) -> list:
    """Returns the roots of a polynomial as pairs of a Root and how often it is one: exact in how often, and to some 50
    digits in where."""
    poly, found = trimmed(poly), []
    zeros = 0
    while len(poly) > 1 and poly[-1] == 0:
        poly, zeros = poly[:-1], zeros + 1
    if zeros:
        found.append((Root(0, 0), zeros))
    if len(poly) < 2:
        return found
    many, shared = 1, common_divisor(poly, derivative(poly)) if len(poly) > 2 else [Fraction(1)]
    plain = divided(poly, shared)[0]
    while len(plain) > 1:
        both = common_divisor(plain, shared) if len(shared) > 1 else [Fraction(1)]
        alone = divided(plain, both)[0]
        found += [(root, many) for root in simple_roots(alone)]
        plain, many = both, many + 1
        shared = divided(shared, both)[0]
    return found


@dataclass(frozen=True)
class Root:
    """A complex number in units of 2^-BITS."""
    re: int
    im: int

    @property
    def real(self) -> Fraction:
        return Fraction(self.re, ONE)

    @property
    def imag(self) -> Fraction:
        return Fraction(self.im, ONE)

    def size(self) -> float:
        return float(Fraction(self.re * self.re + self.im * self.im, ONE * ONE)) ** 0.5

    def below_one(self) -> Fraction:
        """Returns 1 less the square of the size."""
        return 1 - Fraction(self.re * self.re + self.im * self.im, ONE * ONE)


def times(a, b):
    return (a[0] * b[0] - a[1] * b[1]) >> DEEP, (a[0] * b[1] + a[1] * b[0]) >> DEEP


def over(a, b):
    size = b[0] * b[0] + b[1] * b[1]
    return ((a[0] * b[0] + a[1] * b[1]) << DEEP) // size, ((a[1] * b[0] - a[0] * b[1]) << DEEP) // size


def simple_roots(poly: list) -> list:
    """Returns the roots of a polynomial without double ones, by Aberth's iteration in whole numbers."""
    size = len(poly) - 1
    poly = [x / poly[0] for x in poly]
    if size == 0:
        return []
    if size == 1:
        return [Root(int(-poly[1] * ONE), 0)]
    values, slopes = ([(int(x * UNIT), 0) for x in one] for one in (poly, derivative(poly)))
    points = [rect(0.8, 2 * pi * k / size + 0.4) for k in range(size)]
    now = [(int(p.real * 2 ** 50) << (DEEP - 50), int(p.imag * 2 ** 50) << (DEEP - 50)) for p in points]
    for _ in range(600):
        moved = 0
        for k, z in enumerate(now):
            step = step_at(values, slopes, now, k)
            now[k] = z[0] - step[0], z[1] - step[1]
            moved = max(moved, abs(step[0]), abs(step[1]))
        if moved >> (DEEP - BITS - 20) == 0:
            break
    return paired([Root(*(part >> (DEEP - BITS) for part in z)) for z in now])


def step_at(values: list, slopes: list, now: list, k: int):
    """Returns by how much root number k of those that are known so far is off, as Aberth has it."""
    value, slope = valued(values, now[k]), valued(slopes, now[k])
    if not any(value) or not any(slope):
        return 0, 0
    newton, pull = over(value, slope), (0, 0)
    for other in now:
        apart = now[k][0] - other[0], now[k][1] - other[1]
        if any(apart):
            one = over((UNIT, 0), apart)
            pull = pull[0] + one[0], pull[1] + one[1]
    below = times(newton, pull)
    below = UNIT - below[0], -below[1]
    return over(newton, below) if any(below) else newton


def valued(poly: list, z):
    total = (0, 0)
    for x in poly:
        total = times(total, z)
        total = total[0] + x[0], total[1] + x[1]
    return total


def paired(found: list) -> list:
    """Returns the roots with those that are real made so, and pairs made exact mirrors of each other."""
    near = ONE >> 60
    out = [Root(z.re, 0) if abs(z.im) < near else z for z in found]
    upper = [z for z in out if z.im > 0]
    return [z for z in out if z.im == 0] + [w for z in upper for w in (z, Root(z.re, -z.im))]
