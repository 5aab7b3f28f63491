"""Exact numbers and how they are written: decimals, dyadics, intervals. All values are fractions."""
from __future__ import annotations

import re
from fractions import Fraction

DECIMAL = re.compile(r"([+-]?)(?:(\d+)(?:\.(\d*))?|\.(\d+))(?:[eE]([+-]?\d+))?", re.A)
MOST_DIGITS = 2 ** 62
MOST_PLACES = 18


def read_decimal(text: str):
    """Returns the number that a field of a row or a literal spells, or None where it spells none. Limits aren't looked
    at."""
    shape = DECIMAL.fullmatch(text)
    if not shape:
        return None
    sign, whole, places, bare, power = shape.groups()
    digits, places = (whole or ""), (places if bare is None else bare) or ""
    exponent = int(power or 0)
    if abs(exponent) > 10_000:
        value = Fraction(0) if not (digits + places).strip("0") else None
        return value if value is not None else Fraction(10) ** (10_000 if exponent > 0 else -10_000)
    value = Fraction(int(digits + places or "0")) * Fraction(10) ** (exponent - len(places))
    return -value if sign == "-" else value


def places_of(value: Fraction):
    """Returns the least count of decimal places that writes a number, or None where no count does."""
    rest, twos, fives = value.denominator, 0, 0
    while rest % 2 == 0:
        rest, twos = rest // 2, twos + 1
    while rest % 5 == 0:
        rest, fives = rest // 5, fives + 1
    return max(twos, fives) if rest == 1 else None


def fits_a_literal(value: Fraction) -> bool:
    """Returns whether a number is one that a source or a row may have: at most 18 places, and below 2^62 without its
    point."""
    places = places_of(value)
    return places is not None and places <= MOST_PLACES and abs(value) * 10 ** places < MOST_DIGITS


def as_decimal(value: Fraction) -> str:
    """Returns the decimal text of a number that has one, and else a fraction."""
    places = places_of(value)
    if places is None:
        return f"{value.numerator}/{value.denominator}"
    digits = str(abs(value.numerator) * 10 ** places // value.denominator).rjust(places + 1, "0")
    return ("-" if value < 0 else "") + (digits if places == 0 else f"{digits[:-places]}.{digits[-places:]}")


def shown(value: Fraction, digits: int = 4, up=None) -> str:
    """Returns a number to so many digits, for a reader. `up` rounds away from zero (True), toward it (False), or to the
    nearest (None)."""
    if value == 0:
        return "0"
    size, power = abs(value), 0
    power = len(str(size.numerator)) - len(str(size.denominator))
    if Fraction(10) ** power > size:
        power -= 1
    scaled = size / Fraction(10) ** (power - digits + 1)
    low = scaled.numerator // scaled.denominator
    exactly = low == scaled
    whole = low if exactly or up is False else low + 1 if up else round(scaled)
    value_shown = Fraction(whole) * Fraction(10) ** (power - digits + 1)
    sign = "-" if value < 0 else ""
    if -5 <= power < 10:
        return sign + as_decimal(value_shown)
    text = str(whole)
    power = power + (len(text) - digits)
    text = text.rstrip("0") or "0"
    return f"{sign}{text[0]}{'.' + text[1:] if len(text) > 1 else ''}e{power}"


def at_most(value: Fraction) -> str:
    """Returns a decimal of four digits that isn't below a number that isn't negative."""
    return shown(value, 4, True)


def dyadic(value: Fraction) -> str:
    """Returns a number as `fixd` prints bounds: `m`, or `m/2^e`."""
    places = value.denominator.bit_length() - 1
    return f"{value.numerator}/2^{places}" if places else str(value.numerator)


def read_bound(text: str) -> Fraction:
    """Returns the number of `m` or `m/2^e`."""
    top, _, places = text.partition("/2^")
    return Fraction(int(top), 2 ** int(places or 0))


def read_pair(text: str) -> Fraction:
    """Returns the number of `m:e`, as certificates write dyadics."""
    top, _, places = text.partition(":")
    return Fraction(int(top), 2 ** int(places)) if int(places) >= 0 else Fraction(int(top) * 2 ** -int(places))


def floor_at(value: Fraction, point: int) -> int:
    """Returns the floor of a number times 2^point: the word that it is read to."""
    scaled = value * Fraction(2) ** point
    return scaled.numerator // scaled.denominator


def word_value(word: int, point: int) -> Fraction:
    """Returns what a word at a point stands for."""
    return word * Fraction(2) ** -point


def plus(first, second):
    """Returns the sum of two intervals."""
    return first[0] + second[0], first[1] + second[1]


def minus(first, second):
    """Returns the difference of two intervals."""
    return first[0] - second[1], first[1] - second[0]


def times(first, second):
    """Returns the product of two intervals."""
    ends = [x * y for x in first for y in second]
    return min(ends), max(ends)


def scaled(number, interval):
    """Returns a number times an interval."""
    ends = number * interval[0], number * interval[1]
    return min(ends), max(ends)


def greatest(interval):
    """Returns the greatest size of a number in an interval."""
    return max(abs(interval[0]), abs(interval[1]))


NOTHING = (Fraction(0), Fraction(0))
