"""The programs that a check tries, and the numbers that they print."""
import os
import re
from fractions import Fraction

from crates import TOP

BUILT = ["crates/fx_cli/out/fx_cli", "build/fixd"]
BUILT_C = ["crates/fx_c_cli/out/fx_c_cli", "build/fixd-c"]


def is_program(path):
    return os.path.isfile(path) and os.access(path, os.X_OK)


def first_of(places):
    return next((path for path in (os.path.join(TOP, it) for it in places) if is_program(path)), None)


def program_of():
    """Returns the path of the program: the one that FIXD names, else the one that the gate proved and built, else
    build/fixd; or None."""
    named = os.environ.get("FIXD")
    if named:
        return os.path.abspath(named) if is_program(named) else None
    return first_of(BUILT)


def c_program_of(program):
    """Returns the path of `fixd-c`: the one that FIXD_C names, else of a built `fixd` the one that the gate proved and
    built, or else build/fixd-c, and of any other the one beside it; or None."""
    named, program = os.environ.get("FIXD_C"), os.path.abspath(program)
    if named:
        return os.path.abspath(named) if is_program(named) else None
    if program in [os.path.join(TOP, it) for it in BUILT]:
        return first_of(BUILT_C)
    return first_of([os.path.join(os.path.dirname(program), "fixd-c")])


def number(text):
    """Returns the value of a bound, as `check` prints it, or None."""
    shown = re.fullmatch(r"(\d+)(?:/2\^(\d+))?", text)
    return Fraction(int(shown[1]), 2 ** int(shown[2] or 0)) if shown else None


def spelled(value):
    """Returns how a bound is printed: `m`, or `m/2^e` where e isn't 0 in lowest terms."""
    places = value.denominator.bit_length() - 1
    return f"{value.numerator}/2^{places}" if places else str(value.numerator)
