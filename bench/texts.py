"""Bundles whose texts are tried, each with rows in range and the page that `fixd run` prints of them.

For bench/rust.py, bench/c.py, bench/sizes.py and bench/device.py. The rows are drawn: the ends of the ranges, with the
declared errors, are among them, and stretches of one row that drive a state as far as it goes.
"""
import glob
import os
import random
import subprocess
import sys
from dataclasses import dataclass
from fractions import Fraction

TOP = os.path.dirname(os.path.dirname(os.path.abspath(__file__)))
sys.path[:0] = [TOP, os.path.join(TOP, "tools")]

import random_bundles
from built import c_program_of, program_of
from companion import bundles
from companion.exact import floor_at
from companion.fixd import NOT_FOUND, WIDTHS, Fixd, Trouble
from companion.functions import Function
from companion.sources import function_of, functions_of
from stored import stored_cases

EXAMPLES = os.path.join(TOP, "examples")
ROWS = 1000


class Failed(Exception):
    """A compiler or a program that doesn't end as it should, or a difference."""


@dataclass(frozen=True)
class Input:
    """An input: its name, the ends of what may be given for it, and its point."""
    name: str
    low: Fraction
    high: Fraction
    point: int


@dataclass
class Case:
    """A bundle with its function, the width of each code, its rows as decimals, their words, and the page that `run`
    prints of them."""
    path: str
    bundle: bundles.Bundle
    function: Function
    inputs: list
    widths: list
    rows: list
    words: bytes
    page: list

    @property
    def starts(self):
        """The start words."""
        return [code.numbers[2] for code in self.bundle.state_codes()]

    @property
    def given(self):
        """The rows as a file for `fixd`."""
        return "\n".join([",".join(one.name for one in self.inputs), *self.rows, ""]).encode()


# programs


def ended(command, **options):
    """Returns how a command has ended, which has to be with 0."""
    done = subprocess.run(command, capture_output=True, check=False, **options)
    if done.returncode:
        raise Failed(f"{' '.join(command)} ends with {done.returncode}: {done.stderr.decode(errors='replace')[:2000]}")
    return done


def written(folder, name, text):
    """Writes a file of this name, and returns its path."""
    path = os.path.join(folder, name)
    with open(path, "w", encoding="utf-8", newline="") as file:
        file.write(text)
    return path


def add_programs(parser, with_c):
    """Adds the words that name the programs."""
    parser.add_argument("--fixd", metavar="PROGRAM", default=program_of(),
                        help="the program; without it the one that FIXD names, or else the built one")
    if with_c:
        parser.add_argument("--fixd-c", metavar="PROGRAM",
                            help="the one that prints C; without it that of FIXD_C, or else the one beside fixd")


def take_programs(parser, given):
    """Puts the programs in the place of their names, or ends the script where one isn't there."""
    if not given.fixd:
        parser.error("no program is built: make run, or name one by --fixd")
    if "fixd_c" in given:
        given.fixd_c = given.fixd_c or c_program_of(given.fixd)
        if not given.fixd_c:
            parser.error("no program that prints C is built: make build/fixd-c, or name one by --fixd-c")
        given.fixd_c = os.path.abspath(given.fixd_c)
    given.fixd = Fixd(os.path.abspath(given.fixd))


# rows in range


def decimal(digits, places):
    """The text of `digits / 10^places`."""
    text = str(abs(digits)).rjust(places + 1, "0")
    return ("-" if digits < 0 else "") + (text if places == 0 else f"{text[:-places]}.{text[-places:]}")


def grid_of(one):
    """Returns places, and the least and the greatest number of so many places in an input's range."""
    for places in range(18, -1, -1):
        least = -(-one.low.numerator * 10 ** places // one.low.denominator)
        most = one.high.numerator * 10 ** places // one.high.denominator
        if least <= most and max(abs(least), abs(most)) < 2 ** 62:
            return places, least, most
    raise Failed(f"no decimal lies in the range of {one.name}")


def values(draw, grids):
    """One row: at an end, beside one, of few places, or anywhere."""
    for places, least, most in grids:
        kind = draw.random()
        digits = draw.randint(least, most)
        if kind < 0.3:
            digits = draw.choice([least, most])
        elif kind < 0.4:
            digits = draw.choice([min(least + 1, most), max(most - 1, least)])
        elif kind < 0.7:
            step = 10 ** max(0, places - draw.randrange(1, 4))
            digits = min(max(digits // step * step, least), most)
        yield digits


def rows_of(draw, inputs):
    """Returns rows as decimals, and their words."""
    grids, rows, words = [grid_of(one) for one in inputs], [], []
    while len(rows) < ROWS:
        row = list(values(draw, grids))
        for _ in range(draw.choice([1] * 12 + [5, 40])):
            rows.append(",".join(decimal(digits, places) for digits, (places, _, _) in zip(row, grids)))
            words += [floor_of(digits, places, one.point)
                      for digits, (places, _, _), one in zip(row, grids, inputs)]
    return rows[:ROWS], b"".join(word.to_bytes(8, "little", signed=True) for word in words[:ROWS * len(inputs)])


def floor_of(digits, places, point):
    return (digits << point) // 10 ** places if point >= 0 else digits // (10 ** places << -point)


def words_in(data):
    """Returns the words of these bytes, eight each, the least first."""
    return [int.from_bytes(data[at:at + 8], "little", signed=True) for at in range(0, len(data), 8)]


# bundles


def example_bundles():
    return sorted(glob.glob(os.path.join(EXAMPLES, "**", "*.bundle"), recursive=True))


def case_bundles(fixd, folder):
    """Yields the bundles of cases/ that are accepted, each once."""
    seen = set()
    for case in stored_cases():
        for data in case.files.values():
            if data in seen or not bundles.is_bundle(data):
                continue
            seen.add(data)
            at = put(folder, f"stored{len(seen)}", data)
            if fixd.check(at).status == 0:
                yield at


def found_bundles(fixd, folder):
    """Yields what `synth` finds, at 16, 32 and 64 bits and with both roundings, for the examples without bundles."""
    for path in sorted(glob.glob(os.path.join(EXAMPLES, "**", "*.fixd"), recursive=True)):
        if os.path.exists(path.removesuffix(".fixd") + ".bundle"):
            continue
        with open(path, "rb") as file:
            functions = functions_of(file.read())
        for name in [function.name for function in functions]:
            for width in (16, 32, 64):
                for rounding in ("floor", "nearest"):
                    ran = fixd.synth(path, width, name, rounding, tries=1)
                    if ran.status == 0:
                        yield put(folder, f"{name}.{width}.{rounding}", ran.output)
                    elif ran.status != NOT_FOUND:
                        raise Failed(f"synth of {name} in {path}: {ran.line}")


def drawn_bundles(fixd, folder, count, seed):
    """Yields so many bundles that are made at random and accepted."""
    made = 0
    while made < count:
        width, version = WIDTHS[made % 8], 1 + made // 8 % 2
        text = random_bundles.bundle(random.Random(seed), width, version)
        seed += 1
        if text is None:
            continue
        path = put(folder, f"random{seed - 1}.{width}.{version}", text.encode())
        if fixd.check(path).status == 0:
            made += 1
            yield path


def put(folder, name, data):
    path = os.path.join(folder, name + ".bundle")
    with open(path, "wb") as file:
        file.write(data)
    return path


def case_of(fixd, path):
    """Returns a bundle's case."""
    with open(path, "rb") as file:
        bundle = bundles.read(file.read(), path)
    function = function_of(bundle.source, bundle.name)
    inputs = [Input(one.name, one.lo - one.off, one.hi + one.off, code.point)
              for one, code in zip(function.inputs, bundle.input_codes())]
    lines = fixd.printed("widths", path).decode().splitlines()
    widths = [int(line.split()[2]) for line in lines[:len(bundle.codes)]]
    case = Case(path, bundle, function, inputs, widths, *rows_of(random.Random(os.path.basename(path)), inputs), [])
    case.page = fixd.printed("run", path, rows=case.given).decode().splitlines()
    return case


# what is compared


def shown(word, point):
    """The exact decimal of `word / 2^point`, as `run` prints it."""
    if point <= 0:
        return str(word << -point)
    whole, rest = divmod(abs(word), 2 ** point)
    digits = str(rest * 5 ** point).rjust(point, "0").rstrip("0")
    return ("-" if word < 0 else "") + str(whole) + ("." + digits if digits else "")


def page_of(case, data):
    """The page of outputs that are given as words with the next states behind them."""
    points = case.bundle.output_points()
    count = len(points) + case.bundle.states
    words = words_in(data)
    yield ",".join(f"out{j + 1}" for j in range(len(points)))
    for at in range(0, len(words), count):
        yield ",".join(shown(word, point) for word, point in zip(words[at:], points))
