"""fixd-tools device BUNDLE --to DIR: what a device needs beside the text of `fixd rust` or of `fixd-c`."""
from __future__ import annotations

import os
import random
import re
import shutil
import stat
import subprocess
from dataclasses import dataclass
from fractions import Fraction
from math import lcm
from pathlib import Path

from . import device_c, device_rust
from .exact import as_decimal, dyadic, floor_at
from .explain_rows import values_of
from .fixd import Fixd, Trouble, find, progress, readable
from .show import accepted

HELP = "a crate without std, or a pair of C files, for a device, with a test"
DESCRIPTION = """Writes into DIR the program of an accepted bundle as Rust ('fixd rust') or as C ('fixd-c'), and
around it: points, start words, ranges and bounds as constants, functions that make a word of a converter's reading or
of a decimal and hold it to the range, reset and step over one struct, rows with the answers of 'fixd run' as a test
on this machine and, by a script, on an emulated Cortex-M0 and M4, and a page that says what is proved of it and what
isn't."""


def add_to(parser) -> None:
    """Adds this subcommand's words."""
    parser.add_argument("bundle", metavar="BUNDLE")
    parser.add_argument("--to", required=True, metavar="DIR",
                        help="the folder that is written; it has to be new or empty, or one that this wrote before")
    parser.add_argument("--language", choices=["rust", "c"], default="rust", help="rust (default) or c")
    parser.add_argument("--rows", metavar="ROWS",
                        help="rows of the test, as a file for 'fixd run' (default: 1,000 rows at random, with the ends "
                             "of each range)")
    parser.add_argument("--count", type=int, default=1000, metavar="N", help="how many rows at random (default: 1000)")
    parser.add_argument("--converter", action="append", default=[], metavar="INPUT=LOW:HIGH:STEPS",
                        help="the converter before an input: reading 0 is the value LOW, reading STEPS is HIGH "
                             "(default: the input's range in 4096 steps)")
    parser.add_argument("--fixd-c", metavar="PROGRAM",
                        help="the program that prints C (default: the one that FIXD_C names, else fixd-c beside fixd, "
                             "else on PATH)")


# what rows may take of an emulated processor's memory, in bytes
ROOM = 160_000


@dataclass
class Input:
    """An input on a device: its words' ends, and its converter."""
    name: str
    point: int
    least: int
    greatest: int
    text: str
    low: Fraction
    high: Fraction
    steps: int
    ends: tuple
    label: str = ""

    def reading(self) -> tuple:
        """Returns whole numbers a, b and d: the word of a reading r is the floor of (a + b * r) / d."""
        unit = Fraction(2) ** self.point
        base, slope = self.low * unit, (self.high - self.low) / self.steps * unit
        d = lcm(base.denominator, slope.denominator)
        return int(base * d), int(slope * d), d

    def readings(self) -> list:
        """Returns some readings, the converter's ends and some beyond among them, each with the word that it has to
        give."""
        found = []
        for k in range(-2, 43):
            reading = self.steps * k // 40
            value = floor_at(self.low + (self.high - self.low) * reading / self.steps, self.point)
            if abs(reading) < 2 ** 15:
                found.append((reading, min(max(value, self.least), self.greatest)))
        return found


@dataclass
class Output:
    """An output on a device."""
    name: str
    point: int
    bound: Fraction
    label: str = ""


@dataclass
class Plan:
    """What both languages write of a bundle."""
    name: str
    width: int
    inputs: list
    states: list
    outputs: list
    rows: list
    values: list
    header: str
    csv: bytes
    answers: bytes
    program: str

    @property
    def word(self) -> int:
        """How many bits the type has that holds each word of the program."""
        return next(bits for bits in (8, 16, 32, 64) if self.width <= bits)


def converters(words: list, made) -> dict:
    """Returns the converters that are named."""
    found, known = {}, {it.name for it in made.inputs}
    for text in words:
        shape = re.fullmatch(r"(\w+)=(-?[\d.]+):(-?[\d.]+):(\d+)", text)
        if not shape or int(shape[4]) < 1 or shape[1] not in known:
            raise Trouble(f"--converter {text}: it is INPUT=LOW:HIGH:STEPS, as {made.inputs[0].name}=-1:1:4096; inputs "
                          f"are {', '.join(sorted(known))}")
        found[shape[1]] = Fraction(shape[2]), Fraction(shape[3]), int(shape[4])
    return found


def plan_of(fixd: Fixd, words) -> Plan:
    """Returns all that is written of a bundle."""
    bundle, bounds, judge = accepted(fixd, words.bundle)
    made, named = judge.made, converters(words.converter, judge.made)
    inputs = []
    for it, code in zip(made.inputs, bundle.input_codes()):
        low, high, steps = named.get(it.name, (it.lo, it.hi, 4096))
        ends = it.lo - it.off, it.hi + it.off
        text = (f"{as_decimal(it.lo)} to {as_decimal(it.hi)}"
                + (f", given to within {as_decimal(it.off)}" if it.off else ""))
        inputs.append(Input(it.name, code.point, *(floor_at(end, code.point) for end in ends), text, low, high, steps,
                            ends))
    most = ROOM // ((len(inputs) + bundle.outputs) * 8)
    states = [(it.name, code.numbers[2], code.point) for it, code in zip(made.states, bundle.state_codes())]
    outputs = [Output(it.name, point, bound) for it, point, bound in zip(made.outputs, bundle.output_points(), bounds)]
    label_all([*inputs, *outputs])
    csv = readable(words.rows) if words.rows else random_rows(inputs, words.count)
    answers = fixd.printed("run", words.bundle, rows=csv)
    values = values_of(csv, made.inputs)
    given_words = [[floor_at(value, it.point) for value, it in zip(row, inputs)] for row in values]
    if len(values) > most:
        progress(f"{len(values)} rows are too many for the memory of an emulated processor: the first {most} are "
                 "tested")
    rows = [(given, [int(Fraction(text) * Fraction(2) ** out.point) for text, out in zip(line.split(","), outputs)])
            for given, line in list(zip(given_words, answers.decode().splitlines()[1:]))[:most]]
    return Plan(bundle.name, bundle.width, inputs, states, outputs, rows, values,
                f"{bundle.name}, width {bundle.width}", csv, answers, fixd.standing())


def label_all(named: list) -> None:
    """Gives inputs and outputs labels that differ, capitals aside: an output may have an input's name."""
    taken = set()
    for it in named:
        label = device_rust.small(it.name)
        while label in taken:
            label += "_2"
        taken.add(label)
        it.label = label


def random_rows(inputs: list, count: int) -> bytes:
    """Returns rows in range, the ends among them, with nine places."""
    chance, lines = random.Random(0), [",".join(it.name for it in inputs)]
    for k in range(count):
        fields = []
        for it in inputs:
            low, high = int(-(-it.ends[0] * 10 ** 9 // 1)), int(it.ends[1] * 10 ** 9 // 1)
            if low > high:
                fields.append(as_decimal(it.ends[0]))
                continue
            value = (low, high)[k // 2 % 2] if k % 7 < 2 else chance.randint(low, high)
            fields.append(as_decimal(Fraction(value, 10 ** 9)))
        lines.append(",".join(fields))
    return ("\n".join(lines) + "\n").encode()


def folder(path: str) -> Path:
    """Returns the folder that is written, made where it isn't there."""
    into = Path(path)
    if into.exists() and not into.is_dir():
        raise Trouble(f"{path} is a file: name a folder that is new")
    if into.exists() and any(into.iterdir()) and not (into / ".fixd-device").exists():
        raise Trouble(f"{path} isn't empty and wasn't written by fixd-tools device: name a folder that is new")
    into.mkdir(parents=True, exist_ok=True)
    (into / ".fixd-device").write_text("written by fixd-tools device\n")
    return into


def c_program(named: str, fixd: Fixd) -> str:
    """Returns the program that prints C."""
    named = named or os.environ.get("FIXD_C", "")
    beside = os.path.join(os.path.dirname(fixd.path), "fixd-c")
    for path in ([named] if named else [beside, shutil.which("fixd-c") or ""]):
        if path and os.path.isfile(path) and os.access(path, os.X_OK):
            return os.path.abspath(path)
    raise Trouble(f"no program 'fixd-c' was found{f' at {named}' if named else ' beside fixd or on PATH'}: "
                  "'make build/fixd-c' in the repository builds it; name it by --fixd-c PROGRAM or in the variable FIXD_C")


def c_texts(program: str, bundle: str) -> tuple:
    """Returns what `fixd-c` prints: the source and the header."""
    texts = []
    for words in ([bundle], ["--header", bundle]):
        ran = subprocess.run([program, *words], capture_output=True, check=False)
        if ran.returncode:
            raise Trouble(f"'{os.path.basename(program)} {' '.join(words)}' ended with status {ran.returncode}: "
                          f"{ran.stderr.decode('utf-8', 'replace').strip()}")
        texts.append(ran.stdout.decode())
    return tuple(texts)


def run(words) -> int:
    """Runs the subcommand."""
    fixd = find(words.fixd)
    plan = plan_of(fixd, words)
    if words.language == "c":
        program = c_program(words.fixd_c, fixd)
        files = device_c.files_of(plan, *c_texts(program, words.bundle))
    else:
        files = device_rust.files_of(plan, fixd.printed("rust", words.bundle).decode())
    into = folder(words.to)
    shutil.copyfile(words.bundle, into / f"{plan.name}.bundle")
    (into / "rows.csv").write_bytes(plan.csv)
    (into / "rows.out").write_bytes(plan.answers)
    for name, text in files.items():
        path = into / name
        path.parent.mkdir(parents=True, exist_ok=True)
        path.write_text(text, encoding="utf-8")
        if name.endswith(".sh"):
            path.chmod(path.stat().st_mode | stat.S_IXUSR | stat.S_IXGRP | stat.S_IXOTH)
    print(f"{words.to}: {len(files) + 3} files, {len(plan.rows)} rows to test\non this machine: "
          f"{words.to}/test-here.sh\nemulated:        {words.to}/test-emulated.sh")
    for it in plan.outputs:
        print(f"{it.name}: word / 2^{it.point}, within {dyadic(it.bound)} of the exact value")
    return 0
