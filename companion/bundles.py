"""A bundle's texts as plain values. `fixd check` is what says whether a bundle is one; this reads those that are."""
from __future__ import annotations

from dataclasses import dataclass, field
from fractions import Fraction

from .exact import read_pair
from .fixd import Trouble

SHIFTS = {"add": 2, "sub": 2, "mul": 1, "mulr": 1, "div": 1, "copy": 1, "copyr": 1}
OPERANDS = {"in": 0, "st": 0, "const": 0, "neg": 1, "add": 2, "sub": 2, "mul": 2, "mulr": 2, "div": 2, "copy": 1,
            "copyr": 1}


@dataclass(frozen=True)
class Code:
    """A code: its word, the numbers behind it, and the point of what it makes."""
    word: str
    numbers: tuple
    point: int

    @property
    def operands(self) -> tuple:
        """The codes that it reads."""
        return self.numbers[:OPERANDS[self.word]]

    @property
    def shifts(self) -> tuple:
        """By how much it shifts: two numbers of a sum, one of others."""
        return self.numbers[OPERANDS[self.word]:] if self.word in SHIFTS else ()

    def text(self) -> str:
        """The line of the program."""
        return " ".join([self.word, *map(str, self.numbers)])


@dataclass
class Template:
    """A template: a coefficient for each state, an interval, and shares of other templates."""
    coefficients: list
    ends: tuple
    shares: list


@dataclass
class Form:
    """A form: the centres of a product's operands, a coefficient for each variable, the rests, and shares or None of
    each."""
    centres: tuple
    coefficients: list
    rest: tuple
    error_rest: tuple
    shares: list = None
    error_shares: list = None


@dataclass
class Line:
    """What the certificate says of a code: its range, its error, and a form or None."""
    range: tuple
    error: tuple
    form: Form = None


@dataclass
class Bundle:
    """A bundle: source, program and certificate."""
    version: int
    source: bytes
    width: int
    name: str
    inputs: int
    states: int
    outputs: int
    codes: list
    steps: list = field(default_factory=list)
    starts: list = field(default_factory=list)
    templates: list = field(default_factory=list)
    error_templates: list = field(default_factory=list)
    lines: list = field(default_factory=list)

    @property
    def first_output(self) -> int:
        """The code of the first output's copy."""
        return len(self.codes) - self.states - self.outputs

    def input_codes(self) -> list:
        """The codes of the inputs, in their order."""
        return sorted((code for code in self.codes if code.word == "in"), key=lambda code: code.numbers[0])

    def state_codes(self) -> list:
        """The codes of the states, in their order."""
        return sorted((code for code in self.codes if code.word == "st"), key=lambda code: code.numbers[0])

    def output_points(self) -> list:
        """The points of the outputs."""
        return [code.point for code in self.codes[self.first_output:self.first_output + self.outputs]]

    def bounds(self) -> list:
        """What the certificate says of each output's error: the greater of the two sides."""
        return [max(abs(end) for end in line.error)
                for line in self.lines[self.first_output:self.first_output + self.outputs]]


class Fields:
    """The fields of one line, read from left to right."""

    def __init__(self, text: str):
        self.words, self.at = text.split(" "), 0

    def word(self) -> str:
        self.at += 1
        return self.words[self.at - 1]

    def whole(self) -> int:
        return int(self.word())

    def number(self) -> Fraction:
        return read_pair(self.word())

    def ends(self) -> tuple:
        return self.number(), self.number()

    def shares(self) -> list:
        return [(self.whole(), self.number()) for _ in range(self.whole())]

    def shares_or_none(self):
        if self.words[self.at] == "-":
            self.at += 1
            return None
        return self.shares()


def code_of(text: str, before: list) -> Code:
    """Returns the code of a line, with its point by those before it."""
    word, *rest = text.split(" ")
    numbers = tuple(map(int, rest))
    if word in ("in", "st"):
        return Code(word, numbers, numbers[1])
    if word == "const":
        return Code(word, numbers, numbers[1])
    points = [before[k].point for k in numbers[:OPERANDS[word]]]
    if word == "neg":
        return Code(word, numbers, points[0])
    if word in ("add", "sub"):
        return Code(word, numbers, points[0] - numbers[2])
    if word in ("mul", "mulr"):
        return Code(word, numbers, points[0] + points[1] - numbers[2])
    if word == "div":
        return Code(word, numbers, points[0] + numbers[2] - points[1])
    return Code(word, numbers, points[0] - numbers[1])


def template_of(fields: Fields, state: int, states: int) -> Template:
    """Returns the template of a line `box` or `row`."""
    is_box = fields.word() == "box"
    coefficients = [Fraction(int(k == state)) if is_box else fields.number() for k in range(states)]
    return Template(coefficients, fields.ends(), fields.shares())


def line_of(fields: Fields, variables: int) -> Line:
    """Returns a line `plain` or `form`."""
    word = fields.word()
    line = Line(fields.ends(), fields.ends())
    if word == "form":
        line.form = Form(fields.ends(), [fields.number() for _ in range(variables)], fields.ends(), fields.ends(),
                         fields.shares_or_none(), fields.shares_or_none())
    return line


def is_bundle(data: bytes) -> bool:
    """Returns whether a text begins as a bundle does."""
    return data.startswith(b"fixd bundle ")


def read(data: bytes, path: str = "FILE") -> Bundle:
    """Returns a bundle's values. Of a text that is none, it says so."""
    try:
        return parsed(data)
    except (ValueError, IndexError, KeyError):
        raise Trouble(f"{path} isn't a bundle: 'fixd-tools explain check {path}' says where") from None


def parsed(data: bytes) -> Bundle:
    head, size, rest = data.split(b"\n", 2)
    count = int(size.split()[1])
    lines = rest[count + 1:].decode("ascii").split("\n")
    if not is_bundle(data) or lines[0] != "program":
        raise ValueError
    inputs, states, outputs, codes = map(int, lines[4].split()[1:])
    made = Bundle(int(head.split()[2]), rest[:count], int(lines[2].split()[1]), lines[3].split()[1], inputs, states,
                  outputs, [])
    for text in lines[5:5 + codes]:
        made.codes.append(code_of(text, made.codes))
    read_certificate(made, lines[5 + codes:])
    return made


def read_certificate(made: Bundle, lines: list) -> None:
    at, variables = 4, made.inputs + made.states
    if lines[0] != "certificate":
        raise ValueError
    for text in lines[at:at + int(lines[3].split()[1])]:
        _, tree, path, rule = text.split(" ")
        made.steps.append((int(tree), "" if path == "-" else path, int(rule)))
    at += len(made.steps)
    while lines[at].startswith("start "):
        fields = Fields(lines[at][6:])
        made.starts.append((fields.ends(), fields.ends()))
        at += 1
    plain, errors = map(int, lines[at].split()[1:])
    at += 1
    for count, found in ((plain, made.templates), (errors, made.error_templates)):
        for k in range(count):
            found.append(template_of(Fields(lines[at + k]), k, made.states))
        at += count
    while lines[at] != "end":
        made.lines.append(line_of(Fields(lines[at]), variables))
        at += 1
