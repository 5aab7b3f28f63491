"""Programs of bundles: their codes, and the worst error that the roundings of a linear one may add up to.

For bench/states.py and driven.py, which takes the codes alone.

The model is that of the certificate, with each rounding as a source of its own:

- reading an input gives an error from `-err - u` to `err`, where `u` is the unit of the code's point and `err` the
  input's own error;
- a product, a copy, and each operand of a sum or difference, that is shifted to the right loses from 0 to `u`; a
  quotient's error is from `-u` to `u`;
- a literal's word differs from it by a fixed `d`: of a sum it is a fixed error, and of a product with `y` a source from
  the least to the greatest of `d * y`, over the exact limits of `y`. The word, not the literal, then carries errors on.
  A code of literals alone has a word that is known, and is taken like a literal;
- a state's word starts at its declared start, rounded.

Each source lies anew in its interval at each step, whatever the others do; the one rounding that enters several next
states or outputs is one source. The worst case is the sum over all steps before. *Boxed*, what is new in a next state
is an interval of its own, but for what is read: a rounding that enters two of them is another one in each. *Counted*,
it is another one on each way to a next state, too, so that the sizes of its ways add up where they would cancel in
part: that is how a certificate counts, and what no templates can better.

A literal is the one of the source, or its negative, that the code's certified range holds; where rewriting made another
one, its word is taken to be off by the middle of the code's certified error.
"""
from dataclasses import dataclass, field
from fractions import Fraction

from linear import direct, plus, reach, scaled

OPERANDS = {"in": 0, "st": 0, "const": 0, "neg": 1, "copy": 1, "add": 2, "sub": 2, "mul": 2, "div": 2}
ONE = -1


@dataclass
class Code:
    """An instruction with the codes that it reads, its other numbers, and its point."""
    word: str
    operands: list
    numbers: list
    point: int = 0


def point_of(code, points):
    """Returns the point of a code by those of its operands."""
    if code.word == "in" or code.word == "const":
        return code.numbers[-1]
    if code.word == "st":
        return code.numbers[1]
    shift = code.numbers[0] if code.numbers else 0
    if code.word == "mul":
        return sum(points) - shift
    return points[0] + shift - points[1] if code.word == "div" else points[0] - shift


def codes_of(bundle):
    """Returns the codes of a bundle's text."""
    data = bundle.encode()
    count = int(data.split(b"\n", 2)[1].split()[1])
    start = data.index(b"\n", data.index(b"\n") + 1) + 1
    lines = iter(data[start + count:].decode().splitlines()[2:])
    codes = []
    for line in lines:
        word, *fields = line.split()
        if word == "certificate":
            return codes
        if word in OPERANDS:
            ends = OPERANDS[word]
            code = Code(word, [int(f) for f in fields[:ends]], [int(f) for f in fields[ends:]])
            code.point = point_of(code, [codes[k].point for k in code.operands])
            codes.append(code)
    raise ValueError("the bundle has no certificate")


def unit(point):
    return Fraction(1, 2 ** point) if point >= 0 else Fraction(2 ** -point)


def literals_of(tree):
    if isinstance(tree, Fraction):
        yield tree
    elif not isinstance(tree, str):
        for part in tree[1:]:
            yield from literals_of(part)


def literal_in(ends, literals):
    """Returns the literal that an interval holds, or None."""
    return next((value for value in literals if ends[0] <= value <= ends[1]), None)


def combined(first, factor, second, other):
    """Returns a sum of two linear forms, each times a number."""
    form = {name: factor * x for name, x in first.items()}
    for name, x in second.items():
        form[name] = form.get(name, 0) + other * x
    return {name: x for name, x in form.items() if x}


def together(drives):
    """Returns drives with those put together that push the same way: their columns differ by a factor."""
    sums = {}
    for column, ends in drives:
        greatest = max(column, key=abs, default=0)
        if greatest:
            way = tuple(x / greatest for x in column)
            sums[way] = plus(sums.get(way, (Fraction(0), Fraction(0))), scaled(greatest, ends))
    return [(list(way), ends) for way, ends in sums.items()]


@dataclass
class Node:
    """The exact value of a code as a form of variables, its error as a form of sources, and the word where it is known.

    `rest` is where the roundings on all ways to it lie.
    """
    exact: dict
    error: dict = field(default_factory=dict)
    word: int = None
    rest: tuple = (Fraction(0), Fraction(0))


class Roundings:
    """The errors of a linear program's codes. Source k below the number of states is the error of state k."""

    def __init__(self, function, linear, codes, intervals):
        self.linear, self.codes, self.nodes = linear, codes, []
        self.inputs, self.states = len(function.inputs), len(function.states)
        self.errors = [span["err"] for span in function.inputs.values()]
        self.sources, self.readings, self.roundings = [None] * self.states, [], []
        trees = [tree for _, tree in function.temps] + function.results
        found = {x for tree in trees for x in literals_of(tree)}
        self.literals = found | {-x for x in found}
        for code, ends, off in zip(codes, *intervals):
            before = len(self.sources)
            node = self.node(code, ends, off)
            new = range(before, len(self.sources))
            if code.word == "in":
                self.readings += new
            else:
                self.roundings += new
                node.rest = self.rest(code, node, new)
            self.nodes.append(node)

    def source(self, lo, hi):
        """Returns the form of a new source with this interval."""
        self.sources.append((lo, hi))
        return {len(self.sources) - 1: Fraction(1)}

    def loss(self, shift, point):
        return self.source(-unit(point), Fraction(0)) if shift > 0 else {}

    def span(self, exact):
        """Returns the exact limits of a form of variables."""
        of_states = [exact.get(self.inputs + k, Fraction(0)) for k in range(self.states)]
        of_inputs = [exact.get(i, Fraction(0)) for i in range(self.inputs)] + [exact.get(ONE, Fraction(0))]
        return self.linear.span(of_states, of_inputs)

    def node(self, code, ends, off):
        """Returns the node of a code, of which this range and this error are certified."""
        u = unit(code.point)
        if code.word == "in":
            err = self.errors[code.numbers[0]]
            return Node({code.numbers[0]: Fraction(1)}, self.source(-err - u, err))
        if code.word == "st":
            return Node({self.inputs + code.numbers[0]: Fraction(1)}, {code.numbers[0]: Fraction(1)})
        if code.word == "const":
            literal = literal_in(ends, self.literals)
            return self.known({ONE: code.numbers[0] * u - sum(off) / 2 if literal is None else literal},
                              code.numbers[0], u)
        parts = [self.nodes[k] for k in code.operands]
        exact = self.exact(code.word, parts)
        if all(part.word is not None for part in parts):
            return self.known(exact, self.word(code, [part.word for part in parts]), u)
        return Node(exact, self.error(code, parts, u))

    def known(self, exact, word, u):
        """A code whose word is the same at each step: its error is fixed."""
        off = word * u - exact.get(ONE, Fraction(0))
        return Node(exact, self.source(off, off) if off else {}, word)

    def exact(self, word, parts):
        if word == "mul":
            first, second = parts if parts[0].word is not None else reversed(parts)
            return combined(second.exact, first.exact.get(ONE, Fraction(0)), {}, 0)
        if word == "div":
            return combined(parts[0].exact, 1 / parts[1].exact[ONE], {}, 0)
        if word in ("neg", "copy"):
            return combined(parts[0].exact, -1 if word == "neg" else 1, {}, 0)
        return combined(parts[0].exact, 1, parts[1].exact, 1 if word == "add" else -1)

    @staticmethod
    def word(code, words):
        """The machine's word of a code, by those of its operands."""
        def shifted(word, shift):
            return word >> shift if shift >= 0 else word << -shift

        shifts = code.numbers
        if code.word == "mul":
            return shifted(words[0] * words[1], shifts[0])
        if code.word == "div":
            quotient = abs(words[0] << shifts[0]) // abs(words[1])
            return quotient if (words[0] >= 0) == (words[1] >= 0) else -quotient
        if code.word in ("neg", "copy"):
            return -words[0] if code.word == "neg" else shifted(words[0], shifts[0])
        first, second = shifted(words[0], shifts[0]), shifted(words[1], shifts[1])
        return first + second if code.word == "add" else first - second

    def value(self, index):
        """The value of a code's known word, and how far the exact one is from it."""
        held = self.nodes[index].word * unit(self.codes[index].point)
        return held, held - self.nodes[index].exact.get(ONE, Fraction(0))

    def error(self, code, parts, u):
        shifts = code.numbers
        if code.word == "neg":
            return combined(parts[0].error, -1, {}, 0)
        if code.word == "copy":
            return combined(parts[0].error, 1, self.loss(shifts[0], code.point), 1)
        if code.word == "mul":
            constant = 0 if parts[0].word is not None else 1
            held, off = self.value(code.operands[constant])
            carried = combined(parts[1 - constant].error, held, self.off_by(off, parts[1 - constant].exact), 1)
            return combined(carried, 1, self.loss(shifts[0], code.point), 1)
        if code.word == "div":
            held, off = self.value(code.operands[1])
            carried = combined(parts[0].error, 1 / held, self.off_by(-off / (held * (held - off)), parts[0].exact), 1)
            return combined(carried, 1, self.source(-u, u), 1)
        sign = 1 if code.word == "add" else -1
        lost = combined(self.loss(shifts[0], code.point), 1, self.loss(shifts[1], code.point), sign)
        return combined(combined(parts[0].error, 1, parts[1].error, sign), 1, lost, 1)

    def factors(self, code):
        """Returns how often the errors of a code's operands count in it; a known word's doesn't."""
        parts = [self.nodes[k] for k in code.operands]
        if code.word == "mul":
            return [0 if part.word is not None else self.value(k)[0] for part, k in zip(parts, reversed(code.operands))]
        if code.word == "div":
            return [1 / self.value(code.operands[1])[0], 0]
        return [-1 if code.word == "neg" else 1, -1 if code.word == "sub" else 1]

    def rest(self, code, node, new):
        """Returns where the roundings on all ways to a code lie, with these that it adds itself."""
        total = self.own(node.error, new)
        if node.word is None:
            for k, factor in zip(code.operands, self.factors(code)):
                total = plus(total, scaled(factor, self.nodes[k].rest))
        return total

    def off_by(self, factor, exact):
        """The source of a factor that is off, times what it is multiplied with."""
        return self.source(*scaled(factor, self.span(exact))) if factor else {}

    def own(self, form, sources):
        """Returns the interval of these sources in a form."""
        return direct([form.get(s, Fraction(0)) for s in sources], [self.sources[s] for s in sources])

    def rounded(self, node, counting):
        """Returns the interval of the new roundings in a node."""
        return node.rest if counting == "counted" else self.own(node.error, self.roundings)

    def drives(self, following, counting):
        """Returns what pushes the errors of the states anew at each step."""
        alone = self.readings + (self.roundings if counting == "each" else [])
        drives = [([node.error.get(s, Fraction(0)) for node in following], self.sources[s]) for s in alone]
        if counting == "each":
            return drives
        units = [[Fraction(int(i == k)) for i in range(self.states)] for k in range(self.states)]
        return drives + [(column, self.rounded(node, counting)) for column, node in zip(units, following)]

    def limits(self, counting="each"):
        """Returns the least interval that holds the error of each output at all times, or None where there is none.

        Roundings are counted each for itself, `boxed` or as they are `counted` by a certificate.
        """
        first = len(self.nodes) - self.states
        count = len(self.linear.C)
        following = self.nodes[first:]
        A = [[node.error.get(k, Fraction(0)) for k in range(self.states)] for node in following]
        drives = together(self.drives(following, counting))
        start = []
        for code, value in zip(self.codes[self.inputs:], self.linear.start):
            start.append(code.numbers[2] * unit(code.point) - value)
        limits = []
        for node in self.nodes[first - count:first]:
            row = [node.error.get(k, Fraction(0)) for k in range(self.states)]
            ends = reach(row, A, drives, start)
            own = plus(self.own(node.error, self.readings), self.rounded(node, counting))
            limits.append(ends and plus(ends, own))
        return limits
