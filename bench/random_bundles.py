"""Makes bundles at random that `fixd check` accepts, of a width and a version: all operations, shifts to both sides, states, quotients.

Values go from the inputs on. Each operation's exact interval and the interval of its error are computed as the certificate's inequalities have
them and rounded outward, and its point is the greatest at which the word fits, or at times one below it, so that many words are narrower than the
program's. A next state takes at most half of its state and a share of an input, so that a box keeps it. `bundle` gives None where a draw
comes to nothing; what it gives is judged by `check` like any other, and not all is accepted, since numbers have limits.
"""
from dataclasses import dataclass
from fractions import Fraction

from companion.exact import as_decimal as decimal

ZERO = (Fraction(0), Fraction(0))


class Draw(Exception):
    """This draw comes to nothing."""


@dataclass
class Node:
    """A code with its point, range and error. `name` is how the source calls it."""
    code: str
    point: int
    range: tuple
    error: tuple
    name: str


def unit(point):
    return Fraction(2) ** -point


def plus(*spans):
    return sum(lo for lo, _ in spans), sum(hi for _, hi in spans)


def less(a):
    return -a[1], -a[0]


def times(a, b):
    ends = [x * y for x in a for y in b]
    return min(ends), max(ends)


def over(a, b):
    ends = [x / y for x in a for y in b]
    return min(ends), max(ends)


def outward(span, places):
    """Returns an interval around this one, whose ends have so many binary places, or fewer where they would be long."""
    places = max(0, min(places, 90))
    while places and max(map(abs, span)) * 2 ** places >= 2 ** 56:
        places -= 1
    step = unit(places)
    return span[0] // step * step, -(-span[1] // step) * step


def dyadic(value):
    places = value.denominator.bit_length() - 1
    return f"{value.numerator}:{places}"


def line(kind, *spans):
    return " ".join([kind, *(dyadic(end) for span in spans for end in span)])


class Maker:
    """One draw. `nodes` are the codes before the copies; `temps` the source's. While `is_near`, points aren't lowered at
    will. No value and no error is greater than `most`."""
    most = Fraction(2) ** 24

    def __init__(self, draw, width, version):
        self.draw, self.width, self.version = draw, width, version
        self.nodes, self.temps, self.is_near = [], [], False

    def top(self, span, error):
        """Returns the greatest point at which a word of this range and this error fits."""
        lo, hi = plus(span, error)
        point = 62
        while point >= -64 and not (-2 ** (self.width - 1) <= lo * unit(-point) and hi * unit(-point) <= 2 ** (self.width - 1) - 1):
            point -= 1
        if point < -64 or max(abs(lo), abs(hi)) > self.most:
            raise Draw
        return point

    def point(self, span, most=62, least=-64):
        """Returns a point for a value of this range, whose error isn't known yet: there is room for a few units."""
        top = min(most, self.top(span, ZERO) - self.draw.choice([1, 1, 1, 2]))
        if not self.is_near and self.draw.random() < 0.3:
            top -= self.draw.randrange(self.width // 2)
        if top < least:
            raise Draw
        return top

    def put(self, code, point, span, error, name):
        span, error = outward(span, 30), outward(error, point + 3)
        if self.top(span, error) < point:
            raise Draw
        self.nodes.append(Node(code, point, span, error, name))
        return self.nodes[-1]

    def lost(self, shift, point, to_nearest=False):
        if to_nearest:
            return -unit(point + 1), unit(point + 1)
        return (-unit(point), Fraction(0)) if shift > 0 else ZERO

    def literal(self, value):
        """A literal's code; its word is rounded to either side."""
        point = self.point((value, value)) if value else self.draw.randrange(-4, 20)
        word = value * unit(-point) // 1 + self.draw.choice([0, 0, 1])
        off = word * unit(point) - value
        return self.put(f"const {word} {point}", point, (value, value), (off, off), decimal(value))

    def operand(self, chance=0.3):
        """A node that is there, or a literal. Gives its number."""
        if self.draw.random() < chance:
            self.literal(Fraction(self.draw.randrange(-999, 1000), self.draw.choice([1, 10, 1000, 10 ** 6])))
            return len(self.nodes) - 1
        return self.draw.choice([k for k, node in enumerate(self.nodes) if not node.code.startswith("const")])

    def sum(self, a, b):
        word = self.draw.choice(["add", "sub"])
        x, y = self.nodes[a], self.nodes[b]
        side = less if word == "sub" else lambda span: span
        span = plus(x.range, side(y.range))
        f = self.point(span, min(x.point, y.point) + self.width, max(x.point, y.point) - 64)
        sa, sb = x.point - f, y.point - f
        error = plus(x.error, side(y.error), self.lost(sa, f), side(self.lost(sb, f)))
        return f"{word} {a} {b} {sa} {sb}", f, span, error, f"{x.name} {'-' if word == 'sub' else '+'} {y.name}"

    def product(self, a, b):
        x, y = self.nodes[a], self.nodes[b]
        span = times(x.range, y.range)
        f = self.point(span, x.point + y.point, x.point + y.point - 2 * self.width + 2)
        s = x.point + y.point - f
        to_nearest = self.version == 2 and s > 0 and self.draw.random() < 0.7
        error = plus(times(x.range, y.error), times(y.range, x.error), times(x.error, y.error), self.lost(s, f, to_nearest))
        return f"{'mulr' if to_nearest else 'mul'} {a} {b} {s}", f, span, error, f"{x.name} * {y.name}"

    def quotient(self, a, b):
        x, y = self.nodes[a], self.nodes[b]
        divisor = plus(y.range, y.error)
        if not (min(y.range[0], divisor[0]) > 0 or max(y.range[1], divisor[1]) < 0):
            raise Draw
        span = outward(over(x.range, y.range), 30)
        f = self.point(span, x.point + self.width - y.point, x.point - y.point)
        error = plus(over(plus(x.error, less(times(span, y.error))), divisor), (-unit(f), unit(f)))
        return f"div {a} {b} {f - x.point + y.point}", f, span, error, f"{x.name} / {y.name}"

    def negation(self, a):
        x = self.nodes[a]
        return f"neg {a}", x.point, less(x.range), less(x.error), f"-{x.name}"

    def operation(self):
        """One more temp, or Draw with nothing changed."""
        count = len(self.nodes)
        try:
            kind = self.draw.choice(["sum", "sum", "product", "product", "quotient", "negation"])
            if kind == "negation":
                made = self.negation(self.operand(0))
            else:
                made = getattr(self, kind)(self.operand(), self.operand())
            *code, tree = made
            self.put(*code, f"t{len(self.temps)}")
            self.temps.append((f"t{len(self.temps)}", tree))
        except Draw:
            del self.nodes[count:]
            raise

    def inputs(self, count):
        """Inputs with their ranges and errors; gives what `require` says of them."""
        said = []
        for k in range(count):
            lo = Fraction(self.draw.randrange(-4000, 4000), 1000)
            hi = lo + Fraction(self.draw.randrange(1, 4000), 1000)
            err = self.draw.choice([Fraction(0), Fraction(0), Fraction(1, 1000), Fraction(1, 10 ** 6)])
            f = self.point((lo - err, hi + err))
            self.put(f"in {k} {f}", f, (lo, hi), (-err - unit(f), err), f"x{k}")
            said.append(f"{decimal(lo)} <= x{k} && x{k} <= {decimal(hi)}" + (f" && x{k} +/- {decimal(err)}" if err else ""))
        return " && ".join(said)

    def states(self, count):
        """States from -4 to 4, whose errors' boxes are wide enough for what a step may add."""
        found, given = [], max(max(map(abs, node.error)) for node in self.nodes)
        for k in range(count):
            start = Fraction(self.draw.randrange(-2000, 2001), 1000)
            f = self.point((Fraction(-4), Fraction(4)))
            word = start * unit(-f) // 1
            most = unit(f) * 2 ** self.draw.randrange(4, 7)
            while most < given:
                most *= 2
            self.put(f"st {k} {f} {word}", f, (Fraction(-4), Fraction(4)), (-most, most), f"s{k}")
            found.append((start, word * unit(f) - start))
        return found

    def next_state(self, k):
        """c * s + d * x, with |c| at most a half and |d * x| at most 1. Gives the node's number."""
        state = next(node for node in self.nodes if node.code.startswith(f"st {k} "))
        own = self.nodes.index(state)
        drive = self.draw.randrange(sum(node.code.startswith("in ") for node in self.nodes))
        for other, value in ((own, self.draw.randrange(-400, 401)), (drive, self.draw.randrange(-125, 126))):
            self.literal(Fraction(value, 1000))
            *code, tree = self.product(len(self.nodes) - 1, other)
            self.put(*code, f"t{len(self.temps)}")
            self.temps.append((f"t{len(self.temps)}", tree))
        second = len(self.nodes) - 1
        first = next(n for n, node in enumerate(self.nodes) if node.name == f"t{len(self.temps) - 2}")
        *code, tree = self.sum(first, second)
        self.put(*code, f"t{len(self.temps)}")
        self.temps.append((f"t{len(self.temps)}", tree))
        return len(self.nodes) - 1

    def copy(self, a, point=None):
        """The copy of a node, at this point where there is one."""
        x = self.nodes[a]
        f = self.point(x.range, x.point + self.width, x.point - 64) if point is None else point
        s = x.point - f
        if not -self.width <= s <= 64:
            raise Draw
        to_nearest = self.version == 2 and 1 <= s <= self.width and self.draw.random() < 0.7
        error = plus(x.error, self.lost(s, f, to_nearest))
        return Node(f"{'copyr' if to_nearest else 'copy'} {a} {s}", f, x.range, outward(error, f + 3), x.name)


def made(draw, width, version):
    """One draw's text."""
    maker = Maker(draw, width, version)
    inputs, states, outputs = draw.randrange(1, 5), draw.choice([0, 0, 1, 2, 3]), draw.randrange(1, 4)
    require = maker.inputs(inputs)
    maker.is_near = True
    starts = maker.states(states)
    maker.is_near = False
    wanted = draw.randrange(1, 24)
    for _ in range(4 * wanted):
        try:
            maker.operation()
        except Draw:
            continue
        if len(maker.temps) >= wanted:
            break
    maker.is_near = True
    nexts = [maker.next_state(k) for k in range(states)]
    places = [k for k, node in enumerate(maker.nodes) if not node.code.startswith("const")]
    copies = [maker.copy(draw.choice(places[inputs:] or places)) for _ in range(outputs)]
    copies += [maker.copy(a, maker.nodes[inputs + k].point) for k, a in enumerate(nexts)]
    return maker, (inputs, states, outputs), require, starts, copies


def source_of(maker, sizes, require, starts, copies):
    inputs, states, outputs = sizes
    front = ", ".join(f"x{k}: Real" for k in range(inputs))
    back = "(" + ", ".join(f"s{k}: Real = {decimal(start)}" for k, (start, _) in enumerate(starts)) + ")" if states else ""
    results = [node.name for node in copies]
    kind = "Real" if len(results) == 1 else "(" + ", ".join(["Real"] * len(results)) + ")"
    body = [f"  val {name} = {tree}" for name, tree in maker.temps] + [f"  {results[0]}" if len(results) == 1 else f"  ({', '.join(results)})"]
    return "\n".join([f"def f({front}){back}: {kind} = {{", f"  require({require})", *body, "}", ""])


def bundle(draw, width, version):
    """Returns a bundle's text, or None."""
    try:
        return text_of(*made(draw, width, version))
    except Draw:
        return None


def text_of(maker, sizes, require, starts, copies):
    """Returns the text of what was made: starts are pairs of a number and by how much its word is off."""
    source, nodes = source_of(maker, sizes, require, starts, copies), maker.nodes + copies
    width, version = maker.width, maker.version
    inputs, states, outputs = sizes
    boxes = maker.nodes[inputs:inputs + states]
    parts = [f"fixd bundle {version}", f"source {len(source)}", source, "program", f"fixd program {version}", f"width {width}", "name f"]
    parts += [f"sizes {inputs} {states} {outputs} {len(nodes)}", *(node.code for node in nodes), "certificate", "fixd certificate 1"]
    parts += [f"sizes {inputs} {states} {len(nodes)}", "steps 0"]
    parts += [line("start", outward((start, start), 40), outward((off, off), box.point + 3)) for (start, off), box in zip(starts, boxes)]
    parts += [f"rows {states} {states}", *(line("box", box.range) + " 0" for box in boxes), *(line("box", box.error) + " 0" for box in boxes)]
    parts += [line("plain", node.range, node.error) for node in nodes]
    return "\n".join([*parts, "end", ""])
