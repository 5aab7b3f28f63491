"""Makes bundles whose codes have the shifts that are at an end: of 0, 1, N-1, N, 2N-2 and below 0, in words of N bits.

There is one for each width and version, in which each code has all of these that it may have; for bench/c.py. Numbers
are those of random_bundles.py, with points that are chosen. What each code makes is an output.
"""
from fractions import Fraction

from texts import WIDTHS, Failed, put  # first, since it says where the companion is
from random_bundles import ZERO, Maker, text_of, unit

ONE = (Fraction(-1), Fraction(1))


def kind(shift, width):
    """Returns which end a shift is at."""
    ends = {0: "0", 1: "1", width - 1: "N-1", width: "N", 2 * width - 2: "2N-2"}
    return "below 0" if shift < 0 else ends.get(shift, "other")


def wanted(word, width):
    """Returns the kinds of shifts that a code may have."""
    far = ["2N-2"] if 2 * width - 2 <= 64 else []
    return {"add": ["0", "1", "N-1", "N", *far, "below 0"], "sub": ["0", "1", "N-1", "N", *far, "below 0"],
            "copy": ["0", "1", "N-1", "N", *far, "below 0"], "mul": ["0", "1", "N-1", "N", "2N-2"],
            "mulr": ["1", "N-1", "N", "2N-2"], "div": ["0", "1", "N-1", "N"], "copyr": ["1", "N-1", "N"]}[word]


def lacking(count):
    """Returns which shifts a count of (width, version, code, kind) hasn't."""
    words = {1: ["add", "sub", "mul", "div", "copy"], 2: ["add", "sub", "mul", "mulr", "div", "copy", "copyr"]}
    return [f"{word} by {kind} at {width} bits in version {version}"
            for width in WIDTHS for version in words for word in words[version] for kind in wanted(word, width)
            if not count[width, version, word, kind]]


class Told:
    """In the place of a draw: it chooses what it is told to."""

    def __init__(self):
        self.at, self.number = 0, 0.0

    def choice(self, some):
        return some[self.at]

    def random(self):
        return self.number


class Chosen(Maker):
    """Codes with the shifts that are asked for: x0 has all but two bits of the width behind its point, x1 one."""
    most = Fraction(2) ** 80

    def __init__(self, width, version):
        super().__init__(Told(), width, version)
        self.next = None
        for k, point in enumerate((width - 2, 1)):
            self.put(f"in {k} {point}", point, ONE, (-unit(point), Fraction(0)), f"x{k}")
        self.copies = []

    def point(self, span, most=62, least=-64):
        return self.next

    def temp(self, made):
        """A temp of this code, with an output of its own."""
        *code, tree = made
        node = self.put(*code, f"t{len(self.temps)}")
        self.temps.append((node.name, tree))
        self.copied(len(self.nodes) - 1, 0)

    def number(self, value, point):
        """A literal at a point; gives its code."""
        self.put(f"const {int(value * 2 ** point)} {point}", point, (value, value), ZERO, str(value))
        return len(self.nodes) - 1

    def copied(self, a, shift, to_nearest=False):
        self.draw.number = 0.0 if to_nearest else 1.0
        self.copies.append(self.copy(a, self.nodes[a].point - shift))

    def sums(self, a, b, shift, other=None):
        """A sum and a difference."""
        for self.draw.at in (0, 1):
            self.next = self.nodes[a].point - shift
            if other is not None:
                b = self.number(Fraction(0), self.next + other)
            self.temp(self.sum(a, b))

    def products(self, a, shift):
        """A square, in the second version to the nearest too."""
        self.next = 2 * self.nodes[a].point - shift
        for self.draw.number in (1.0, 0.0) if self.version == 2 and shift else (1.0,):
            self.temp(self.product(a, a))

    def quotients(self, a, point, shift):
        """Quotients by 1 and -1 at a point."""
        for value in (Fraction(1), Fraction(-1)):
            b = self.number(value, point)
            self.next = self.nodes[a].point + shift - point
            self.temp(self.quotient(a, b))


def bundle(width, version):
    """Returns the bundle's text. Codes 0 and 1 are the inputs."""
    maker = Chosen(width, version)
    far = [2 * width - 2] if 2 * width - 2 <= 64 else []
    for a, shift in ((1, 0), (1, 1), (1, -1), *((0, shift) for shift in (width - 1, width, *far))):
        maker.sums(a, a, shift)
    maker.sums(0, None, 0, -width)
    for a, shift in ((1, 0), (1, 1), (0, width - 1), (0, width), (0, 2 * width - 2)):
        maker.products(a, shift)
    for a, point, shift in ((0, 0, 0), (1, 0, 1), (1, width - 2, width - 1), (1, width - 2, width)):
        maker.quotients(a, point, shift)
    maker.temp(maker.negation(0))
    for a, shift in ((0, 0), (0, 1), (0, width - 1), (0, width), *((0, it) for it in far), (1, -1)):
        maker.copied(a, shift)
    for shift in (1, width - 1, width) if version == 2 else ():
        maker.copied(0, shift, to_nearest=True)
    require = "-1 <= x0 && x0 <= 1 && -1 <= x1 && x1 <= 1"
    return text_of(maker, (2, 0, len(maker.copies)), require, [], maker.copies)


def paths(fixd, folder):
    """Yields the paths of the bundles, each of which has to be accepted."""
    for width in WIDTHS:
        for version in (1, 2):
            path = put(folder, f"shifts.{width}.{version}", bundle(width, version).encode())
            ran = fixd.check(path)
            if ran.status:
                raise Failed(f"{path} isn't accepted: {ran.line}")
            yield path
