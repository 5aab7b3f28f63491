"""Linear functions: what is linear in a source, its matrices, its poles, and sums of its impulse responses."""
from __future__ import annotations

from dataclasses import dataclass
from fractions import Fraction
from math import lcm

from .functions import Function, Tree
from .polynomials import BITS, ONE, roots_of, whole


@dataclass
class Linear:
    """Next states `A x + B u`, outputs `C x + D u`; the last column of B and D is what stands alone, an input that is
    always 1."""
    A: list
    B: list
    C: list
    D: list

    @property
    def states(self) -> int:
        return len(self.A)


def form_of(tree: Tree, known: dict, size: int):
    """Returns the coefficients of an expression that is linear, the last one of 1, or None where it isn't."""
    if tree.op == "num":
        return [Fraction(0)] * (size - 1) + [tree.value]
    if tree.op == "name":
        return known[tree.name]
    parts = [form_of(part, known, size) for part in tree.parts]
    if None in parts:
        return None
    if tree.op == "neg":
        return [-x for x in parts[0]]
    first, second = parts
    if tree.op in "+-":
        sign = 1 if tree.op == "+" else -1
        return [x + sign * y for x, y in zip(first, second)]
    if tree.op == "/" and is_constant(second) and second[-1]:
        return [x / second[-1] for x in first]
    if tree.op == "*" and is_constant(second):
        return [x * second[-1] for x in first]
    if tree.op == "*" and is_constant(first):
        return [first[-1] * x for x in second]
    return None


def is_constant(form: list) -> bool:
    return not any(form[:-1])


def linear_of(made: Function):
    """Returns the matrices of a linear function, or None where it isn't linear."""
    names = [it.name for it in [*made.inputs, *made.states]]
    size = len(names) + 1
    known = {name: [Fraction(int(k == j)) for j in range(size)] for k, name in enumerate(names)}
    for name, tree in made.temps:
        known[name] = form_of(tree, known, size)
    rows = [form_of(tree, known, size) if tree.op != "name" else known[tree.name] for tree in made.results]
    if None in rows:
        return None
    inputs = len(made.inputs)
    of_states = [row[inputs:-1] for row in rows]
    of_inputs = [row[:inputs] + row[-1:] for row in rows]
    count = made.count
    return Linear(of_states[count:], of_inputs[count:], of_states[:count], of_inputs[:count])


# blocks: states that hang on one another


def blocks_of(A: list) -> list:
    """Returns the sets of states that hang on one another, each behind those that it hangs on."""
    size, order, seen = len(A), [], set()
    reads = [[j for j in range(size) if A[i][j]] for i in range(size)]
    read_by = [[i for i in range(size) if A[i][j]] for j in range(size)]

    def visit(start, edges, into):
        stack = [(start, iter(edges[start]))]
        seen.add(start)
        while stack:
            here, rest = stack[-1]
            after = next((k for k in rest if k not in seen), None)
            if after is None:
                stack.pop()
                into.append(here)
            else:
                seen.add(after)
                stack.append((after, iter(edges[after])))

    for k in range(size):
        if k not in seen:
            visit(k, reads, order)
    seen.clear()
    found = []
    for k in reversed(order):
        if k not in seen:
            found.append([])
            visit(k, read_by, found[-1])
    return [sorted(block) for block in reversed(found)]


def characteristic(A: list) -> list:
    """Returns the coefficients of det(zI - A), from that of the highest power down."""
    size = len(A)
    common = lcm(1, *(x.denominator for row in A for x in row))
    rows = [[int(x * common) for x in row] for row in A]
    made, coefficients = [[0] * size for _ in range(size)], [1]
    for k in range(1, size + 1):
        for i in range(size):
            made[i][i] += coefficients[-1]
        made = [[sum(x * made[j][c] for j, x in enumerate(row) if x) for c in range(size)] for row in rows]
        coefficients.append(-sum(made[i][i] for i in range(size)) // k)
    return [Fraction(c, common ** k) for k, c in enumerate(coefficients)]


def poles_of(A: list) -> list:
    """Returns the poles of a matrix, each as often as it is one, the slowest first."""
    found = []
    for block in blocks_of(A):
        part = [[A[i][j] for j in block] for i in block]
        found += [root for root, many in roots_of(characteristic(part)) for _ in range(many)]
    return sorted(found, key=lambda root: -root.size())


# impulse responses in whole numbers


@dataclass
class Sums:
    """A sum of an impulse response: of its positive parts, of its negative parts, how many steps were summed, and
    whether it settled."""
    up: Fraction
    down: Fraction
    steps: int
    settled: bool

    @property
    def size(self) -> Fraction:
        return self.up + self.down


def responses(A: list, row: list, columns: list, most: int = 1 << 18) -> list:
    """Returns for each column b the sums over t of `row A^t b`, or unsettled ones where these don't fade.

    What is lost on the way is below 2^-100 of the figures that are shown of it; it isn't a proved bound.
    """
    turned = [[(k, whole(line[j])) for k, line in enumerate(A) if line[j]] for j in range(len(A))]
    pushes = [[(k, whole(x)) for k, x in enumerate(column) if x] for column in columns]
    image, ups, downs = [whole(x) for x in row], [0] * len(columns), [0] * len(columns)
    step, mark, before, settled = 0, 32, 0, True
    while any(image):
        for j, push in enumerate(pushes):
            value = sum(image[k] * x for k, x in push) >> BITS
            if value > 0:
                ups[j] += value
            else:
                downs[j] -= value
        image = [sum(image[k] * x for k, x in column) >> BITS for column in turned]
        image = [0 if x in (-1, 0) else x for x in image]
        step += 1
        if step == mark:
            total = sum(ups) + sum(downs)
            if (total - before) << 40 <= total and max(map(abs, image)) >> (BITS - 40) == 0:
                break
            if step >= most or max(map(abs, image)) >> (BITS + 100):
                settled = False
                break
            before, mark = total, mark * 2
    return [Sums(Fraction(up, ONE), Fraction(down, ONE), step, settled) for up, down in zip(ups, downs)]
