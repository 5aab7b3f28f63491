"""Balanced form, by floating point: what it is off shows in the distance."""
from __future__ import annotations

from fractions import Fraction

from .blocks import parallel_system
from .form import Form, Impossible, from_matrices
from .functions import Function
from .linear import Linear


def balanced(made: Function, system: Linear) -> Form:
    """States that are driven and read alike, from the blocks side by side where these can be had."""
    try:
        base, starts = parallel_system(made, system)
    except Impossible:
        base, starts = system, [it.start for it in made.states]
    size = base.states
    if size > 16:
        raise Impossible("it is for 16 states at most")
    A = [[float(x) for x in row] for row in base.A]
    B = [[float(x) for x in row] for row in base.B]
    C = [[float(x) for x in row] for row in base.C]
    driven, read = gramian(A, mul(B, turned(B))), gramian(turned(A), mul(turned(C), C))
    lower = cholesky(driven)
    values, vectors = jacobi(mul(turned(lower), mul(read, lower)))
    if min(values) < 1e-18 * max(values):
        raise Impossible("a state is hardly driven or read")
    roots = [value ** 0.25 for value in values]
    to = [[x / root for x, root in zip(row, roots)] for row in mul(lower, vectors)]
    back = mul(turned(to), read)
    back = [[x / root ** 2 for x in row] for row, root in zip(back, roots)]
    found = Linear(exact(mul(back, mul(A, to))), exact(mul(back, B)), exact(mul(C, to)), system.D)
    begins = exact(mul(back, [[float(x)] for x in starts]))
    return from_matrices(made, "balanced", "balanced: each state is driven and read alike", found,
                         [row[0] for row in begins])


def mul(a, b):
    return [[sum(x * b[k][j] for k, x in enumerate(row)) for j in range(len(b[0]))] for row in a]


def turned(a):
    return [list(column) for column in zip(*a)]


def exact(a):
    return [[Fraction(round(x * 10 ** 17), 10 ** 17) for x in row] for row in a]


def gramian(A, drive):
    """Returns the sum over t of A^t drive A^t', by doubling."""
    total, power = drive, A
    for _ in range(60):
        more = mul(power, mul(total, turned(power)))
        total = [[x + y for x, y in zip(*rows)] for rows in zip(total, more)]
        power = mul(power, power)
        if max(abs(x) for row in power for x in row) < 1e-20:
            break
    return total


def cholesky(a):
    size = len(a)
    lower = [[0.0] * size for _ in range(size)]
    for i in range(size):
        for j in range(i + 1):
            rest = a[i][j] - sum(lower[i][k] * lower[j][k] for k in range(j))
            if i == j:
                if rest <= 0:
                    raise Impossible("a state is hardly driven")
                lower[i][i] = rest ** 0.5
            else:
                lower[i][j] = rest / lower[j][j]
    return lower


def jacobi(a):
    """Returns the eigenvalues of a symmetric matrix and their vectors as columns."""
    size = len(a)
    a, vectors = [list(row) for row in a], [[float(i == j) for j in range(size)] for i in range(size)]
    for _ in range(60):
        off = max((abs(a[i][j]) for i in range(size) for j in range(i)), default=0)
        if off < 1e-30 * max(abs(a[i][i]) for i in range(size)):
            break
        for p in range(size):
            for q in range(p + 1, size):
                if a[p][q]:
                    turn(a, vectors, p, q)
    return [a[i][i] for i in range(size)], vectors


def turn(a, vectors, p, q):
    """Turns rows and columns p and q so that what stands between them becomes 0."""
    theta = (a[q][q] - a[p][p]) / (2 * a[p][q])
    t = (1 if theta >= 0 else -1) / (abs(theta) + (theta * theta + 1) ** 0.5)
    c = 1 / (t * t + 1) ** 0.5
    s = t * c
    for row in a:
        row[p], row[q] = c * row[p] - s * row[q], s * row[p] + c * row[q]
    a[p], a[q] = [c * x - s * y for x, y in zip(a[p], a[q])], [s * x + c * y for x, y in zip(a[p], a[q])]
    for row in vectors:
        row[p], row[q] = c * row[p] - s * row[q], s * row[p] + c * row[q]
