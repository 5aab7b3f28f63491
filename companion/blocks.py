"""Blocks side by side, one for each real pole and each pair of poles; those that nearly coincide stand in a row."""
from __future__ import annotations

from decimal import Decimal, localcontext
from fractions import Fraction

from .form import Form, Impossible, from_matrices, near_decimal
from .functions import Function
from .linear import Linear, responses
from .polynomials import Root
from .transfer import over, poles, residues, times, transfer_of

# poles nearly coincide where they are apart by less than this part of their distance from the unit circle
NEAR = 0.5
DIGITS = 300


def block_of(root: Root) -> list:
    """Returns the matrix of a pole: a number, or a rotation that shrinks for one that isn't real."""
    return [[root.real, -root.imag], [root.imag, root.real]] if root.im else [[root.real]]


def block_scale(root: Root) -> Fraction:
    """Returns a number that an input is multiplied by so that a block's state stays about within the input's range."""
    block = block_of(root)
    column = [Fraction(1)] + [Fraction(0)] * (len(block) - 1)
    reach = responses(block, column, [column])[0]
    return near_decimal(1 / reach.size) if reach.settled and reach.size else Fraction(1)


def nearly(first: Root, second: Root) -> bool:
    """Returns whether two poles nearly coincide."""
    apart = (first.real - second.real) ** 2 + (first.imag - second.imag) ** 2
    room = min(root.below_one() / 2 for root in (first, second))
    return float(apart) ** 0.5 < NEAR * float(room)


def clusters_of(found: list) -> list:
    """Returns the poles of the upper half as lists, each as often as it is one; those that nearly coincide together."""
    out = []
    for root in [root for root, many in found for _ in range(many) if root.im >= 0]:
        mine = [cluster for cluster in out if any(nearly(root, other) for other in cluster)]
        joined = [it for cluster in mine for it in cluster]
        out = [cluster for cluster in out if cluster not in mine] + [[*joined, root]]
    return out


def parallel_system(made: Function, system: Linear):
    """Returns matrices of blocks side by side, and the starts."""
    starts = [it.start for it in made.states]
    columns = [[row[i] for row in system.B] for i in range(len(made.inputs) + 1)]
    kept = [i for i, column in enumerate(columns) if any(column)]
    driven = [columns[i] for i in kept] + ([starts] if any(starts) else [])
    if not driven:
        raise Impossible("nothing drives its states")
    transfer = transfer_of(system, driven)
    found = poles(transfer)
    clusters = clusters_of(found)
    are_apart = all(len(cluster) == 1 for cluster in clusters)
    if are_apart or all(many == 1 for _, many in found) and min(len(driven), len(system.C)) > 1:
        A, B, C = apart([root for cluster in clusters for root in cluster], transfer)
    else:
        A, B, C = in_rows(clusters, system, driven)
    begins = [row[len(kept)] if any(starts) else Fraction(0) for row in B]
    spread = [[row[kept.index(i)] if i in kept else Fraction(0) for i in range(len(columns))] for row in B]
    return Linear(A, spread, C, system.D), begins


def apart(roots: list, transfer):
    """Returns the matrices of one block for each pole, driven and read by its residues."""
    A, B, C = [], [], [[] for _ in transfer.tops]
    for root in roots:
        parts, scale = residues(transfer, root), (block_scale(root), Fraction(0))
        j, i = max(((j, i) for j, row in enumerate(parts) for i in range(len(row))),
                   key=lambda at: sum(x * x for x in parts[at[0]][at[1]]))
        drive = [times(scale, over(one, parts[j][i])) for one in parts[j]]
        reads = [over(row[i], scale) for row in parts]
        add_block(A, block_of(root))
        B += [[one[part] for one in drive] for part in range(2 if root.im else 1)]
        for row, read in zip(C, reads):
            row += [2 * read[0], -2 * read[1]] if root.im else [read[0]]
    return A, B, C


def add_block(A: list, block: list) -> None:
    """Adds a block to a matrix, at its lower right end."""
    before = len(A)
    for row in A:
        row += [Fraction(0)] * len(block)
    A += [[Fraction(0)] * before + row for row in block]


def in_rows(clusters: list, system: Linear, driven: list):
    """Returns the matrices of clusters side by side, each in a row, for one driving column or one output."""
    A, column = rows_of(clusters)
    if len(driven) == 1:
        C = [solved(A, column, answers(system, row, driven[0], len(A))) for row in system.C]
        return A, [[x] for x in column], C
    if len(system.C) == 1:
        B = [solved(A, column, answers(system, system.C[0], one, len(A))) for one in driven]
        return [list(row) for row in zip(*A)], [list(row) for row in zip(*B)], [column]
    raise Impossible("poles coincide: for several inputs and outputs these can't be had in a row")


def rows_of(clusters: list):
    """Returns a matrix, and what one input adds to each state: the input drives the first block of each cluster, and a
    block's last state the next one."""
    A, column = [], []
    for cluster in clusters:
        for k, root in enumerate(sorted(cluster, key=lambda root: root.size())):
            block, scale = block_of(root), block_scale(root)
            add_block(A, block)
            first = len(A) - len(block)
            column += [Fraction(0)] * len(block)
            if k == 0:
                column[first] = scale
            else:
                A[first][first - 1] = scale
    return A, column


def answers(system: Linear, row: list, column: list, count: int) -> list:
    """Returns `row A^t column` for t = 0, 1, .."""
    with localcontext() as context:
        context.prec = DIGITS
        A = [[decimal(x) for x in line] for line in system.A]
        row, now, out = [decimal(x) for x in row], [decimal(x) for x in column], []
        for _ in range(count):
            out.append(sum(x * y for x, y in zip(row, now)))
            now = [sum(x * y for x, y in zip(line, now) if x) for line in A]
        return out


def decimal(value: Fraction) -> Decimal:
    return Decimal(value.numerator) / Decimal(value.denominator)


def solved(A: list, column: list, wanted: list) -> list:
    """Returns the numbers c such that `c A^t column` is what is wanted, for as many t as there are states."""
    size = len(A)
    with localcontext() as context:
        context.prec = DIGITS
        A, now, rows = [[decimal(x) for x in line] for line in A], [decimal(x) for x in column], []
        for one in wanted:
            rows.append([*now, one])
            now = [sum(x * y for x, y in zip(line, now) if x) for line in A]
        for k in range(size):
            best = max(range(k, size), key=lambda i: abs(rows[i][k]))
            rows[k], rows[best] = rows[best], rows[k]
            if not rows[k][k]:
                raise Impossible("its blocks can't be told apart")
            for i in range(size):
                if i != k and rows[i][k]:
                    factor = rows[i][k] / rows[k][k]
                    rows[i] = [x - factor * y for x, y in zip(rows[i], rows[k])]
        return [Fraction(rows[k][size] / rows[k][k]) for k in range(size)]


def parallel(made: Function, system: Linear) -> Form:
    """Blocks side by side: a first order for each real pole, a rotation that shrinks for each pair."""
    found, starts = parallel_system(made, system)
    what = ("blocks side by side: a first order for each real pole, a shrinking rotation for each pair; poles that "
            "nearly coincide stand in a row")
    return from_matrices(made, "parallel", what, found, starts)
