"""One input and one output: the transfer function as a product of sections, or all at once."""
from __future__ import annotations

from dataclasses import dataclass
from fractions import Fraction

from .blocks import block_scale
from .form import Form, Impossible, Sum, cleaned, from_matrices, names_for, near_decimal
from .functions import Function
from .linear import Linear, responses
from .polynomials import Root, roots_of, trimmed
from .transfer import transfer_of


@dataclass
class Section:
    """A section: top and bottom as polynomials of one degree, and its poles."""
    top: list
    below: list
    roots: list


def single(made: Function, system: Linear):
    """Returns top and bottom of the transfer function of a function of one input and one output that begins at 0."""
    if len(made.inputs) != 1 or made.count != 1:
        raise Impossible("it is for one input and one output")
    if any(it.start for it in made.states) or any(row[-1] for row in system.B) or system.D[0][-1]:
        raise Impossible("it is for states that begin at 0 and for sums without a number that stands alone")
    transfer = transfer_of(system, [[row[0] for row in system.B]])
    if transfer.order == 0:
        raise Impossible("no state comes through to the output")
    top = [Fraction(0)] * (transfer.order - len(transfer.tops[0][0])) + list(transfer.tops[0][0])
    through = [system.D[0][0] * x for x in transfer.below]
    return [x + y for x, y in zip(through, [Fraction(0)] + top)], transfer.below


def direct(made: Function, system: Linear) -> Form:
    """Transposed direct form II of the whole function, its output multiplied out of the next states."""
    top, below = single(made, system)
    size = len(below) - 1
    A = [[-below[k + 1] if j == 0 else Fraction(int(j == k + 1)) for j in range(size)] for k in range(size)]
    B = [[top[k + 1] - below[k + 1] * top[0], Fraction(0)] for k in range(size)]
    C = [[Fraction(int(j == 0)) for j in range(size)]]
    return from_matrices(made, "direct", "transposed direct form, the output multiplied out of the next states",
                         Linear(A, B, C, [[top[0], Fraction(0)]]), [Fraction(0)] * size)


def grouped(found: list) -> list:
    """Returns roots as groups that are real together: pairs, and single real ones."""
    alone = [root for root, many in found for _ in range(many) if root.im == 0]
    pairs = [root for root, many in found for _ in range(many) if root.im > 0]
    return [[root, Root(root.re, -root.im)] for root in pairs] + [[root] for root in alone]


def poly_of(group: list) -> list:
    """Returns the polynomial of a group of roots."""
    if len(group) == 2 and group[0].im:
        first = group[0]
        return [Fraction(1), -2 * first.real, first.real ** 2 + first.imag ** 2]
    return multiplied(poly_of(group[:1]), poly_of(group[1:])) if len(group) == 2 else [Fraction(1), -group[0].real]


def two_by_two(groups: list, many: int) -> list:
    """Returns groups of poles of which so many have two: single real ones are joined where there are too few pairs."""
    alone = sorted((group for group in groups if len(group) == 1), key=lambda group: group[0].size())
    out = [group for group in groups if len(group) == 2]
    while len(out) < many:
        if len(alone) < 2:
            raise Impossible("its zeros can't be told apart")
        out.append([*alone.pop(), *alone.pop()])
    return sorted(out + alone, key=lambda group: -group[0].size())


def take_zeros(group: list, zeros: list, twos: int) -> list:
    """Returns the top of the section of some poles, and takes its zeros out of the list: the nearest ones, but a pair
    where the `twos` sections that have two poles have to take all pairs that are left."""
    top, room = [Fraction(1)], len(group)
    while room:
        must = room == 2 and sum(len(zero) == 2 for zero in zeros) >= twos
        fit = [zero for zero in zeros if len(zero) <= room and (len(zero) == 2 or not must)]
        if not fit:
            break
        zero = min(fit, key=lambda zero: float((zero[0].real - group[0].real) ** 2
                                               + (abs(zero[0].imag) - abs(group[0].imag)) ** 2))
        zeros.remove(zero)
        top, room = multiplied(top, poly_of(zero)), room - len(zero)
    return top


def sections_of(top: list, below: list) -> list:
    """Returns sections whose product is top over bottom: poles nearest the circle take the nearest zeros, and stand
    last."""
    gain, zeros = trimmed(top)[0], grouped(roots_of(top))
    groups = two_by_two(grouped(roots_of(below)), sum(len(zero) == 2 for zero in zeros))
    made = []
    for k, group in enumerate(groups):
        twos = sum(len(it) == 2 for it in groups[k:])
        made.append(Section(take_zeros(group, zeros, twos), poly_of(group), group))
    made.reverse()
    for k, section in enumerate(made):
        size = len(section.below) - 1
        section.top = [Fraction(0)] * (size + 1 - len(section.top)) + section.top
        sums = responses(*companion(section))
        reach = sums[0].size + abs(section.top[0])
        share = near_decimal(1 / reach) if k + 1 < len(made) and reach else gain
        gain = gain / share if k + 1 < len(made) else Fraction(1)
        section.top = [share * x for x in section.top]
    return made


def companion(section: Section):
    """Returns a section's matrix, row and columns, for its impulse response."""
    size = len(section.below) - 1
    A = [[-section.below[k + 1] if j == 0 else Fraction(int(j == k + 1)) for j in range(size)] for k in range(size)]
    B = [section.top[k + 1] - section.below[k + 1] * section.top[0] for k in range(size)]
    return A, [Fraction(int(j == 0)) for j in range(size)], [B]


def multiplied(a: list, b: list) -> list:
    out = [Fraction(0)] * (len(a) + len(b) - 1)
    for i, x in enumerate(a):
        for j, y in enumerate(b):
            out[i + j] += x * y
    return out


def cascade(made: Function, system: Linear) -> Form:
    """Sections in a row, each a shrinking rotation, two real poles or one."""
    sections = sections_of(*single(made, system))
    form = Form("cascade", "sections in a row, each a shrinking rotation, two real poles or one")
    now, names = made.inputs[0].name, names_for(made, sum(len(it.roots) for it in sections))
    outs = names_for(made, len(sections), "y")
    for k, section in enumerate(sections):
        mine, names = names[:len(section.roots)], names[len(section.roots):]
        form.starts += [(name, Fraction(0)) for name in mine]
        output = add_section(form, section, now, mine)
        if k + 1 < len(sections):
            form.vals.append((outs[k], output))
            now = outs[k]
        else:
            form.outputs.append(output)
    return form


def add_section(form: Form, section: Section, now: str, mine: list) -> Sum:
    """Adds a section's next states, and returns its output."""
    root, scale = section.roots[0], block_scale(section.roots[0])
    first = section.top[1] - section.below[1] * section.top[0]
    if len(mine) == 1:
        form.nexts.append(cleaned({now: scale, mine[0]: root.real}))
        return cleaned({now: section.top[0], mine[0]: first / scale})
    rest, other = section.top[2] - section.below[2] * section.top[0], section.roots[1]
    back, on = (-root.imag, root.imag) if root.im else (Fraction(0), block_scale(other))
    form.nexts.append(cleaned({now: scale, mine[0]: root.real, mine[1]: back}))
    form.nexts.append(cleaned({mine[0]: on, mine[1]: other.real}))
    second = (rest + other.real * first) / on
    return cleaned({now: section.top[0], mine[0]: first / scale, mine[1]: second / scale})
