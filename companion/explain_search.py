"""Tells why nothing was found: which node or output, what is reached without the demands, and where a bundle is
found."""
from __future__ import annotations

from fractions import Fraction

from .exact import at_most, greatest, plus, scaled, shown, times
from .fixd import WIDTHS, Fixd, progress, readable
from .forms import row_of
from .inequalities import JOINED
from .linear import linear_of, poles_of
from .nodes import nodes_of
from .search import free_of_demands, search
from .functions import Function
from .sources import function_of, place_of
from .told import Told, counted, listed

SECONDS = 120
HEAVY = 40
# the forms that are tried where nothing is found, those first that are found most often
FORMS = ("parallel", "cascade", "expanded", "balanced")


def told(fixd: Fixd, path: str, call, what: str, index: int) -> Told:
    """Returns what there is to say of `not found: node N` or `output J`. It searches, and says how far it is."""
    data = readable(path)
    made = function_of(data, call.options.get("--function"))
    width, rounding = int(call.options["--width"]), call.options.get("--round", "floor")
    out = Told(f"no bundle of {width} bits was found for '{made.name}'", path)
    if what == "node":
        say_node(out, data, made, index)
    if made.states:
        say_poles(out, made)
    def tries(text, bits, how):
        """Searches a bundle, and stops after two minutes."""
        return search(fixd, text, made.name, bits, how, call.options.get("--tries"), SECONDS).bundle

    reached = say_reached(out, tries, data, made, width, rounding) if made.demands() else None
    if not (made.states and is_unstable(made)):
        say_elsewhere(out, tries, data, made, width, rounding)
        say_forms(out, tries, made, width, rounding)
    if made.demands() and reached is not None:
        out.hints.insert(0, "the demand is the cause: demand a little more than what is reached, take a width at which "
                            "it is kept, or make the errors of the inputs smaller")
    if not out.hints:
        out.hints.append("docs/states.md says how a filter is written that is found" if made.states
                         else "docs/recipes.md, 'When nothing is found'")
    return out


def say_node(out: Told, data: bytes, made: Function, index: int) -> None:
    """Says which node it is, and what keeps the plain rule out there."""
    nodes = nodes_of(made)
    if index >= len(nodes):
        return
    node = nodes[index]
    term = node.term + (f", the value of '{node.val}'" if node.val else "")
    out.notes.append(f"node {index} is {term}")
    if node.tree is not None and node.tree.end:
        out.stands_at(place_of(data, node.tree.at), node.tree.end - node.tree.at)
    elif node.op in ("in", "st"):
        one = (made.inputs + made.states)[index]
        out.stands_at(place_of(data, one.at), len(one.name))
    if made.states and node.op != "/":
        return
    if node.op == "/":
        spans = spans_of(made, nodes)
        below = spans[node.operands[1]] if spans else None
        if below and below[0] <= 0 <= below[1]:
            out.notes.append(f"as intervals see it the divisor lies from {shown(below[0])} to {shown(below[1])}, and "
                             "zero is among that")
            out.hints.append("give the divisor a range without zero; where it can't be zero in truth, as 1 + x * x, "
                             "make it an input with its range, or split the function there")
        else:
            out.hints.append("a wider word keeps the machine's divisor further from zero; of a number, write a "
                             "product: 0.25 * x for x / 4")
        return
    weight = weights_of(made, nodes)[index]
    if weight is not None and weight > HEAVY:
        out.notes.append(f"its weight, a power of two that counts generously, is {weight}, and {HEAVY} is the most "
                         "that is found always (docs/recipes.md, 'Weights')")
        out.hints.append("scale the inputs, as metres to kilometres, and scale the result outside")


def spans_of(made: Function, nodes: list):
    """Returns the interval of each node by plain interval arithmetic, or None behind a divisor that may be zero; states
    are unknown."""
    spans = []
    for k, node in enumerate(nodes):
        given = [spans[j] for j in node.operands]
        if node.op == "in":
            spans.append((made.inputs[k].lo, made.inputs[k].hi))
        elif node.op == "const":
            spans.append((node.tree.value,) * 2)
        elif None in given or node.op == "st":
            spans.append(None)
        elif node.op == "/":
            low, high = given[1]
            spans.append(None if low <= 0 <= high else times(given[0], (1 / high, 1 / low)))
        else:
            spans.append(JOINED[node.op](*given) if node.op in JOINED
                         else scaled(-1, given[0]) if node.op == "neg" else given[0])
    return spans


def power_above(value: Fraction) -> int:
    """Returns the least whole number from 0 on whose power of two isn't below a value."""
    k = 0
    while Fraction(2) ** k < value:
        k += 1
    return k


def weights_of(made: Function, nodes: list) -> list:
    """Returns the weight of each node, None behind a state or a quotient."""
    found = []
    for k, node in enumerate(nodes):
        given = [found[j] for j in node.operands]
        if node.op == "in":
            one = made.inputs[k]
            found.append(power_above(2 * (greatest((one.lo, one.hi)) + one.off)))
        elif node.op == "const":
            found.append(power_above(abs(node.tree.value)))
        elif node.op in ("st", "/") or None in given:
            found.append(None)
        else:
            found.append(max(given) + 2 if node.op in "+-" else sum(given) + 2 if node.op == "*" else given[0])
    return found


def is_unstable(made: Function) -> bool:
    """Returns whether a linear function has a pole on the unit circle or outside."""
    system = linear_of(made)
    return system is not None and any(pole.below_one() <= 0 for pole in poles_of(system.A))


def say_poles(out: Told, made: Function) -> None:
    """Says of a function with state whether it is stable, and how slow."""
    system = linear_of(made)
    if system is None:
        out.notes.append("its next states aren't linear in states and inputs: whether it is stable isn't told here; "
                         "what isn't linear counts as an interval over the states' ranges")
        out.hints.append("put a number in the place of one operand of each product of states, and look which one it is "
                         "(docs/states.md, 'What can be found')")
        return
    poles = poles_of(system.A)
    slowest = poles[0]
    room = slowest.below_one()
    where = f"{shown(slowest.real, 6)}" + (f" +- {shown(abs(slowest.imag), 6)} i" if slowest.im else "")
    if room <= 0:
        exactly = "on" if abs(room) < Fraction(1, 2 ** 100) else "outside"
        out.notes.append(f"a pole lies {exactly} the unit circle, at {where}: what comes in adds up for ever, and no "
                         "bound is to be found")
        out.hints.append("give the sum a leak, as 0.999 * sum + x; or hold it outside: make the clamped value an input "
                         "with its range (docs/recipes.md)" if not slowest.im
                         else "make the poles smaller: the function isn't stable as it is written")
        return
    reach = 2 / room
    out.notes.append(f"all {counted(len(poles), 'pole')} lie within the unit circle; the slowest at {where}, of size "
                     f"{slowest.size():.6f}: a rounding of each row adds up to "
                     f"some {shown(reach, 2)} of itself at worst in a first order, and to more in a pair of poles in "
                     "direct form")


def say_forms(out: Told, tries, made: Function, width: int, rounding: str) -> None:
    """Says which other form of a linear filter is found."""
    system = linear_of(made) if made.states else None
    if system is None:
        return
    known = [row for row in (row_of(made, system, name) for name in FORMS) if not row.why]
    for row in known:
        progress(f"searching {width} bits in form '{row.name}'")
        bundle = tries(row.source.encode(), width, rounding)
        if bundle:
            out.notes.append(f"{width} bits, in form '{row.name}': found: {bounds_told(made, bundle)}")
            out.hints.append(f"fixd-tools forms {out.where} --width {width} --write {row.name} > NEW.fixd")
            return
    if known:
        out.notes.append(f"{width} bits, in form {listed(repr(row.name) for row in known)}: nothing is found")


def bounds_told(made: Function, bundle) -> str:
    return ", ".join(f"{it.name} {at_most(bound)}" for it, bound in zip(made.outputs, bundle.bounds()))


def say_reached(out: Told, tries, data: bytes, made: Function, width: int, rounding: str):
    """Says what is reached without the demands, output by output."""
    progress(f"searching {width} bits without demands")
    bundle = tries(free_of_demands(data, made), width, rounding)
    if bundle is None:
        out.notes.append(f"without its demands nothing is found at {width} bits either: the demands aren't the cause")
        return None
    for j, (it, bound) in enumerate(zip(made.outputs, bundle.bounds())):
        line = bundle.lines[bundle.first_output + j]
        low, high = plus(line.range, line.error)
        if it.error is not None:
            missed = ("demanded and kept" if bound <= it.error
                      else f"demanded, and missed by {shown(bound - it.error, 2, True)}")
            out.notes.append(f"without demands {it.name} is within {at_most(bound)}; {shown(it.error)} is {missed}")
        for end, got, side, sign in ((it.lo, low, "least", -1), (it.hi, high, "greatest", 1)):
            if end is not None:
                over = sign * (got - end)
                missed = "demanded and kept" if over <= 0 else f"demanded, and left by {shown(over, 2, True)}"
                out.notes.append(f"without demands the {side} printed value of {it.name} is {shown(got, 6)}; "
                                 f"{shown(end, 6)} is {missed}")
        if it.error is None and it.lo is None and it.hi is None:
            out.notes.append(f"without demands {it.name} is within {at_most(bound)}; nothing is demanded of it")
    return bundle


def say_elsewhere(out: Told, tries, data: bytes, made: Function, width: int, rounding: str) -> None:
    """Says at which wider words, and with which rounding, a bundle is found."""
    other = "nearest" if rounding == "floor" else "floor"
    progress(f"searching {width} bits with --round {other}")
    bundle = tries(data, width, other)
    out.notes.append(f"{width} bits, --round {other}: "
                     + (f"found: {bounds_told(made, bundle)}" if bundle else "nothing is found"))
    if bundle:
        out.hints.append(f"--round {other}, for a processor whose multiply rounds to the nearest" if other == "nearest"
                         else "--round floor")
    wider = [it for it in WIDTHS if it > width]
    for it in wider[:3] if len(wider) > 3 else wider:
        progress(f"searching {it} bits")
        bundle = tries(data, it, rounding)
        out.notes.append(f"{it} bits: " + (f"found: {bounds_told(made, bundle)}" if bundle else "nothing is found"))
        if bundle:
            out.hints.append(f"--width {it}")
            return
