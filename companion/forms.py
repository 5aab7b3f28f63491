"""fixd-tools forms FILE: other forms of a filter, how far each is from the given one, and what bound each comes to."""
from __future__ import annotations

import json
import os
import sys
import textwrap
from dataclasses import dataclass, replace
from fractions import Fraction

from . import realise
from .centred import centred
from .exact import at_most, dyadic, greatest
from .fixd import WIDTHS, Trouble, find, progress, readable
from .form import Impossible, source_of
from .linear import linear_of, poles_of
from .search import Found, search
from .sources import function_of
from .transfer import difference, is_same
from .width import function_in

HELP = "a filter in other forms, with the bound of each"
DESCRIPTION = """Writes a linear function with states in other forms, says how far the answers of each can be from
those of the given one (a proved bound, in exact arithmetic, for all rows in range), and what bound and time each
comes to. 'expanded' has outputs and vals multiplied out of the next states; 'cascade' and 'parallel' have blocks in a
row or side by side, a shrinking rotation for each pair of poles; 'balanced' and 'direct' are what they are called.
Standard library only."""

# what answers may be apart for coefficients that are left out, over the greatest input
NOTHING = Fraction(1, 10 ** 13)
CENTRED = {"centred": "each result and val that is a sum is rounded by '1 * (..)'",
           "partial": "each sum is rounded by '1 * (..)'"}


def add_to(parser) -> None:
    """Adds this subcommand's words."""
    parser.add_argument("file", metavar="FILE", help="a source")
    parser.add_argument("--function", metavar="NAME", help="the function, where the source has several")
    parser.add_argument("--width", type=int, default=32, choices=WIDTHS, metavar="N",
                        help="the width at which bundles are searched (default: 32)")
    parser.add_argument("--round", choices=["floor", "nearest"], default="floor",
                        help="as of fixd synth; at nearest, results and partial sums are rounded by '1 * (..)' too")
    parser.add_argument("--seconds", type=float, default=120, metavar="S",
                        help="how long each search may take (default: 120)")
    parser.add_argument("--no-search", action="store_true", help="the distances alone, without bundles")
    parser.add_argument("--write", metavar="FORM",
                        help="print the source of this form, and nothing else; with '+centred' behind it results stand "
                             "in '1 * (..)', with '+partial' all sums")
    parser.add_argument("--json", action="store_true", help="print the table as JSON")


@dataclass
class Row:
    """A form with its source, its distance from the given one for each output, and the bundle that is found."""
    name: str
    what: str
    source: str = ""
    apart: list = None
    dropped: int = 0
    found: Found = None
    why: str = ""


def distances(made, system, source: str) -> list:
    """Returns for each output how far the answers of a form's source can be from the given one's, over all rows in
    range."""
    other = function_of(source.encode())
    theirs = linear_of(other)
    pulses = [it.start for it in made.states], [it.start for it in other.states]
    out = []
    if is_same(system, theirs, pulses):
        return [Fraction(0)] * made.count
    for j in range(made.count):
        total = difference(system, theirs, pulses, j, -1) if any(pulses[0]) or any(pulses[1]) else Fraction(0)
        for i in range(len(made.inputs) + 1):
            if not (any(row[i] for row in [*system.B, *system.D]) or any(row[i] for row in [*theirs.B, *theirs.D])):
                continue
            one = difference(system, theirs, pulses, j, i)
            it = made.inputs[i] if i < len(made.inputs) else None
            size = greatest((it.lo, it.hi)) if it else 1
            total = None if one is None or total is None else total + one * size
        out.append(total)
    return out


def row_of(made, system, name: str) -> Row:
    """Returns a form's row, without its bundle."""
    try:
        form = realise.FORMS[name](made, system)
    except (Impossible, ZeroDivisionError, OverflowError) as fault:
        return Row(name, "", why=str(fault) or "its numbers leave what can be computed")
    row = Row(name, form.what, source_of(made, form), dropped=form.dropped)
    row.apart = distances(made, system, row.source)
    if row.dropped:
        whole = Row(name, form.what, source_of(made, form, True))
        whole.apart = distances(made, system, whole.source)
        row = row if counts_for_nothing(made, row, whole) else whole
    if None in row.apart:
        row.why = "how far it is from the given one can't be bounded"
    return row


def counts_for_nothing(made, row: Row, whole: Row) -> bool:
    """Returns whether what a form leaves out is next to nothing beside the inputs too."""
    if None in row.apart or None in whole.apart:
        return None in whole.apart
    most = max(greatest((it.lo, it.hi)) for it in made.inputs)
    return all(x <= y + most * NOTHING for x, y in zip(row.apart, whole.apart))


def centred_row(made, row: Row, how: str) -> Row:
    """Returns a form with results or all sums in `1 * (..)`, which changes no exact value."""
    data = row.source.encode()
    source = centred(data, function_of(data, made.name), how == "partial").decode()
    return replace(row, name=f"{row.name}+{how}", what=f"{row.what}; {CENTRED[how]}", source=source)


def centred_rows(made, row: Row) -> list:
    """Returns a form with its sums in `1 * (..)`, in each way that differs."""
    found = {row.source: row}
    for how in CENTRED:
        made_so = centred_row(made, row, how)
        found.setdefault(made_so.source, made_so)
    return list(found.values())[1:]


def told_apart(made, row: Row) -> str:
    """Returns a form's distance in words."""
    if not any(row.apart):
        return "exactly the given function"
    each = ", ".join(f"{at_most(x)} of {it.name}" for x, it in zip(row.apart, made.outputs))
    return f"at most {each} from the given function's answers, over all rows in range"


def told_dropped(row: Row) -> str:
    """Returns how many coefficients of a form are dropped, in words."""
    told = ("1 coefficient below 1e-10 of its neighbours is dropped" if row.dropped == 1
            else f"{row.dropped} coefficients below 1e-10 of their neighbours are dropped")
    return f"{told}; the distance counts that"


def run(words) -> int:
    """Runs the subcommand."""
    data = readable(words.file)
    made = function_in(data, words.file, words.function)
    system = linear_of(made)
    if not made.states or system is None:
        raise Trouble(f"'{made.name}' of {words.file} "
                      + ("has no states" if not made.states else "isn't linear in its states and inputs")
                      + ": forms are for linear filters; for a function without states 'fixd synth --tries 10000' "
                        "looks at other ways to write it")
    slowest = poles_of(system.A)[0]
    if slowest.below_one() <= 0:
        raise Trouble(f"'{made.name}' of {words.file} isn't stable: a pole has the size {slowest.size():.6f}, and no "
                      "form of it has a bound")
    if words.write:
        return write(made, system, words)
    rows = [Row("given", "the source as it is", data.decode(), [Fraction(0)] * made.count)]
    rows += [row_of(made, system, name) for name in realise.FORMS]
    if words.round == "nearest":
        rows += [it for row in list(rows) if not row.why for it in centred_rows(made, row)]
    if not words.no_search:
        fixd = find(words.fixd)
        for k, row in enumerate(rows, 1):
            if not row.why:
                row.found = search(fixd, row.source.encode(), made.name, words.width, words.round,
                                   seconds=words.seconds)
            progress(f"{k} of {len(rows)} forms")
    print(json.dumps([value_of(row) for row in rows], indent=1)) if words.json else print_table(made, rows, words)
    return 0


def write(made, system, words) -> int:
    """Prints the source of a form."""
    name, _, how = words.write.partition("+")
    if name not in realise.FORMS or how and how not in CENTRED:
        raise Trouble(f"no form is called '{words.write}': forms are {', '.join(realise.FORMS)}, each with '+centred' "
                      "or '+partial' behind it if you like")
    row = row_of(made, system, name)
    if row.why:
        raise Trouble(f"'{made.name}' has no form '{name}': {row.why}")
    row = centred_row(made, row, how) if how else row
    kept = [f"{made.name} of {os.path.basename(words.file)} in another form, by fixd-tools forms --write "
            f"{words.write}: {row.what};", told_apart(made, row)]
    if row.dropped:
        kept.append(told_dropped(row))
    lines = [line for it in kept for line in textwrap.wrap(it, 117, break_on_hyphens=False)]
    sys.stdout.write("".join(f"// {line}\n" for line in lines) + row.source)
    return 0


def value_of(row: Row) -> dict:
    """Returns a row for a machine."""
    out = {"form": row.name, "what": row.what, "why_not": row.why or None, "dropped": row.dropped,
           "apart": row.apart and [float(x) for x in row.apart], "source": row.source or None}
    if row.found is not None:
        out.update({"found": row.found.is_found, "seconds": round(row.found.seconds, 3),
                    "bounds": [dyadic(x) for x in row.found.bounds()] if row.found.is_found else None})
    return out


def print_table(made, rows: list, words) -> None:
    """Prints the table for a reader: the smallest worst total comes first."""
    print(f"{made.name}, width {words.width}, --round {words.round}")
    head = ["form", "states", "bound", "distance", "seconds"]
    lines = []
    for row in sorted(rows, key=total_of):
        if row.why:
            continue
        count = len(function_of(row.source.encode(), made.name).states)
        bound = ("not searched" if row.found is None else ", ".join(map(at_most, row.found.bounds()))
                 if row.found.is_found else row.found.why)
        lines.append([row.name, str(count), bound, ", ".join(at_most(x) for x in row.apart),
                      f"{row.found.seconds:.2f}" if row.found else ""])
    broad = [max(len(line[k]) for line in [head, *lines]) for k in range(len(head))]
    for line in [head, *lines]:
        print("  ".join(cell.ljust(size) for cell, size in zip(line, broad)).rstrip())
    for row in rows:
        if row.why:
            print(f"{row.name}: can't be: {row.why}")
        if row.dropped:
            print(f"{row.name}: {told_dropped(row)}")
    if not words.no_search:
        print("bound and distance add up to how far a printed value can be from the given function's exact one")
    say_best(rows, words)


def say_best(rows: list, words) -> None:
    """Says how the best form is had, where it is better than the given one by more than a twentieth."""
    best, given = min(rows, key=total_of), rows[0]
    if best.found is None or not best.found.is_found:
        return
    if given.found.is_found and total_of(best)[1] > 0.95 * total_of(given)[1]:
        print("no form is better than the given one by more than a twentieth")
    else:
        print(f"to take the first one: fixd-tools forms {words.file} --write {best.name} > NEW.fixd")


def total_of(row: Row):
    """Returns what rows are sorted by: how far a printed value can be from the given function's exact one, those that
    aren't found last."""
    if row.found is None or not row.found.is_found:
        return (1, 0.0)
    return (0, max(float(a + b) for a, b in zip(row.found.bounds(), row.apart)))
