"""fixd-tools width FILE: what each width and rounding comes to."""
from __future__ import annotations

import concurrent.futures
import json
from fractions import Fraction
from math import log2

from .centred import centred
from .exact import at_most, dyadic, shown
from .fixd import WIDTHS, Trouble, find, progress, readable
from .search import bytes_of_words, free_of_demands, search
from .reader import Fault
from .sources import function_of

HELP = "a table of the widths: found or not, bounds, bytes"
DESCRIPTION = """Searches a bundle at each width and with each rounding, and prints a table: each output's certified
bound as a decimal, the binary places that are right (the bound is at most 2^-places), the bound as a part of the
output's certified range, and the bytes of all words, each in its own least width. '*' marks the least width that
keeps the demands."""


def add_to(parser) -> None:
    """Adds this subcommand's words."""
    parser.add_argument("file", metavar="FILE", help="a source")
    parser.add_argument("--function", metavar="NAME", help="the function, where the source has several")
    parser.add_argument("--widths", metavar="N,N", default=",".join(map(str, WIDTHS)),
                        help="the widths to look at (default: all eight)")
    parser.add_argument("--round", choices=["floor", "nearest", "both"], default="both",
                        help="the roundings to look at (default: both)")
    parser.add_argument("--centred", action="store_true",
                        help="at nearest, look also at the source with results and vals that are sums in '1 * (..)'")
    parser.add_argument("--tries", type=int, metavar="T", help="as of fixd synth")
    parser.add_argument("--jobs", type=int, default=2, metavar="J", help="how many searches run at a time (default: 2)")
    parser.add_argument("--json", action="store_true", help="print the table as JSON, with exact bounds")


def function_in(data: bytes, path: str, name: str = None):
    """Returns the wanted function of a source, or says how to have its fault explained."""
    try:
        return function_of(data, name)
    except Fault as fault:
        raise Trouble(f"{path}: {fault}\nto have that explained: fixd-tools explain synth --width 16 {path}") from None


def widths_of(text: str) -> list:
    """Returns the widths that are asked for."""
    found = [int(it) for it in text.split(",") if it.strip().isdigit()]
    if not found or any(it not in WIDTHS for it in found):
        raise Trouble(f"--widths {text}: widths are {', '.join(map(str, WIDTHS))}, parted by commas")
    return found


def places(bound: Fraction):
    """Returns how many binary places are right: the greatest p such that a bound is at most 2^-p, with one digit behind
    the point."""
    return None if bound == 0 else int(-log2(bound) * 10 // 1) / 10


def run(words) -> int:
    """Runs the subcommand."""
    fixd, data = find(words.fixd), readable(words.file)
    made = function_in(data, words.file, words.function)
    texts = {rounding: data for rounding in (["floor", "nearest"] if words.round == "both" else [words.round])}
    if words.centred and "nearest" in texts and centred(data, made) != data:
        texts["nearest+"] = centred(data, made)
    jobs = [(width, label) for width in widths_of(words.widths) for label in texts]

    def one(job):
        width, label = job
        text, rounding = texts[label], label.rstrip("+")
        found = search(fixd, text, made.name, width, rounding, words.tries)
        if not found.is_found and made.demands():
            free = search(fixd, free_of_demands(text, function_of(text, made.name)), made.name, width, rounding,
                          words.tries)
            free.free, free.why = True, found.why
            found = free if free.is_found else found
        found.rounding = label
        return found, bytes_of_words(fixd, found) if found.is_found else None

    rows = []
    with concurrent.futures.ThreadPoolExecutor(max(1, words.jobs)) as pool:
        for k, row in enumerate(pool.map(one, jobs), 1):
            rows.append(row)
            progress(f"{k} of {len(jobs)} searches")
    if words.json:
        print(json.dumps([value_of(made, *row) for row in rows], indent=1))
    else:
        print_table(made, rows)
    return 0 if any(found.is_found and not found.free for found, _ in rows) else 9


def value_of(made, found, size) -> dict:
    """Returns a row for a machine."""
    out = {"width": found.width, "round": found.rounding, "found": found.is_found and not found.free,
           "keeps_demands": found.is_found and not found.free,
           "why": found.why or None, "seconds": round(found.seconds, 3), "bytes": size}
    if found.is_found:
        out["outputs"] = [{"name": it.name, "bound": dyadic(bound), "range": [dyadic(end) for end in span]}
                          for it, bound, span in zip(made.outputs, found.bounds(), found.spans())]
    return out


def cells(made, found, size) -> list:
    """Returns the cells of a row, a list for each output's three behind the width, the rounding and the bytes."""
    if not found.is_found:
        return [[f"not found ({found.why})", "", ""]] + [["", "", ""]] * (made.count - 1)
    out = []
    for bound, (low, high) in zip(found.bounds(), found.spans()):
        part = shown(100 * bound / (high - low), 2, True) + " %" if high > low else "-"
        out.append([at_most(bound), "all" if bound == 0 else f"{places(bound):.1f}", part])
    return out


def print_table(made, rows) -> None:
    """Prints the table for a reader."""
    for it in made.outputs:
        if it.demanded():
            print(f"demanded of {it.name}: {', '.join(it.demanded())}")
    head = ["width", "round", *[f"{name} of {it.name}" if k == 0 else name for it in made.outputs
                                for k, name in enumerate(("bound", "places", "of range"))], "bytes"]
    kept = [found.width for found, _ in rows if found.is_found and not found.free]
    lines = [head]
    for found, size in rows:
        mark = ("*" if kept and found.width == min(kept) and found.is_found and not found.free else "-" if found.free
                else "")
        lines.append([f"{found.width}{mark}", found.rounding,
                      *[cell for part in cells(made, found, size) for cell in part], str(size or "")])
    broad = [max(len(line[k]) for line in lines if k >= len(line) - 1 or not line[2].startswith("not found"))
             for k in range(len(head))]
    for line in lines:
        print("  ".join(cell.ljust(size) for cell, size in zip(line, broad)).rstrip())
    if kept:
        print(f"* the least width at which a bundle is found{' that keeps the demands' if made.demands() else ''}")
    if any(found.rounding == "nearest+" for found, _ in rows):
        print("nearest+: with each result and val that is a sum in '1 * (..)'")
    if any(found.free for found, _ in rows):
        print("- found only without the demands, which these bounds don't keep")
