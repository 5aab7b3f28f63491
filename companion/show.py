"""fixd-tools show BUNDLE: each code with decimals and its term, and where the bound comes from."""
from __future__ import annotations

import json

from . import bundles
from .budget import budgets_of
from .exact import at_most, dyadic, read_bound, shown
from .fixd import Fixd, REJECTED, Trouble, find, readable
from .inequalities import Judge
from .reader import Fault
from .sources import function_of

HELP = "each code with decimals and its term, and where the bound comes from"
DESCRIPTION = """Has 'fixd check' judge the bundle, and prints each code with its point, range and error as decimals
and with its term in the source; then, for each output, what each reading, literal and rounding adds to the certified
bound, the greatest first, and what the analysis itself adds."""


def add_to(parser) -> None:
    """Adds this subcommand's words."""
    parser.add_argument("bundle", metavar="BUNDLE")
    parser.add_argument("--parts", type=int, default=12, metavar="N",
                        help="how many parts of a bound are listed (default: 12)")
    parser.add_argument("--codes", action="store_true", help="the codes alone, without the bound's parts")
    parser.add_argument("--json", action="store_true", help="print all of it as JSON, with exact numbers")


def accepted(fixd: Fixd, path: str) -> tuple:
    """Returns an accepted bundle with the bounds that `check` printed and its judge; else it says why there is nothing
    to show."""
    ran = fixd.check(path)
    if ran.status == REJECTED:
        raise Trouble(f"{path} isn't accepted ({ran.line}), so nothing is certified of it\nto have that explained: "
                      f"fixd-tools explain check {path}")
    if ran.status:
        raise Trouble(f"'fixd check {path}' ended with status {ran.status}: {ran.line}\nto have that explained: "
                      f"fixd-tools explain check {path}")
    bundle = bundles.read(readable(path), path)
    try:
        judge = Judge(bundle, function_of(bundle.source, bundle.name))
    except (Fault, ValueError) as fault:
        raise Trouble(f"{path}: this companion doesn't read its source or steps as fixd does: {fault}") from None
    bounds = [read_bound(line.split()[1]) for line in ran.lines()[1:]]
    if bounds != bundle.bounds():
        raise Trouble(f"{path}: fixd certifies other bounds than this companion reads in the bundle: is {fixd.path} "
                      "another version?")
    return bundle, bounds, judge


def run(words) -> int:
    """Runs the subcommand."""
    bundle, _, judge = accepted(find(words.fixd), words.bundle)
    budgets = [] if words.codes else budgets_of(bundle, judge)
    if words.json:
        print(json.dumps({"name": bundle.name, "width": bundle.width,
                          "codes": [code_value(bundle, judge, n) for n in range(len(bundle.codes))],
                          "outputs": [budget_value(it) for it in budgets]}, indent=1))
        return 0
    print_codes(bundle, judge)
    for it in budgets:
        print_budget(it, words.parts)
    return 0


def code_value(bundle, judge, n) -> dict:
    """Returns a code for a machine."""
    line, node = bundle.lines[n], judge.nodes[n]
    return {"code": bundle.codes[n].text(), "point": bundle.codes[n].point,
            "range": [dyadic(end) for end in line.range], "error": [dyadic(end) for end in line.error],
            "term": node.term, "val": node.val or None}


def budget_value(budget) -> dict:
    """Returns a budget for a machine."""
    return {"name": budget.name, "bound": dyadic(budget.bound), "how": budget.how,
            "parts": [{"what": label, "adds": float(size)} for label, size in budget.sizes()]}


def print_codes(bundle, judge) -> None:
    """Prints a line for each code."""
    print(f"{bundle.name}, width {bundle.width}, a program of version {bundle.version}")
    rows = [["", "code", "point", "range from", "to", "error from", "to", "what it computes"]]
    for n, (code, line) in enumerate(zip(bundle.codes, bundle.lines)):
        node = judge.nodes[n]
        text = f"{node.val} = {node.term}" if node.val else node.term
        rows.append([str(n), code.text(), str(code.point), *[shown(end, 5) for end in line.range],
                     *[shown(end, 3) for end in line.error], text])
    broad = [max(len(row[k]) for row in rows) for k in range(7)]
    for row in rows:
        print("  ".join([cell.ljust(size) for cell, size in zip(row, broad)] + [cut(row[7])]).rstrip())


def cut(text: str, most: int = 60) -> str:
    return text if len(text) <= most else text[:most - 2] + ".."


def print_budget(budget, most: int) -> None:
    """Prints the parts of an output's bound."""
    print(f"\n{budget.name}: within {at_most(budget.bound)} ({dyadic(budget.bound)}); what adds to it, {budget.how}:")
    rows = budget.sizes()
    listed, rest = rows[:-1][:most], rows[:-1][most:]
    for label, size in listed:
        print_part(label, size, budget.bound)
    if rest:
        print_part(f"{len(rest)} further places", sum(size for _, size in rest), budget.bound)
    print_part(*rows[-1], budget.bound)


def print_part(label, size, bound) -> None:
    part = 100 * size / bound if bound else 0
    print(f"  {float(part):6.1f} %  {shown(size, 3):>12}  {cut(label, 90)}")
