"""fixd-tools report BUNDLE: the page of evidence for a reviewer."""
from __future__ import annotations

import os
import subprocess

from .budget import budgets_of
from .exact import as_decimal, at_most, dyadic, shown
from .fixd import HERE, find, progress, readable, sum_of
from .plot import panels_of, plotted
from .show import accepted, cut
from .svg import picture
from .told import counted

HELP = "the page of evidence for a reviewer"
DESCRIPTION = """Has 'fixd check' judge the bundle, and prints one page for whoever reviews it: the function with its
ranges, errors and demands, width, certified bounds, where they come from, what acceptance is worth, a picture, and
the sums of bundle, source and program. Of a bundle that isn't accepted there is no page."""


def add_to(parser) -> None:
    """Adds this subcommand's words."""
    parser.add_argument("bundle", metavar="BUNDLE")
    parser.add_argument("--picture", metavar="FILE.svg",
                        help="write a picture of errors seen into this file, and show it on the page")
    parser.add_argument("--count", type=int, default=1000, metavar="N",
                        help="how many rows the picture has (default: 1000)")
    parser.add_argument("--parts", type=int, default=8, metavar="N",
                        help="how many parts of a bound are listed (default: 8)")


def commit() -> str:
    """Returns the commit of the checkout that this companion stands in, if it is one of `fixd` and git knows it."""
    if not (HERE.parent / "crates.txt").exists():
        return ""
    try:
        ended = subprocess.run(["git", "-C", str(HERE), "describe", "--always", "--dirty"], capture_output=True,
                               text=True, check=False)
    except OSError:
        return ""
    return ended.stdout.strip()


def run(words) -> int:
    """Runs the subcommand."""
    fixd = find(words.fixd)
    bundle, bounds, judge = accepted(fixd, words.bundle)
    if words.picture:
        text = picture(panels_of(plotted(words, fixd), None, words.count))
        with open(words.picture, "w", encoding="utf-8") as file:
            file.write(text)
        progress(f"{words.picture} is written")
    print("\n".join(page(fixd, words, bundle, bounds, judge)))
    return 0


def page(fixd, words, bundle, bounds, judge) -> list:
    """Returns the page's lines."""
    made, data, name = judge.made, readable(words.bundle), os.path.basename(words.bundle)
    lines = [f"# {name}", "", f"Function `{bundle.name}`, in words of {bundle.width} bits: "
                              f"{counted(len(bundle.codes), 'code')}, {counted(bundle.inputs, 'input')}, "
             f"{counted(bundle.states, 'state')}, {counted(bundle.outputs, 'output')}; a program of version "
             f"{bundle.version}.", "",
             "Its source, with ranges (`require`), errors (`+/-`) and demands (`ensuring`):", "",
             *["    " + line for line in bundle.source.decode().splitlines()], "",
             "| input | from | to | a given value is off at most |", "|---|---|---|---|",
             *[f"| {it.name} | {as_decimal(it.lo)} | {as_decimal(it.hi)} | {as_decimal(it.off)} |"
               for it in made.inputs], "",
             "| output | no printed value is further from the exact one than | that is at most | demanded |",
             "|---|---|---|---|"]
    for it, bound in zip(made.outputs, bounds):
        lines.append(f"| {it.name} | {dyadic(bound)} | {at_most(bound)} | {', '.join(it.demanded()) or 'nothing'} |")
    return [*lines, "", *worth(fixd), "", *budget_lines(bundle, judge, words.parts), *picture_lines(words),
            *sums(fixd, data, bundle, name)]


def worth(fixd) -> list:
    """Returns what the acceptance is worth, and of which program that is known."""
    standing = fixd.standing()
    text = ["`fixd check` accepts it. What that says: on all rows in the ranges no intermediate leaves its word, no "
            "divisor is zero, each printed value keeps the demanded",
            "ends, and for all true inputs within the errors it is no further than the bound from the source's exact "
            "value, state carried exactly from the first row.", ""]
    if standing:
        return text + [f"Of the program that judged it this page knows that {standing}. `make run` proves the contract "
                       "of what it builds (docs/guarantees.md of the repository",
                       "says which); that the file is still what it built, this page can't see."]
    return text + ["Of the program that judged it this page doesn't know whether it is proved: it isn't one that `make "
                   "run` of a known checkout built. Whoever relies on the page runs",
                   "`fixd check` with a program that they built by `make run` themselves."]


def budget_lines(bundle, judge, most: int) -> list:
    """Returns where the bounds come from."""
    out = ["## Where the bounds come from", ""]
    for it in budgets_of(bundle, judge):
        rows = it.sizes()
        out += [f"{it.name}, {it.how}:", "", "| part | adds at most | what |", "|---|---|---|"]
        kept, rest = rows[:-1][:most], rows[:-1][most:]
        kept = [*kept, *([(f"{len(rest)} further places", sum(size for _, size in rest))] if rest else []), rows[-1]]
        out += [f"| {float(100 * size / it.bound) if it.bound else 0:.1f} % | {shown(size, 3)} | {cut(label, 90)} |"
                for label, size in kept]
        out.append("")
    return out + ["These parts are worked out by `fixd-tools` in exact numbers; only the bound itself is certified.",
                  ""]


def picture_lines(words) -> list:
    if not words.picture:
        return []
    return ["## Errors seen", "", f"![errors of rows, between the lines of the certified "
                                  f"bound]({os.path.basename(words.picture)})", "",
            "Rows that were run for this page: they show how near errors come to the bound, and prove nothing.", ""]


def sums(fixd, data, bundle, name) -> list:
    """Returns the sums of what the page speaks of."""
    lines = ["## What it is about", "", "| | SHA-256 |", "|---|---|", f"| bundle | {sum_of(data)} |",
             f"| source | {sum_of(bundle.source)} |", f"| `fixd` | {fixd.sum()} |", ""]
    now = commit()
    return lines + [(f"This checkout of `fixd`'s repository: {now}. " if now
                     else "") + f"To see it again: `fixd check {name}`, with a `fixd` that `make run` built."]
