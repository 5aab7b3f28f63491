#!/usr/bin/env python3
"""Draws docs/layers.md from crates.txt and the heads of the crates: house.py [--write | --check]

crates.txt has its crates in groups: a comment `# NAME: WHY` begins one. A group stands on others where a crate of it
does, and a crate on others as it names them; both are shown reduced, so that what follows by way of another isn't
drawn. Of a crate the page has the first paragraph of `lib.rt` (or `main.rt`), which is its purpose, and the section
`# Contract` behind it. Without an option all is printed; --write puts it into the page between its marks, and --check
compares: the picture, each group's table and crates, and that the headings are the groups in the order of crates.txt.
"""
import itertools
import os
import re
import sys
import textwrap

from crates import LIST, TOP, closed, listed

PAGE = f"{TOP}/docs/layers.md"
PART = re.compile(r"(<!-- drawn: ([^>]+) -->)(.*?)(<!-- end of drawn -->)", re.S)
GROUP = re.compile(r"^# ([^:]+): (.+)$")
LINK = re.compile(r"\bdocs/(\w+\.md)")
WIDE, GAP = 66, 2


def groups():
    """Returns for each group, from the bottom, why it is one, and its crates."""
    found = {}
    with open(LIST, encoding="utf-8") as file:
        for line in file:
            head = GROUP.match(line)
            if head:
                name = head[1]
                found[name] = (head[2].strip(), [])
            elif not line.startswith("#"):
                found[name][1].append(line.partition(":")[0])
    return found


def reduced(below):
    """Returns of what each stands on the part that doesn't follow from the rest, for a relation with all that
    follows."""
    return {it: [one for one in those if not any(one in below[other] for other in those if other != one)]
            for it, those in below.items()}


def group_edges(houses, crates):
    """Returns for each group those that it stands on, in the order of the file."""
    home = {crate: name for name, (_, inside) in houses.items() for crate in inside}
    return {name: [other for other in houses if other != name
                   and any(home.get(low) == other for it in inside for low in crates[it])]
            for name, (_, inside) in houses.items()}


def storeys(edges):
    """Returns the groups by how many stand below them in a row: each stands on the storey directly below it."""
    height = {}
    for name, below in edges.items():
        height[name] = 1 + max((height[it] for it in below), default=-1)
    return [[name for name in edges if height[name] == level] for level in range(max(height.values()) + 1)]


def box(name, inside, wide):
    """Returns the lines of a box with a group's name and its crates, without the `fx_` that they all have."""
    lines, line = [name, ""], ""
    for word in (it.removeprefix("fx_") for it in inside):
        if line and len(line) + 1 + len(word) > wide - 4:
            lines.append(line)
            line = ""
        line = f"{line} {word}".strip()
    return [f"+{'-' * (wide - 2)}+", *(f"| {text.ljust(wide - 4)} |" for text in [*lines, line]),
            f"+{'-' * (wide - 2)}+"]


def picture(houses, edges):
    """Returns the storeys from the top, with the boxes of a storey side by side."""
    lines = []
    for storey in reversed(storeys(edges)):
        wide = (WIDE - GAP * (len(storey) - 1)) // len(storey)
        boxes = [box(name, houses[name][1], wide) for name in storey]
        tall = max(map(len, boxes))
        boxes = [[*it[:-1], *[f"|{' ' * (wide - 2)}|"] * (tall - len(it)), it[-1]] for it in boxes]
        lines += [(" " * GAP).join(row).rstrip() for row in zip(*boxes)]
    return lines


def house(houses, crates, direct):
    """Returns the picture of all groups, and how many lines there are."""
    edges = group_edges(houses, crates)
    plain = reduced(edges)
    for lower, upper in zip(storeys(edges), storeys(edges)[1:]):
        for name in upper:
            assert plain[name] == lower, f"{name} doesn't stand on just the storey below it: the page has to say so"
    shown, all_lines = (sum(len(it) for it in below.values()) for below in (direct, crates_alone(crates)))
    return [*("    " + line for line in picture(houses, edges)), "",
            f"{len(crates)} crates. Of the {all_lines:,} pairs of a crate and one below it, {shown} don't follow from "
            "others: each group's table has its own."]


def crates_alone(crates):
    """Returns what each crate stands on of this repository."""
    return {it: [low for low in below if low in crates] for it, below in crates.items()}


def head_of(crate):
    """Returns the paragraphs that a crate's root begins with, each with its lines."""
    folder = f"{TOP}/crates/{crate}/src"
    with open(f"{folder}/{'lib' if os.path.exists(f'{folder}/lib.rt') else 'main'}.rt", encoding="utf-8") as file:
        lines = [line.rstrip()[4:] for line in itertools.takewhile(lambda it: it.startswith("//!"), file)]
    return [list(some) for full, some in itertools.groupby(lines, bool) if full]


def contract(head):
    """Returns the paragraphs of the section Contract."""
    behind = itertools.islice(itertools.dropwhile(lambda it: it != ["# Contract"], head), 1, None)
    return list(itertools.takewhile(lambda it: not it[0].startswith("# "), behind))


def wrapped(lines):
    """Returns a paragraph, or each item of a list, in lines of up to 120, with the names of pages as links."""
    text = LINK.sub(r"[\1](\1)", " ".join(line.strip() if not line.startswith("- ") else f"\n{line}" for line in lines))
    return [line for part in text.strip().split("\n") for line in textwrap.wrap(
        part, 120, subsequent_indent="  " * part.startswith("- "), break_long_words=False, break_on_hyphens=False)]


def entry(crate):
    """Returns what the page has of a crate: its name, its purpose and its contract."""
    head = head_of(crate)
    parts = [wrapped(it) for it in [head[0], *contract(head)]]
    return ["", f"### `{crate}`", *(line for part in parts for line in ["", *part])]


def table(why, inside, direct):
    """Returns a group's sentence, for each of its crates what it stands on directly, and each crate."""
    rows = [f"| `{it}` | {', '.join(f'`{low}`' for low in direct[it]) or 'none of ours'} |" for it in inside]
    entries = [line for it in inside for line in entry(it)]
    return [*textwrap.wrap(why, 120), "", "| crate | stands directly on |", "|---|---|", *rows, *entries]


def parts():
    """Returns what this script writes into the page, by name: the house, and a part for each group."""
    crates, houses = closed(listed()), groups()
    direct = reduced(crates_alone(crates))
    found = {"house": house(houses, crates, direct),
             **{name: table(why, inside, direct) for name, (why, inside) in houses.items()}}
    return {name: "\n".join(["", "", *lines, "", ""]) for name, lines in found.items()}


def filled(text):
    """Returns the page with all parts between their marks."""
    made = parts()
    return PART.sub(lambda found: found[1] + made.get(found[2], found[3]) + found[4], text)


def wrong_in(text):
    """Returns what differs between the page and crates.txt."""
    wrong = ([] if filled(text) == text
             else ["it isn't what crates.txt and the heads of crates say: tools/house.py --write"])
    wrong += [f"there is no part for {name}" for name in parts() if name not in [it[1] for it in PART.findall(text)]]
    wanted, told = list(groups()), re.findall(r"^## (.*)$", text, re.M)[1:]
    if wanted != told:
        wrong.append(f"its groups are {', '.join(told)}, and those of crates.txt {', '.join(wanted)}")
    wrong += [f"{crate} has no section Contract" for crate in listed() if not contract(head_of(crate))]
    return wrong


def main():
    with open(PAGE, encoding="utf-8") as file:
        text = file.read()
    if "--check" in sys.argv:
        wrong = wrong_in(text)
        print("\n".join(f"docs/layers.md: {line}" for line in wrong), end="\n" if wrong else "")
        return len(wrong) > 0
    if "--write" in sys.argv:
        with open(PAGE, "w", encoding="utf-8") as file:
            file.write(filled(text))
    else:
        print("\n".join(f"{name}:{part}" for name, part in parts().items()))
    return 0


if __name__ == "__main__":
    sys.exit(main())
