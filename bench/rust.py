#!/usr/bin/env python3
"""Compiles what `fixd rust` prints, and compares it with `fixd run`: rust.py [--fixd PROGRAM] [--count N]

The bundles are those of examples/, what `synth` finds for the sources there that have none, at 16, 32 and 64 bits and
with both roundings, and N bundles (200 without it) that random_bundles.py makes, of all widths and both versions in
turn. Of each, a thousand rows in range are run (bench/texts.py). Tried is that

- the text compiles as a library without std, and no warning comes but `unused_variables`;
- it gives the words of `fixd run`, state carried from the start words, with overflow checks and with -O;
- with all words in 128 bits it gives the same, and each word lies in its width of `fixd widths`;
- `fixd mixed` prints what `fixd run` prints.

A difference ends the script with 1 and leaves its folder there. --no-synth leaves out what `synth` makes. bench/c.py
does the like with C. Outside the gate: it needs a built program and rustc.
"""
import argparse
import shutil
import sys
import tempfile
from collections import Counter
from dataclasses import dataclass

import rust_programs
import texts
from texts import ROWS, WIDTHS, Case, Failed, Trouble, case_of

GROUP = 64


@dataclass
class RustCase(Case):
    """A case with its Rust text."""
    text: str


def rust_case(fixd, path):
    """Returns a bundle's case; `mixed` has to print what `run` prints."""
    case = case_of(fixd, path)
    if fixd.printed("mixed", path, rows=case.given).decode().splitlines() != case.page:
        raise Failed(f"mixed and run print other pages of {path}")
    return RustCase(**vars(case), text=fixd.printed("rust", path).decode())


def compared(cases, folder):
    """Compiles and compares a group. Returns what was counted."""
    count = Counter(rust_programs.as_library(cases, folder))
    other = set(count) - {"unused_variables"}
    if other:
        raise Failed(f"rustc warns of {', '.join(sorted(other))}")
    words = b"".join(case.words for case in cases)
    checked, fast = rust_programs.as_programs(cases, folder, words)
    wide, ends = rust_programs.words_seen(cases, folder, words)
    for what, page in (("-O", fast), ("words of 128 bits", wide)):
        if page != checked:
            raise Failed(f"{what} and the checked program differ in one of {', '.join(case.path for case in cases)}")
    at = 0
    for k, case in enumerate(cases):
        size = 8 * ROWS * (case.bundle.outputs + case.bundle.states)
        if list(texts.page_of(case, checked[at:at + size])) != case.page:
            raise Failed(f"the program and run print other pages of {case.path}")
        at += size
        for name, bits in enumerate(case.widths):
            low, high = ends[k, name]
            if not -2 ** (bits - 1) <= low <= high < 2 ** (bits - 1):
                raise Failed(f"code {name} of {case.path} has words from {low} to {high}, which aren't of {bits} bits")
        count += counted(case)
    if at != len(checked):
        raise Failed("the programs wrote more than is due")
    return count


def counted(case):
    count = Counter(bundles=1, rows=ROWS, codes=len(case.widths))
    count["with states"] += case.bundle.states > 0
    for code, bits in zip(case.bundle.codes, case.widths):
        count[code.word] += 1
        count[f"in {bits} bits"] += 1
        count["shifted to the left"] += min(code.shifts, default=0) < 0
    return count


def groups(given, folder):
    """Yields groups of cases."""
    paths = texts.example_bundles()
    if not given.no_synth:
        paths += texts.found_bundles(given.fixd, folder)
    paths += texts.drawn_bundles(given.fixd, folder, given.count, given.seed)
    for at in range(0, len(paths), GROUP):
        yield [rust_case(given.fixd, path) for path in paths[at:at + GROUP]]


def words_given():
    parser = argparse.ArgumentParser(description=__doc__, formatter_class=argparse.RawDescriptionHelpFormatter)
    texts.add_programs(parser, with_c=False)
    parser.add_argument("--count", type=int, default=200)
    parser.add_argument("--seed", type=int, default=0, help="where the draws of the random bundles begin")
    parser.add_argument("--no-synth", action="store_true")
    given = parser.parse_args()
    texts.take_programs(parser, given)
    return given


def main():
    given = words_given()
    folder, count = tempfile.mkdtemp(), Counter()
    try:
        for cases in groups(given, folder):
            count += compared(cases, folder)
            print(f"{count['bundles']} bundles", file=sys.stderr, flush=True)
    except (Failed, Trouble) as failed:
        raise SystemExit(f"rust: {failed}\nwhat was compiled is in {folder}") from failed
    shutil.rmtree(folder)
    print(f"{count['bundles']} bundles, {count['with states']} with states, {count['codes']} codes, "
          f"{count['rows']} rows:")
    print("the text in Rust (checked, -O, and in words of 128 bits) and `mixed` give what `run` prints")
    print("warnings of rustc:", count["unused_variables"], "unused_variables, no other")
    print(count["shifted to the left"], "sums, differences and copies shift to the left")
    for kind in ("in st const neg add sub mul mulr div copy copyr".split(), [f"in {bits} bits" for bits in WIDTHS]):
        print(", ".join(f"{count[name]} {name}" for name in kind))


if __name__ == "__main__":
    main()
