#!/usr/bin/env python3
"""Compiles what `fixd-c` prints, and compares it with `fixd run`: c.py [--fixd PROGRAM] [--fixd-c PROGRAM] [--count N]

The bundles are those of examples/ and of cases/, what `synth` finds for the sources of examples/ that have none, at 16,
32 and 64 bits and with both roundings, two of 4,000 codes (bundles.py), those of shifts.py, and N (700 without it) that
random_bundles.py makes, of all widths and both versions in turn. Of each, a thousand rows in range are run
(bench/texts.py). Tried is that

- source and header compile as C99 by gcc and by clang without a warning, with -Wall -Wextra -Wpedantic -Wconversion
  -Wsign-conversion, and the header as C++ by g++ too;
- under -fsanitize=undefined, and with -O2, the step gives the words of `fixd run`, from the reset on;
- each macro of the header is, in `#if`, what bundle and source say;
- the MISRA addon of cppcheck, which takes a second a text and is asked of one in 7, finds nothing but rule 10.1 at the
  one line of each helping function, and what it says of two things that it doesn't know (c_programs.py).

A difference ends the script with 1 and leaves its folder there. Last it counts what was tried, and which shifts.
--no-synth leaves out what `synth` makes, --no-cases the stored cases; --misra N asks cppcheck of one text in N, 0 of
none. Outside the gate: it needs both programs, gcc, g++, clang and cppcheck.
"""
import argparse
import concurrent.futures
import os
import shutil
import subprocess
import sys
import tempfile
from collections import Counter
from dataclasses import dataclass

import bundles as made_bundles
import c_programs
import shifts
import texts
from texts import ROWS, WIDTHS, Case, Failed, Trouble, case_of


@dataclass
class CCase(Case):
    """A case with its two texts."""
    source: str
    header: str


def printed(program, *words):
    """Returns what `fixd-c WORDS` prints."""
    done = subprocess.run([program, *words], capture_output=True, text=True, check=False)
    if done.returncode or done.stderr:
        raise Failed(f"fixd-c {' '.join(words)} ends with {done.returncode}: {done.stderr.strip()}")
    return done.stdout


def c_case(given, path):
    """Returns a bundle's case with its two texts."""
    return CCase(**vars(case_of(given.fixd, path)), source=printed(given.fixd_c, path),
                 header=printed(given.fixd_c, "--header", path))


def compared(given, path, number, folder):
    """Compiles and compares the texts of the bundle of this number. Returns what was counted, and its sizes."""
    case, room = c_case(given, path), tempfile.mkdtemp(dir=folder)
    pages = c_programs.pages(case, room)
    first = pages["gcc"]
    for what, page in pages.items():
        if page != first:
            raise Failed(f"{what} and gcc give other words of {path}, in {room}")
    if list(texts.page_of(case, first)) != case.page:
        raise Failed(f"the program and run print other pages of {path}, in {room}")
    is_asked = given.misra > 0 and number % given.misra == 0
    found = c_programs.findings(case, room) if is_asked else []
    if not set(found) <= c_programs.FINDINGS:
        raise Failed(f"cppcheck finds {found} in the text of {path}, in {room}")
    shutil.rmtree(room)
    count, bundle = counted(case, found), case.bundle
    count["helping functions"] = case.source.count(c_programs.FLOOR) if is_asked else 0
    return count, (bundle.inputs, bundle.states, bundle.outputs, len(bundle.codes))


def counted(case, found):
    """Counts what a case has."""
    count, bundle = Counter(bundles=1, rows=ROWS, codes=len(case.widths)), case.bundle
    count["with states"] += bundle.states > 0
    count["in fixd_wide"] += "fixd_wide" in case.source
    count["INT64_MIN"] += "INT64_MIN" in case.source
    count["unread"] += case.source.count("(void)")
    for finding in found:
        count[finding] += 1
    for code, bits in zip(bundle.codes, case.widths):
        count[code.word] += 1
        count[f"in {bits} bits"] += 1
        for shift in code.shifts:
            count[bundle.width, bundle.version, code.word, shifts.kind(shift, bundle.width)] += 1
    return count


def paths_of(given, folder):
    """Yields the paths of the bundles."""
    yield from texts.example_bundles()
    for name in ("plain", "forms"):
        yield texts.put(folder, name, made_bundles.KINDS[name]().encode())
    yield from shifts.paths(given.fixd, folder)
    if not given.no_cases:
        yield from texts.case_bundles(given.fixd, folder)
    if not given.no_synth:
        yield from texts.found_bundles(given.fixd, folder)
    yield from texts.drawn_bundles(given.fixd, folder, given.count, given.seed)


def words_given():
    parser = argparse.ArgumentParser(description=__doc__, formatter_class=argparse.RawDescriptionHelpFormatter)
    texts.add_programs(parser, with_c=True)
    parser.add_argument("--count", type=int, default=700)
    parser.add_argument("--seed", type=int, default=0, help="where the draws of the random bundles begin")
    parser.add_argument("--no-synth", action="store_true")
    parser.add_argument("--no-cases", action="store_true")
    parser.add_argument("--misra", type=int, default=7, metavar="N", help="ask cppcheck of one text in N")
    parser.add_argument("--jobs", type=int, default=os.cpu_count(), help="so many bundles at once")
    given = parser.parse_args()
    texts.take_programs(parser, given)
    return given


def tried(given, folder):
    """Tries all bundles, and returns what was counted and the greatest sizes."""
    count, most = Counter(), (0, 0, 0, 0)
    with concurrent.futures.ThreadPoolExecutor(given.jobs) as pool:
        try:
            tasks = enumerate(paths_of(given, folder))
            for found, sizes in pool.map(lambda it: compared(given, it[1], it[0], folder), tasks):
                count += found
                most = tuple(map(max, most, sizes))
                if count["bundles"] % 50 == 0:
                    print(f"{count['bundles']} bundles", file=sys.stderr, flush=True)
        except (Failed, Trouble):
            pool.shutdown(cancel_futures=True)
            raise
    return count, most


def tell(count, most):
    """Prints what was counted."""
    print(f"{count['bundles']} bundles, {count['with states']} with states, {count['codes']} codes, "
          f"{count['rows']} rows;")
    print("at most {} inputs, {} states, {} outputs and {} codes:".format(*most))
    print("the C by gcc and by clang, sanitized, and with -O2 in a program of C++, gives what `run` prints")
    print(f"no warning; {count['in fixd_wide']} bundles compute in 128 bits, {count['INT64_MIN']} have INT64_MIN, "
          f"{count['unread']} names are taken by nothing")
    told = ", ".join(f"{count[rule, place]} {rule} {place}" for rule, place in sorted(c_programs.FINDINGS))
    print(f"cppcheck, of {count['helping functions']} helping functions: {told}")
    for kind in ("in st const neg add sub mul mulr div copy copyr".split(), [f"in {bits} bits" for bits in WIDTHS]):
        print(", ".join(f"{count[name]} {name}" for name in kind))
    lacking = shifts.lacking(count)
    told = f"{len(lacking)} weren't, as {lacking[0]}" if lacking else "all were"
    print(f"of shifts by 0, 1, N-1, N, 2N-2 and below 0, of each code, at each width, in both versions, {told} tried")


def main():
    given = words_given()
    folder = tempfile.mkdtemp()
    try:
        count, most = tried(given, folder)
    except (Failed, Trouble) as failed:
        raise SystemExit(f"c: {failed}\nwhat was compiled is in {folder}") from failed
    shutil.rmtree(folder)
    tell(count, most)


if __name__ == "__main__":
    main()
