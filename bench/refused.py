#!/usr/bin/env python3
"""Refuses each request for memory of a few runs in turn: refused.py [--most N] [PROGRAM [RUN ..]]

Tested is what docs/messages.md says of status 8, and that no refusal is lost or half said. Each run is made once in
full; then once more for each of its requests, which `refuse.c` refuses, and again with all behind it refused too. Where
a run has more than N requests (3,000 without it), a sample spread over all of them is refused, and the table says so.
Each must end

- `whole`: with status, output and line of the run in which nothing is refused; or
- with 8 and `fixd: out of memory`, and a front of that run's output; or
- where the standard library met the refusal while it read or wrote, with 6 or 7 and its line, and such a front.

`limits` is `check` of a bundle of 2 MB under limits on all memory (RLIMIT_AS) from 3,000 to 40,000 KiB, which ends in
the first or the second of these ways, once there is enough for the program to begin.

Anything else is a fault: a signal, another status or line, other output, or one that isn't over after ten minutes. It
is shown with the command that repeats it, and the script ends with 1. A RUN is one of the names in the table, or
`limits`; without one, all are made. Outside the gate: it needs a built program, `cc`, and the GNU C library.
"""
import os
import resource
import subprocess
import sys
import tempfile
from collections import Counter

HERE = os.path.dirname(os.path.abspath(__file__))
EXAMPLES = os.path.join(HERE, "..", "examples")
LINES = {6: b"fixd: read fault\n", 7: b"fixd: write fault\n", 8: b"fixd: out of memory\n"}
BIQUAD = """def biquad(x: Real)(s: Real = 0, t: Real = 0): (Real, Real, Real) = {
  require(-1 <= x && x <= 1)
  val y = 0.25 * x + s
  (y, 0.5 * x + 0.5 * y + t, 0.25 * x - 0.25 * y)
}
"""


def example(name):
    return os.path.normpath(os.path.join(EXAMPLES, name))


def runs(folder):
    """Each run's name, words and input."""
    average, rows = example("average/average.bundle"), example("average/average.csv")
    half, biquad = example("half/half.fixd"), os.path.join(folder, "biquad.fixd")
    with open(biquad, "w", encoding="utf-8") as file:
        file.write(BIQUAD)
    quoted = os.path.join(folder, "quoted.csv")
    with open(quoted, "w", encoding="utf-8") as file:
        file.write('"a note","u"\n"one, two","0.5"\n,-1\n')
    units = os.path.join(folder, "units.csv")
    with open(units, "w", encoding="utf-8") as file:
        file.write('"unit","u"\n1,1\n"0","0.5"\n1,-1\n')
    many = os.path.join(folder, "many.csv")
    with open(many, "w", encoding="utf-8") as file:
        file.write("x\n" + "0.3\n0.75\n" * 20)
    return [
        ("run", ["run", average], rows),
        ("quoted", ["run", average], quoted),
        ("many", ["run", example("half/half.bundle")], many),
        ("node", ["node", "--units", "1024", average], example("average/motors.csv")),
        ("units", ["node", "--units", "2", average], units),
        ("check", ["check", average], os.devnull),
        ("show", ["show", average], os.devnull),
        ("half", ["synth", "--width", "16", half], os.devnull),
        ("biquad", ["synth", "--width", "32", biquad], os.devnull),
        ("demo", ["demo", "3"], os.devnull),
        ("words", ["synth", "--width", "17", half], os.devnull),
    ]


class Refuser:
    """A program, and the library that refuses its requests."""

    def __init__(self, program, folder):
        self.program, self.count = program, os.path.join(folder, "count")
        self.library = os.path.join(folder, "refuse.so")
        subprocess.run(["cc", "-shared", "-fPIC", "-O1", "-o", self.library, os.path.join(HERE, "refuse.c")],
                       check=True)

    def settings(self, at, behind):
        """The environment in which the request of this number is refused, or none where it is 0."""
        given = {"LD_PRELOAD": self.library, "REFUSE_AT": str(at), "REFUSE_REPORT": self.count}
        return {**given, **({"REFUSE_ALL": "1"} if behind else {})}

    def call(self, words, rows, at, behind=False):
        """Status, output and line of a run."""
        settings = {"ASAN_OPTIONS": "verify_asan_link_order=0", **os.environ, **self.settings(at, behind)}
        with open(rows, "rb") as source:
            try:
                ran = subprocess.run([self.program, *words], stdin=source, capture_output=True, env=settings,
                                     timeout=600)
            except subprocess.TimeoutExpired:
                return None, b"", b""
        return ran.returncode, ran.stdout, ran.stderr

    def requests(self):
        with open(self.count, encoding="utf-8") as file:
            return int(file.read())

    def repeat(self, words, rows, at, behind):
        """The command that makes this run again; the library is built as `refuse.c` says."""
        settings = {**self.settings(at, behind), "LD_PRELOAD": "./refuse.so"}
        del settings["REFUSE_REPORT"]
        front = " ".join(f"{name}={value}" for name, value in settings.items())
        return f"{front} {self.program} {' '.join(words)} < {rows}"


def ending(whole, seen):
    """The name of a lawful ending, or None."""
    if seen == whole:
        return "whole"
    status, output, line = seen
    if LINES.get(status) == line and whole[1].startswith(output):
        return str(status)
    return None


def numbers(count, most):
    """The requests that are refused: all, or so many spread evenly, with the first and the last."""
    if count <= most:
        return list(range(1, count + 1))
    return sorted({1 + k * (count - 1) // (most - 1) for k in range(most)})


def refuse(refuser, name, words, rows, most):
    """Makes one run as often as it has requests, prints its line of the table, and gives the count of faults."""
    whole = refuser.call(words, rows, 0)
    count = refuser.requests()
    if whole != refuser.call(words, rows, 0):
        sys.exit(f"refused: {name} ends otherwise when it is made again")
    tried, ends, faults = numbers(count, most), Counter(), 0
    for at in tried:
        for behind in (False, True):
            seen = refuser.call(words, rows, at, behind)
            end = ending(whole, seen)
            ends[end] += 1
            if end is None:
                faults += 1
                print(f"FAULT: status {seen[0]}, {seen[1][:200]!r}, {seen[2][:400]!r}: "
                      f"{refuser.repeat(words, rows, at, behind)}")
    part = "each" if len(tried) == count else f"{len(tried):,} of them"
    told = " | ".join(f"{ends[end]:,}" for end in ("8", "6", "7", "whole", None))
    print(f"| {name} | {whole[0]} | {count:,} | {part} | {told} |", flush=True)
    return faults


def limited(program, path, limit):
    """Status, output and line of `check` where all memory is limited to so many KiB; status 127 where the program can't
    begin."""
    def narrow():
        resource.setrlimit(resource.RLIMIT_AS, (limit * 1024, limit * 1024))
    try:
        ran = subprocess.run([program, "check", path], stdin=subprocess.DEVNULL, capture_output=True, preexec_fn=narrow)
    except (OSError, subprocess.SubprocessError):
        return 127, b"", b""
    return ran.returncode, ran.stdout, ran.stderr


def try_limits(program, folder):
    """Prints how `check` ends under each limit, and gives the count of faults."""
    path, ends, faults = os.path.join(folder, "forms"), Counter(), 0
    with open(path, "wb") as file:
        subprocess.run([sys.executable, os.path.join(HERE, "bundles.py"), "forms"], stdout=file, check=True)
    if limited(program, path, 1048576)[0] != 0:
        print("limits: left out, since this program can't begin with a GiB")
        return 0
    whole = limited(program, path, 1048576)
    for limit in range(3000, 40001, 500):
        seen = limited(program, path, limit)
        end = "not begun" if seen[0] == 127 and ends.keys() <= {"not begun"} else ending(whole, seen)
        ends[end] += 1
        if end not in ("not begun", "8", "whole"):
            faults += 1
            print(f"FAULT: {seen} within {limit} KiB")
    print("limits: " + ", ".join(f"{count} {end}" for end, count in ends.items()))
    return faults


def main():
    words, most = sys.argv[1:], 3000
    if words[:1] == ["--most"]:
        most, words = int(words[1]), words[2:]
    program = words[0] if words else os.path.join(HERE, "..", "build", "fixd")
    faults = 0
    with tempfile.TemporaryDirectory() as folder:
        refuser = Refuser(os.path.abspath(program), folder)
        print("| run | status | requests | refused | 8 | 6 | 7 | whole | faults "
              "|\n|---|---|---|---|---|---|---|---|---|")
        for name, called, rows in runs(folder):
            if not words[1:] or name in words[1:]:
                faults += refuse(refuser, name, called, rows, most)
        if not words[1:] or "limits" in words[1:]:
            faults += try_limits(refuser.program, folder)
    sys.exit(1 if faults else 0)


if __name__ == "__main__":
    main()
