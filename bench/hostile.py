#!/usr/bin/env python3
"""Gives `fixd` hostile files: hostile.py [--seconds S] [--search] [PROGRAM [PART ..]]

Tested is that each text gets its one answer, and that no text makes `check` work for long: it gets no budget, and its
work is bounded by the text alone. The parts are

- `edits`: one line of the first example's bundle made wrong, and the kind and line that docs/formats.md gives;
- `cuts`: that bundle cut behind each of its lines;
- `lines`: 64 MiB of the lines of each section of a bundle, and of bytes that are nothing;
- `sources`: texts of a megabyte for `synth` that open, nest, repeat or end wrongly;
- `costly`: the accepted bundles of costly.py and three of bundles.py, which make a checker work as much as they can,
  and one that is wrong in its last line.

A fault is another status, line or output than is due, a signal, or more than S seconds of the processor (2 without it;
a program that isn't optimised needs more). With `--search` sources of 158 to 3,980 nodes are searched with 100,000
tries each, the seconds until they end are told, and nothing else is tried unless it is named. The script ends with 1
where there is a fault. Outside the gate: it needs a built program, and 1 GiB of memory.
"""
import os
import re
import resource
import subprocess
import sys
import tempfile

from search import source as long_source

HERE = os.path.dirname(os.path.abspath(__file__))
HALF = os.path.join(HERE, "..", "examples", "half", "half.bundle")
AVERAGE = os.path.join(HERE, "..", "examples", "average", "average.bundle")
MOST = 67108864

# the line that is made wrong, its text, and the fault
EDITS = [
    (2, "source 100000", "Section at line 2"), (2, "source 63", "Section at line 2"),
    (11, "sizes 1 0 1 4001", "TooMany at line 11"),
    (12, "in 0 63", "OutOfRange at line 12"), (13, "const 02048 12", "BadNumber at line 13"),
    (14, "add 0 2 0 0", "OutOfRange at line 14"),
    (21, "plain 0:0 2:1 -1:12 0:0", "BadNumber at line 21"), (21, "plain 0:0 1:97 -1:12 0:0", "OutOfRange at line 21"),
    (21, "plain 0:0 4611686018427387904:0 -1:12 0:0", "OutOfRange at line 21"), (25, "End", "Section at line 25"),
]


class Judge:
    """A program, and what it answers to files."""

    def __init__(self, program, seconds, folder):
        self.program, self.seconds, self.folder, self.faults = program, seconds, folder, 0

    def call(self, words, data):
        """Status, output, line, and seconds of the processor of a call on a file of these bytes."""
        path = os.path.join(self.folder, "file")
        with open(path, "wb") as file:
            file.write(data)
        before = resource.getrusage(resource.RUSAGE_CHILDREN)
        ran = subprocess.run([self.program, *words, path], stdin=subprocess.DEVNULL, capture_output=True)
        after = resource.getrusage(resource.RUSAGE_CHILDREN)
        used = after.ru_utime + after.ru_stime - before.ru_utime - before.ru_stime
        return ran.returncode, ran.stdout, ran.stderr.decode("utf-8", "replace"), used

    def judge(self, what, words, data, status, answer):
        """One line of the table. `answer` is a pattern of the line, or at status 0 of the output."""
        came, output, line, used = self.call(words, data)
        told = output.decode("utf-8", "replace") if status == 0 else line
        right = (came == status and re.fullmatch(answer, told, re.DOTALL) is not None
                 and (line == "" if status == 0 else output == b""))
        slow = used > self.seconds
        self.faults += (not right) + slow
        wrong = "" if right else f" FAULT: has to be {status}"
        late = f" FAULT: more than {self.seconds:g} s" if slow else ""
        print(f"| {what} | {len(data):,} | {used:.3f} | {came} | "
              f"{told.strip().splitlines()[-1][:80] if told.strip() else ''}{wrong}{late} |", flush=True)

    def bundle(self, what, data, fault):
        """A text that is no bundle, by this fault."""
        self.judge(what, ["check"], data, 4, re.escape(f"fixd: bundle: {fault}\n"))


def head(title):
    print(f"\n{title}\n\n| what | bytes | seconds | status | |\n|---|---|---|---|---|")


def half_lines():
    with open(HALF, "rb") as file:
        return file.read().splitlines(keepends=True)


def try_edits(judge):
    """One line is made wrong."""
    head("One wrong line")
    for number, line, fault in EDITS:
        made = half_lines()
        made[number - 1] = line.encode() + b"\n"
        judge.bundle(f"line {number}: `{line}`", b"".join(made), fault)


def try_cuts(judge):
    """The bundle ends early: behind each line."""
    head("Cut behind a line")
    for count in range(25):
        kind = f"Section at line {count + 1}" if count in (0, 1, 6, 15, 24) else f"BadLine at line {count + 1}"
        judge.bundle(f"{count} lines", b"".join(half_lines()[:count]), "Section at line 2" if 2 <= count <= 5 else kind)


def try_lines(judge, most=MOST):
    """Each section has lines without end: they are read up to the first that can't be there, or the first field that
    can't."""
    head("64 MiB of the lines of a section")
    def filled(front, line, tail=b""):
        return front + line * ((most - len(front) - len(tail)) // len(line)) + tail
    lines = half_lines()
    def front(count, *more):
        return b"".join(lines[:count]) + b"".join(more)
    path = b"01" * 100
    pairs = b"".join(b" %d 1:0" % row for row in range(512))
    starts = open(AVERAGE, "rb").read().split(b"start ")[0]
    for what, text, fault in [
        ("`fixd bundle 1`", filled(b"", lines[0]), "Section at line 2"),
        ("a source", filled(b"fixd bundle 1\nsource 60000000\n", b"  x + 0.5\n"), "TooMany at line 2"),
        ("codes", filled(front(10, b"sizes 1 0 1 4000\n", lines[11]), b"add 0 0 0 0\n"), "BadLine at line 4011"),
        ("steps", filled(front(18, b"steps 10000\n"), b"step 1999 %s 30\n" % path), "BadLine at line 10020"),
        ("start boxes", filled(starts, b"start 0:0 0:0 0:0 0:0\n"), f"BadLine at line {starts.count(10) + 2}"),
        ("templates of 512 shares", filled(front(19, b"rows 512 512\n"), b"row 0:0 0:0 512%s\n" % pairs),
         "BadLine at line 1045"),
        ("plain lines", filled(front(20), lines[20]), "Section at line 25"),
        ("`end`", filled(front(25), b"end\n"), "Extra at line 26"),
        ("line feeds", filled(front(20), b"\n"), "BadLine at line 21"),
        ("zero bytes", filled(front(20), b"\0"), "BadLine at line 21"),
        ("digits of a width", filled(front(8, b"width "), b"1", b"\n"), "OutOfRange at line 9"),
        ("digits of a dyadic", filled(front(20, b"plain "), b"9", b":0 1:0 0:0 0:0\n"), "OutOfRange at line 21"),
        ("zeros of an exponent", filled(front(20, b"plain 1:"), b"0", b" 1:0 0:0 0:0\n"), "BadNumber at line 21"),
        ("letters of a name", filled(front(9, b"name "), b"f"), "BadLine at line 10"),
        ("blanks", filled(front(20, b"plain"), b" "), "BadLine at line 21")]:
        judge.bundle(what, text, fault)


def sources(million):
    """Texts of about so many bytes, and the status and answer of `synth` at each."""
    front = "def f(x: Real): Real = { require(0 <= x && x <= 1) "
    whole, half = front + "x }", million // 2
    nested = "(" * half + "0 <= x && x <= 1" + ")" * half
    many = "".join(f"def f{k}(x: Real): Real = {{require(0<=x && x<=1) x}}\n" for k in range(million // 55))
    spans = "".join(f" val t{k} = x" for k in range(million // 17))
    end = million + len(whole)
    return [
        ("comments opened in one another", "/*" * half, 3, f"EndOfText at byte {million}"),
        ("comments nested and closed", "/*" * (half // 2) + "*/" * (half // 2) + whole, 0, ""),
        ("`(` in `require`", front[:33] + "(" * million, 3, f"EndOfText at byte {million + 33}"),
        ("`(` and `)` in `require`", f"def f(x: Real): Real = {{ require({nested}) x }}", 0, ""),
        ("`(` in an expression", front + "(" * million, 3, "TooDeep at byte 251"),
        ("minus signs", front + "-" * million + "x }", 3, "Unexpected at byte 52"),
        ("`x+x+..`", front + "x+" * half + "x }", 3, "TooMany at byte 0"),
        ("a name that nothing has", front + "y" * million + " }", 3, "UnknownName at byte 51"),
        ("functions", many, 3, "WhichFunction at byte 0"),
        ("the same function over and over", whole * (million // len(whole)), 3, "NamedTwice at byte 58"),
        ("temps", front + spans + " x }", 3, r"TooMany at byte \d+"),
        ("digits of a number", front + "1" * million + " }", 3, "NumberTooLong at byte 51"),
        ("a letter behind digits", front + "1" * million + "x }", 3, "NumberTooLong at byte 51"),
        ("line feeds", front + "\n" * million + "x }", 0, ""),
        ("blanks, and a zero byte", whole + " " * million + "\0", 3, f"BadCharacter at byte {end}"),
        ("blanks, and a byte that isn't UTF-8", whole + " " * million + "\udcff", 3, f"BadUtf8 at byte {end}")]


def try_sources(judge, million=1000000):
    """Sources of about a megabyte."""
    head("Sources")
    for what, source, status, answer in sources(million):
        due = rf"fixd: source: {answer}\n" if status else "fixd bundle 1\n.*end\n"
        judge.judge(what, ["synth", "--width", "16", "--tries", "0"], source.encode("utf-8", "surrogateescape"), status,
                    due)


def made(script, kind):
    return subprocess.run([sys.executable, os.path.join(HERE, script), kind], stdout=subprocess.PIPE, check=True).stdout


def try_costly(judge):
    """Bundles that are accepted and cost as much as they can, but for one whose last line is wrong."""
    head("Bundles made to cost")
    text = b""
    for script, kind in [("bundles.py", "plain"), ("bundles.py", "forms"), ("bundles.py", "steps"),
                         ("costly.py", "name"), ("costly.py", "temps"),
                         ("costly.py", "quotients"), ("costly.py", "copies"), ("costly.py", "great"),
                         ("costly.py", "rows"), ("costly.py", "shares")]:
        text = made(script, kind)
        judge.judge(f"`{kind}`", ["check"], text, 0, r"accepted\nout1 \d+(/2\^\d+)?\n")
    judge.bundle("`shares`, with another last line, so that it is read alone", text[:-4] + b"fin\n",
                 f"Section at line {text.count(10)}")


def try_search(judge):
    """A search that has much to try ends when its budget is spent."""
    head("A search of 100,000 tries")
    for asked, nodes in ((150, 158), (460, 494), (1500, 1614), (3700, 3980)):
        judge.judge(f"{nodes:,} nodes", ["synth", "--width", "32", "--tries", "100000"], long_source(asked).encode(), 0,
                    "fixd bundle 1\n.*end\n")


def main():
    words, seconds, searched = sys.argv[1:], 2.0, False
    if words[:1] == ["--seconds"]:
        seconds, words = float(words[1]), words[2:]
    if words[:1] == ["--search"]:
        searched, words = True, words[1:]
    program = words[0] if words else os.path.join(HERE, "..", "build", "fixd")
    parts = {"edits": try_edits, "cuts": try_cuts, "lines": try_lines, "sources": try_sources, "costly": try_costly}
    with tempfile.TemporaryDirectory() as folder:
        judge = Judge(os.path.abspath(program), seconds, folder)
        for name in words[1:] or ([] if searched else parts):
            parts[name](judge)
        if searched:
            judge.seconds = float("inf")
            try_search(judge)
    print(f"\n{judge.faults} faults")
    sys.exit(1 if judge.faults else 0)


if __name__ == "__main__":
    main()
