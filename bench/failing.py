#!/usr/bin/env python3
"""Lets each call of a device fail in turn, all of them short: failing.py [PROGRAM]

Each run reads FILE and input, and writes output and line, in pieces of two bytes, or of so many that rows are held back
between two reads; `failing.c` then makes one call fail, for each number in turn by one error of the system, and for a
few numbers by others or by a write of nothing. Tested is that the run ends

- with 6 exactly where the call was a read of the input or of FILE, or opened FILE; printed is then what the whole lines
  that were taken give;
- with 7 exactly where it was a write of the output; printed is then what was written before, a front of what is due;
- as the run in which nothing fails, where the call wrote the line on the error stream (but for that line, of which a
  front stands), where opening FILE was only interrupted, or where the run has no call of this number.

A fault is any other status, output or line, and is shown with the command that repeats it; the script then ends with 1.
Outside the gate: it needs a built program, `cc`, and the GNU C library.
"""
import errno
import os
import subprocess
import sys
import tempfile

HERE = os.path.dirname(os.path.abspath(__file__))
EXAMPLES = os.path.normpath(os.path.join(HERE, "..", "examples"))
HALF, SOURCE = os.path.join(EXAMPLES, "half", "half.bundle"), os.path.join(EXAMPLES, "half", "half.fixd")
AVERAGE = os.path.join(EXAMPLES, "average", "average.bundle")
KINDS = ["read", "write", "note", "open", "pread"]
LINES = {6: b"fixd: read fault\n", 7: b"fixd: write fault\n"}
ERRORS = {
    "read": [errno.EIO, errno.EINTR, errno.EAGAIN, errno.ENOMEM, errno.EISDIR],
    "write": [errno.ENOSPC, errno.EIO, errno.EPIPE, errno.EINTR, errno.EAGAIN, errno.EFBIG, 0],
    "note": [errno.ENOSPC, errno.EIO, errno.EPIPE, errno.EINTR, errno.EAGAIN, 0],
    "open": [errno.ENOENT, errno.EACCES, errno.EMFILE, errno.ENOMEM, errno.EINTR],
    "pread": [errno.EIO, errno.EINTR, errno.EAGAIN, errno.ESPIPE],
}
# the words of each run, and its input
RUNS = [
    (["run", HALF], b"x\n0.3\n1\n", 2), (["run", AVERAGE], b"u\r\n1\n\n-.5\n0.25", 2), (["check", HALF], b"", 2),
    (["show", AVERAGE], b"", 2),
    (["run", HALF], b"x\n" + b"0.3\n0.75\n" * 20, 31), (["run", HALF], b"x\n" + b"0.3\n0.75\n" * 20 + b"2\n0\n", 97),
    (["node", "--units", "2", AVERAGE], b"unit,u\n1,1\n0,1\n1,-.5\n", 2),
    (["node", "--units", "2", AVERAGE], b"unit,u\n1,1\n0,1\n2,1\n", 5),
    (["synth", "--width", "16", "--tries", "0", SOURCE], b"", 2), (["demo", "1"], b"", 2),
    (["run", HALF], b"x\n0.3\n2\n", 2), (["check"], b"", 2), (["check", SOURCE], b"", 2),
    (["synth", "--width", "16", HALF], b"", 2),
]


class Failing:
    """A program, and the library that makes its calls fail."""

    def __init__(self, program, folder):
        self.program, self.report = program, os.path.join(folder, "report")
        self.library, self.rows = os.path.join(folder, "failing.so"), os.path.join(folder, "rows")
        subprocess.run(["cc", "-shared", "-fPIC", "-O1", "-o", self.library, os.path.join(HERE, "failing.c")],
                       check=True)

    def settings(self, piece, kind, at, error):
        return {"FAIL_CALL": kind, "FAIL_AT": str(at), "FAIL_WITH": str(error), "FAIL_PIECE": str(piece)}

    def call(self, words, data, piece, kind="", at=0, error=0):
        """Status, output and line of a run."""
        with open(self.rows, "wb") as file:
            file.write(data)
        settings = {"ASAN_OPTIONS": "verify_asan_link_order=0", **os.environ, **self.settings(piece, kind, at, error),
                    "LD_PRELOAD": self.library, "FAIL_REPORT": self.report}
        with open(self.rows, "rb") as source:
            ran = subprocess.run([self.program, *words], stdin=source, capture_output=True, env=settings, timeout=600)
        return ran.returncode, ran.stdout, ran.stderr

    def counts(self):
        """How many calls of each kind the last run made."""
        with open(self.report, encoding="utf-8") as file:
            return dict(zip(KINDS, (int(word) for word in file.read().split())))


def is_due(whole, data, piece, kind, at, error, seen):
    """Whether a run in which this call failed ended as it has to; `whole` is the run in which none does."""
    status, output, line = seen
    if kind == "note":
        return (status, output) == whole[:2] and whole[2].startswith(line) and len(line) <= piece * at
    if kind == "open" and error == errno.EINTR:
        return seen == whole
    if kind == "write":
        return (status == 7 and line == LINES[7] and whole[1].startswith(output)
                and at - 1 <= len(output) <= piece * (at - 1))
    if status != 6 or line != LINES[6]:
        return False
    if kind != "read":
        return output == b""
    taken = [text for text in data[: piece * (at - 1)].split(b"\n")[:-1] if text.strip()]
    return output == b"".join(whole[1].splitlines(keepends=True)[: len(taken)])


def numbers(count, every):
    """All numbers of calls and one more, or a few spread over them."""
    return range(1, count + 2) if every else sorted({1, 2, 1 + count // 3, 1 + count // 2, count, count + 1} - {0})


def fail(failing, words, data, piece):
    """Lets each call of a run fail; prints its line of the table and gives the count of faults."""
    whole = failing.call(words, data, piece)
    counts = failing.counts()
    tried = faults = 0
    for kind in KINDS:
        for error in ERRORS[kind]:
            for at in numbers(counts[kind], error == ERRORS[kind][0]):
                seen = failing.call(words, data, piece, kind, at, error)
                right = seen == whole if at > counts[kind] else is_due(whole, data, piece, kind, at, error, seen)
                tried, faults = tried + 1, faults + (not right)
                if not right:
                    front = " ".join(f"{name}={value}"
                                     for name, value in failing.settings(piece, kind, at, error).items())
                    print(f"FAULT: {seen}: LD_PRELOAD=./failing.so {front} {failing.program} {' '.join(words)} with "
                          f"the input {data!r}")
    told = " | ".join(f"{counts[kind]:,}" for kind in KINDS)
    shown = " ".join(os.path.basename(word) for word in words)
    print(f"| `{shown}` | {whole[0]} | {told} | {tried:,} | {faults} |", flush=True)
    return faults


def main():
    program = sys.argv[1] if len(sys.argv) > 1 else os.path.join(HERE, "..", "build", "fixd")
    print("| run | status | reads | writes | writes of the line | FILE opened | reads of FILE | runs with a failure | "
          "faults |\n|---|---|---|---|---|---|---|---|---|")
    with tempfile.TemporaryDirectory() as folder:
        failing = Failing(os.path.abspath(program), folder)
        faults = sum(fail(failing, words, data, piece) for words, data, piece in RUNS)
    sys.exit(1 if faults else 0)


if __name__ == "__main__":
    main()
