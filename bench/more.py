#!/usr/bin/env python3
"""Measures `build/fixd` on long rows and long bundles beside the C programs of make.py and peers.py: more.py
[--instructions] [PART ..]

A part is `codes`, `filter`, `columns`, `check` or `read`; without one, all are measured. Each figure is the least of
five runs, or of fifteen that take turns with the C program's, in seconds of the processor (of user and system), which
other work on the machine disturbs less than seconds of the clock; with --instructions valgrind counts what is executed.
Outputs and answers are compared with the C program's. Outside the gate: figures depend on the machine.
"""
import os
import random
import re
import resource
import subprocess
import sys
import tempfile
import time

HERE = os.path.dirname(os.path.abspath(__file__))
FIXD = os.path.join(HERE, "..", "build", "fixd")
AVERAGE = os.path.join(HERE, "..", "examples", "average", "average.bundle")
COUNTED = "--instructions" in sys.argv
PARTS = [word for word in sys.argv[1:] if word[0] != "-"] or ["codes", "filter", "columns", "check", "read"]


def seconds(command, rows, out, times=5):
    """The least seconds of the processor, and of the clock, of so many runs."""
    best = clock = None
    for _ in range(times):
        with open(rows, "rb") as source, open(out, "wb") as sink:
            before, start = resource.getrusage(resource.RUSAGE_CHILDREN), time.time()
            subprocess.run(command, stdin=source, stdout=sink, stderr=subprocess.DEVNULL)
            taken = time.time() - start
            after = resource.getrusage(resource.RUSAGE_CHILDREN)
        used = after.ru_utime - before.ru_utime + after.ru_stime - before.ru_stime
        best = used if best is None else min(best, used)
        clock = taken if clock is None else min(clock, taken)
    return best, clock


def beside(measure, ours, theirs, rows, out, other, times=15):
    """The least of so many runs of two programs that take turns, so that a machine that slows down slows both."""
    pairs = [(measure(ours, rows, out, 1), measure(theirs, rows, other, 1)) for _ in range(times)]
    return min(a for a, _ in pairs), min(b for _, b in pairs)


def piped(command, rows, out, times=5):
    """The least seconds of the processor where `cat` sends the rows through a pipe, without those of `cat`."""
    best = None
    for _ in range(times):
        with open(out, "wb") as sink:
            cat = subprocess.Popen(["cat", rows], stdout=subprocess.PIPE)
            child = subprocess.Popen(command, stdin=cat.stdout, stdout=sink, stderr=subprocess.DEVNULL)
            cat.stdout.close()
            _, _, used = os.wait4(child.pid, 0)
            child.returncode = 0
            cat.wait()
        best = used.ru_utime + used.ru_stime if best is None else min(best, used.ru_utime + used.ru_stime)
    return best


def resident(command, rows, out):
    """The KiB that are resident at most."""
    with open(rows, "rb") as source, open(out, "wb") as sink:
        ended = subprocess.run(["/usr/bin/time", "-f", "%M", *command], stdin=source, stdout=sink,
                               stderr=subprocess.PIPE, text=True)
    return int(ended.stderr.split()[-1])


def instructions(command, rows, out):
    with open(rows, "rb") as source, open(out, "wb") as sink:
        call = ["valgrind", "--tool=callgrind", "--callgrind-out-file=/dev/null", *command]
        ended = subprocess.run(call, stdin=source, stdout=sink, stderr=subprocess.PIPE, text=True)
    return int(re.search(r"Collected : (\d+)", ended.stderr).group(1))


def same(a, b):
    with open(a, "rb") as x, open(b, "rb") as y:
        return x.read() == y.read()


def stream(name, ours, theirs, rows, count, folder):
    """Rows a second of two programs on the same rows."""
    out, other = f"{folder}/ours", f"{folder}/theirs"
    if COUNTED:
        few = f"{folder}/few"
        with open(rows, "rb") as source, open(few, "wb") as sink:
            sink.writelines(source.readline() for _ in range(20001))
        a, b = instructions(ours, few, out), instructions(theirs, few, other)
        print(f"{name}: {a / 20000:.0f} and {b / 20000:.0f} instructions a row")
        return
    (a, clock), (b, other_clock) = beside(seconds, ours, theirs, rows, out, other)
    if not same(out, other):
        raise SystemExit(f"bench: the outputs differ at {name}")
    print(f"{name}, {count} rows: fixd {a:.3f} s, {count / a:.0f} rows/s (clock {clock:.3f} s, "
          f"{resident(ours, rows, out)} KiB resident); "
          f"C {b:.3f} s, {count / b:.0f} rows/s (clock {other_clock:.3f} s, {resident(theirs, rows, other)} KiB); fixd "
          f"/ C {b / a:.2f}")
    a, b = beside(piped, ours, theirs, rows, out, other)
    print(f"{name}, {count} rows from a pipe: fixd {a:.3f} s, {count / a:.0f} rows/s; C {b:.3f} s, {count / b:.0f} "
          f"rows/s; fixd / C {b / a:.2f}")


def compiled(folder, *names):
    for name in names:
        subprocess.run(["gcc", "-O2", "-o", f"{folder}/{name}", f"{folder}/{name}.c"], check=True)


def measure_codes(folder):
    """Chains of differences and mixed programs, beside a C program for the one program and one that goes over a list of
    codes."""
    count = 300000
    for kind in ("chain", "mixed"):
        for codes in ("10", "100", "1000"):
            subprocess.run([sys.executable, os.path.join(HERE, "make.py"), codes, str(count), folder, kind], check=True)
            compiled(folder, "chain", "codes")
            for peer, what in (("chain", "compiled"), ("codes", "over codes")):
                stream(f"{kind} of {codes} codes, C {what}", [FIXD, "run", f"{folder}/chain.bundle"],
                       [f"{folder}/{peer}"], f"{folder}/chain.csv", count, folder)


def number(draw):
    return draw.choice(["", "-"]) + f"0.{draw.randrange(10 ** 6):06d}"


def measure_filter(folder):
    draw, count = random.Random(4), 2000000
    some = [number(draw) + "\n" for _ in range(10007)]
    with open(f"{folder}/rows", "w") as file:
        file.write("u\n")
        file.writelines(some[k % 10007] for k in range(count))
    stream("one column, a filter", [FIXD, "run", AVERAGE], [f"{folder}/filter"], f"{folder}/rows", count, folder)


def measure_columns(folder):
    draw, count = random.Random(5), 300000
    order = ["u5", "t", "u0", "u7", "u2", "u1", "u6", "note", "u4", "u3"]
    some = [",".join(number(draw) if name[0] == "u" else "7.25" for name in order) + "\n" for _ in range(10007)]
    with open(f"{folder}/rows", "w") as file:
        file.write(",".join(order) + "\n")
        file.writelines(some[k % 10007] for k in range(count))
    bundle = written("columns", folder)
    stream("8 of 10 columns, out of order", [FIXD, "run", bundle], [f"{folder}/columns"], f"{folder}/rows", count,
           folder)


def written(kind, folder):
    path = f"{folder}/{kind}.bundle"
    with open(path, "w") as file:
        subprocess.run([sys.executable, os.path.join(HERE, "bundles.py"), kind], stdout=file, check=True)
    return path


def bundle(kind, peer, folder, answer):
    """Seconds of `check` and of a C program on a bundle."""
    path = written(kind, folder)
    ours, theirs, out, other = [FIXD, "check", path], [f"{folder}/{peer}", path], f"{folder}/ours", f"{folder}/theirs"
    if COUNTED:
        a, b = instructions(ours, os.devnull, out), instructions(theirs, os.devnull, other)
        print(f"{kind}: {a} and {b} instructions ({peer}.c), C / fixd {b / a:.2f}")
        return
    ended = subprocess.run(ours, capture_output=True, text=True)
    peers = subprocess.run(theirs, capture_output=True, text=True)
    if not (ended.stdout + ended.stderr).startswith(answer) or ended.returncode != peers.returncode:
        raise SystemExit(f"bench: {kind} is answered {ended.stdout}{ended.stderr}and {peers.stdout}")
    (a, clock), (b, other_clock) = seconds(ours, os.devnull, out), seconds(theirs, os.devnull, other)
    size = os.path.getsize(path)
    print(f"{kind}, {size} bytes: fixd {a:.3f} s (clock {clock:.3f} s), {size / a / 1e6:.0f} MB/s, "
          f"{resident(ours, os.devnull, out)} KiB resident; "
          f"{peer}.c {b:.3f} s (clock {other_clock:.3f} s), {size / b / 1e6:.0f} MB/s, "
          f"{resident(theirs, os.devnull, other)} KiB; fixd / C {b / a:.2f}")


def main():
    with tempfile.TemporaryDirectory() as folder:
        subprocess.run([sys.executable, os.path.join(HERE, "peers.py"), folder], check=True)
        compiled(folder, "filter", "columns", "read", "check")
        if "codes" in PARTS:
            measure_codes(folder)
        if "filter" in PARTS:
            measure_filter(folder)
        if "columns" in PARTS:
            measure_columns(folder)
        if "check" in PARTS:
            for kind in ("plain", "forms", "rows", "steps"):
                bundle(kind, "check", folder, "accepted\n")
        if "read" in PARTS:
            bundle("long", "read", folder, "fixd: bundle: Section at line ")


main()
