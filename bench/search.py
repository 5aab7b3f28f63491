#!/usr/bin/env python3
"""Measures how fast `synth` searches: search.py [PROGRAM] [RUNS]

Seconds of the processor (the least of so many runs, three without it) and resident memory of `synth` on functions of
20, 40, 150 and 1,500 nodes, sums of products of four inputs, at 0, 200, 2,000 and 4,000 tries, and of doppler at 200
tries. Tries after which every single step was looked at are the search's alone: the tries a second are those between
the last two. A try looks at nine drafts, at fewer in a function of more than 250 nodes. Last it says the load, as it
was at the beginning. Outside the gate: figures depend on the machine.
"""
import os
import resource
import subprocess
import sys
import tempfile

HERE = os.path.dirname(os.path.abspath(__file__))
PROGRAM = sys.argv[1] if len(sys.argv) > 1 else os.path.join(HERE, "../build/fixd")
RUNS = int(sys.argv[2]) if len(sys.argv) > 2 else 3
TRIES = (0, 200, 2000, 4000)


def source(nodes):
    """A sum of products with about so many nodes; each term brings six or seven."""
    names = "xyzw"
    terms = []
    for i in range(max(1, (nodes - 4) * 2 // 13)):
        a, b, c = (names[(i + k * (1 + i // 4)) % 4] for k in range(3))
        terms.append(f"0.{(37 * i + 11) % 90 + 10} * {a} * {b} + {1 + i % 3} * {c}")
    declared = ", ".join(f"{n}: Real" for n in names)
    ranges = " && ".join(f"-1 <= {n} && {n} <= 2" for n in names)
    # trees are at most 200 high, so that a long sum is cut at names
    parts = [" + ".join(terms[i : i + 20]) for i in range(0, len(terms), 20)]
    lines = [f"  val s{i} = {part}" for i, part in enumerate(parts)]
    total = " + ".join(f"s{i}" for i in range(len(parts)))
    return f"def f({declared}): Real = {{\n  require({ranges})\n" + "\n".join(lines) + f"\n  {total}\n}}\n"


def used(words):
    """Seconds of the processor, KiB resident and the output of a run."""
    best = None
    for _ in range(RUNS):
        before = resource.getrusage(resource.RUSAGE_CHILDREN)
        run = subprocess.run(["/usr/bin/env", "time", "-f", "%M", PROGRAM, *words], capture_output=True, text=True)
        after = resource.getrusage(resource.RUSAGE_CHILDREN)
        seconds = after.ru_utime + after.ru_stime - before.ru_utime - before.ru_stime
        memory = int(run.stderr.split()[-1]) if run.stderr.split() else 0
        if best is None or seconds < best[0]:
            best = (seconds, memory, run.stdout)
    return best


def main():
    load = os.getloadavg()[0]
    with tempfile.TemporaryDirectory() as folder:
        path = os.path.join(folder, "f.fixd")
        for nodes in (20, 40, 150, 1500):
            with open(path, "w", encoding="utf-8") as file:
                file.write(source(nodes))
            figures = {}
            count = 0
            for tries in TRIES:
                seconds, memory, bundle = used(["synth", "--width", "32", "--tries", str(tries), path])
                figures[tries] = seconds
                sizes = [line for line in bundle.splitlines() if line.startswith("sizes")]
                count = int(sizes[0].split()[-1]) if sizes else count
                print(f"{count} nodes, {tries} tries: {seconds:.3f} s, {memory} KiB", flush=True)
            between = figures[TRIES[-1]] - figures[TRIES[-2]]
            # the search gives functions of more nodes fewer attempts
            if between > 0 and count <= 500:
                print(f"{count} nodes: {(TRIES[-1] - TRIES[-2]) / between:.0f} tries a second", flush=True)
        doppler = os.path.join(HERE, "../examples/daisy/doppler.fixd")
        seconds, memory, _ = used(["synth", "--width", "32", doppler])
        print(f"doppler, 200 tries: {seconds:.3f} s, {memory} KiB; load {load:.1f}")


if __name__ == "__main__":
    main()
