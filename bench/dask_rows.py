#!/usr/bin/env python3
"""Runs rows on the workers of a Dask scheduler: dask_rows.py SCHEDULER BUNDLE ROWS .. [--block BYTES] > ANSWERS

One file of ROWS is cut between rows into blocks, the header before each: right for a program without state, which this
looks up in the bundle. Of a program with state, or where several files are given, each file is a run of its own and
goes to one worker whole. The header of the answers stands once, first; behind it the answers of one file follow those
of the other. `fixd` has to be on the workers' path, and bundle and rows where they can read them by the same names. A
bad row ends the call with its file, its block and fixd's line.
"""
import argparse
import os
import subprocess
import sys

from distributed import Client


def blocks(path, size):
    """Returns from which byte to which each block goes, each to the end of a line, without the header: at least one
    block."""
    with open(path, "rb") as file:
        at = len(file.readline())
        last = os.path.getsize(path)
        found = []
        while at < last or not found:
            file.seek(min(at + size, last))
            file.readline()
            found.append((at, file.tell()))
            at = file.tell()
        return found


def answers(bundle, path, start, end):
    """Runs a block of rows and returns its answers, behind their header."""
    with open(path, "rb") as file:
        header = file.readline()
        file.seek(start)
        rows = file.read(end - start)
    ran = subprocess.run(["fixd", "run", bundle], input=header + rows, capture_output=True)
    if ran.returncode:
        raise ValueError(f"{path}, bytes {start} to {end}, lines counted with the header: "
                         f"{ran.stderr.decode().strip()}")
    return ran.stdout


def has_state(bundle):
    """Says whether the program of a bundle has states, by its line of sizes."""
    with open(bundle, "rb") as file:
        program = file.read().partition(b"\nprogram\n")[2]
    sizes = next(line for line in program.split(b"\n") if line.startswith(b"sizes "))
    return sizes.split()[2] != b"0"


def main():
    parser = argparse.ArgumentParser()
    parser.add_argument("scheduler")
    parser.add_argument("bundle")
    parser.add_argument("rows", nargs="+")
    parser.add_argument("--block", type=int, default=64_000_000)
    options = parser.parse_args()
    bundle, files = os.path.abspath(options.bundle), [os.path.abspath(path) for path in options.rows]
    is_whole = has_state(bundle) or len(files) > 1
    work = [(path, *block) for path in files
            for block in blocks(path, os.path.getsize(path) if is_whole else options.block)]
    with Client(options.scheduler) as client:
        futures = [client.submit(answers, bundle, *block) for block in work]
        for k, future in enumerate(futures):  # in order; what is written is let go
            header, line_feed, rows = future.result().partition(b"\n")
            sys.stdout.buffer.write(rows if k else header + line_feed + rows)
            future.release()


if __name__ == "__main__":
    main()
