#!/usr/bin/env python3
"""Proves and builds the library in the current folder, over the built ones below it: library.py JOBS

As `rt ci` does, and unlike `rt lib`, it keeps the library's statements and not the bodies of its proofs, which no crate
above can unfold: a check of fx_command loads 2,800 modules of libraries in place of 51,000. Its stamp is that of `rt`,
so that `rt check` and `rt run` take the library as it is.
"""
import functools
import os
import shutil
import sys

sys.path.insert(0, os.path.dirname(os.path.realpath(shutil.which("rt"))))
import rtlib  # noqa: E402: it lies beside rt


def main():
    rtlib.Crate.stamp = functools.cache(rtlib.Crate.stamp)
    folder = os.getcwd()
    library = rtlib.Crate(folder, rtlib.root_above(folder), {})
    room, stamp = os.path.dirname(library.rlib), library.stamp()
    if library.is_built():
        return 0
    shutil.rmtree(room, ignore_errors=True)
    os.makedirs(room)
    words = library.words(["--jobs", sys.argv[1]], keeps=False)
    status = library.call(rtlib.RATTLE, "build", *words, "--statements", "-o", library.rlib)
    if not status:
        with open(f"{room}/stamp", "w", encoding="utf-8") as file:
            file.write(stamp)
    return status


if __name__ == "__main__":
    sys.exit(main())
