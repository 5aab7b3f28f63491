"""The stored cases, as .ci/checks/cases reads them."""
import glob
import importlib.machinery
import importlib.util
import os

from crates import TOP


def stored_cases(folder="cases"):
    """Yields the cases of all files in a folder of the repository and below it, in the order of their paths."""
    loader = importlib.machinery.SourceFileLoader("cases", os.path.join(TOP, ".ci", "checks", "cases"))
    cases = importlib.util.module_from_spec(importlib.util.spec_from_loader("cases", loader))
    loader.exec_module(cases)
    for path in sorted(glob.glob(os.path.join(TOP, folder, "**", "*.case"), recursive=True)):
        yield from cases.Reader(os.path.relpath(path, TOP)).read()
