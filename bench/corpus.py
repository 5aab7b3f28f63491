"""The functions with state of examples/states or bench/designs, and their bundles.

For bench/states.py, states_designs.py, states_rows.py and driven.py.
"""
import argparse
import contextlib
import glob
import os
import subprocess
import tempfile
from dataclasses import dataclass

from linear import linear_of
from pages import put
from sources import functions_of

HERE = os.path.dirname(os.path.abspath(__file__))
FOLDER = os.path.join(HERE, "../examples/states")
DESIGNS = os.path.join(HERE, "designs")
PAGE = os.path.join(HERE, "../docs/measures.md")
TRIES = 200


@dataclass
class Source:
    """A source of one function. `mark` is what its comment begins with: `not found`, `a limit`, or nothing."""
    path: str
    name: str
    text: str
    function: object
    mark: str
    linear: object

    def kind(self):
        return "linear" if self.linear else "nonlinear"


def corpus(options):
    """Returns the sources that the options name, in the order of their names."""
    found = []
    for path in sorted(glob.glob(os.path.join(options.sources, "*.fixd"))):
        name = os.path.basename(path).removesuffix(".fixd")
        if options.only and name not in options.only:
            continue
        with open(path, encoding="utf-8") as file:
            text = file.read()
        function = functions_of(text)[0]
        mark = text.removeprefix("// ").split(":")[0]
        found.append(Source(path, name, text, function, mark if mark in ("not found", "a limit") else "",
                            linear_of(text)))
    return found


def bundle_path(folder, source, width, rounding="floor"):
    return os.path.join(folder, f"{source.name}.{width}.{'' if rounding == 'floor' else rounding + '.'}bundle")


def bundle_kept(source, width, folder):
    """Returns the file of the bundle of this very source that the folder has, or None."""
    path = bundle_path(folder, source, width)
    if not os.path.exists(path):
        return None
    with open(path, encoding="utf-8") as file:
        return path if source.text in file.read() else None


def bundle_made(fixd, source, width, folder, limit, rounding="floor"):
    """Puts the bundle of a source in the folder. Returns its file, or None where none is found in so many seconds, and
    the seconds."""
    path = bundle_path(folder, source, width, rounding)
    if os.path.exists(path):
        os.remove(path)
    try:
        text, seconds = fixd.synthesised(source.path, source.name, width, TRIES, rounding, timeout=limit)
    except subprocess.TimeoutExpired:
        return None, float(limit)
    if text is None:
        return None, seconds
    with open(path, "w", encoding="utf-8") as file:
        file.write(text)
    return path, seconds


def bundles_at(fixd, source, folder, options):
    """Returns for each width the file of the source's bundle, which is made where the folder hasn't it, or None."""
    return [bundle_kept(source, width, folder) or bundle_made(fixd, source, width, folder, options.limit)[0]
            for width in options.widths]


# ---- what the scripts are called with, and hand out

def parser_of(description, sources=FOLDER):
    """Returns a parser of the words that all of them take; the description's first line says what the script does."""
    parser = argparse.ArgumentParser(description=description.splitlines()[0])
    parser.add_argument("program", nargs="?", default=os.path.join(HERE, "../build/fixd"))
    parser.add_argument("--widths", type=lambda text: [int(w) for w in text.split(",")], default=[16, 24, 32])
    parser.add_argument("--only", type=lambda text: text.split(","))
    parser.add_argument("--sources", default=sources, help="another folder of sources")
    parser.add_argument("--bundles", help="a folder in which the bundles are kept")
    parser.add_argument("--limit", type=float, default=600, help="the seconds after which a search counts as not found")
    parser.add_argument("--write", action="store_true", help="put what is printed into docs/measures.md")
    return parser


@contextlib.contextmanager
def bundle_folder(options):
    """Gives the folder of the bundles: that of the options, or one that goes when the script ends."""
    with tempfile.TemporaryDirectory(prefix="fixd-states-") as own:
        folder = options.bundles or own
        os.makedirs(folder, exist_ok=True)
        yield folder


def hand_out(options, name, text):
    """Prints a text, and puts it into the page where that is wanted."""
    print(text, end="")
    if options.write:
        put(PAGE, name, text)
