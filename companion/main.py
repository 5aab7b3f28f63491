"""The command fixd-tools: its words, and the subcommand that they name."""
from __future__ import annotations

import argparse
import importlib
import sys

from .fixd import Trouble

SUBCOMMANDS = ["explain", "width", "show", "plot", "report", "forms", "device"]
ABOUT = """What is needed around a bundle of 'fixd': calls explained, widths compared, where a bound comes from,
pictures, a page of evidence, other forms of a filter, and what a device needs. It is outside what is proved: 'fixd
check' alone judges a bundle."""


def words_of(only=None):
    """Returns the reader of the command's words; where `only` is a subcommand, of that one alone, so that no other is
    read in."""
    parser = argparse.ArgumentParser(prog="fixd-tools", description=ABOUT,
                                     epilog="docs/companion.md has a section and an example for each subcommand.")
    parser.add_argument("--fixd", metavar="PROGRAM",
                        help="the program fixd; without it the one that FIXD names, else one beside this command, else "
                             "one on PATH")
    parts = parser.add_subparsers(dest="subcommand", metavar="SUBCOMMAND", required=True)
    for name in [only] if only in SUBCOMMANDS else SUBCOMMANDS:
        module = importlib.import_module(f".{name}", __package__)
        part = parts.add_parser(name, help=module.HELP, description=module.DESCRIPTION)
        module.add_to(part)
        part.set_defaults(run=module.run)
    return parser


def main(words=None) -> int:
    """Runs the command, and returns its status."""
    words = sys.argv[1:] if words is None else words
    named = [word for word in words if word in SUBCOMMANDS]
    given = words_of(named[0] if named else None).parse_args(words)
    sys.setrecursionlimit(20_000)
    try:
        return given.run(given)
    except Trouble as trouble:
        print(f"fixd-tools: {trouble}", file=sys.stderr)
        return 1
    except BrokenPipeError:
        sys.stderr.close()
        return 1
    except KeyboardInterrupt:
        return 130
