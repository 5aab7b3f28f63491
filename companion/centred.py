"""Sums in `1 * (..)`: at `--round nearest` that product is the code that rounds a sum to the nearest."""
from __future__ import annotations

from .functions import Function, Tree


def centred(data: bytes, made: Function, partial: bool = False) -> bytes:
    """Returns a source in which each result and `val` of a function that is a sum stands in `1 * (..)`; with `partial`
    each sum within them too."""
    marks = []
    for tree in [tree for _, tree in made.temps] + list(made.results):
        for sum_of, is_whole in sums_in(tree, partial):
            bare = data[sum_of.at:sum_of.at + 1] != b"("
            before = b"1 * " + b"(" * bare
            marks.append((sum_of.at, 1, before if is_whole else b"(" + before))
            marks.append((sum_of.end, 0, b")" * (bare + (not is_whole))))
    out, done = b"", 0
    for at, _, text in sorted(marks, key=lambda mark: mark[:2]):
        out, done = out + data[done:at] + text, at
    return out + data[done:]


def sums_in(tree: Tree, partial: bool, is_whole: bool = True):
    """Yields the sums of a tree, each with whether it is all of the tree: the one at the root, and with `partial` all
    within."""
    if tree.op in ("+", "-"):
        yield tree, is_whole
    if partial:
        for part in tree.parts:
            yield from sums_in(part, partial, False)
