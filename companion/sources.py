"""Reads a source: its tokens, its functions with exact numbers, and its first fault with what could have stood there.

`fixd` alone says whether a source has a fault and which. This reader follows docs/formats.md, so that what it knows of
the place can be told: where it and `fixd` don't name one fault, nothing of it is told.
"""
from __future__ import annotations

from dataclasses import dataclass

from .functions import Function, Tree
from .reader import Fault, Reader


def functions_of(data: bytes) -> list:
    """Returns the functions of a source, or raises its first fault."""
    try:
        data.decode("utf-8")
    except UnicodeDecodeError as fault:
        raise Fault("BadUtf8", fault.start) from None
    return Reader(data).functions()


def function_of(data: bytes, name: str = None) -> Function:
    """Returns the function of a name, or the only one, or raises the first fault."""
    found = functions_of(data)
    if name is None and len(found) > 1:
        raise Fault("WhichFunction", 0, known={"functions": [it.name for it in found]})
    here = [it for it in found if name is None or it.name == name]
    if not here:
        raise Fault("NoSuchFunction", 0, known={"functions": [it.name for it in found], "wanted": name})
    return here[0]


@dataclass(frozen=True)
class Place:
    """A line and a column of a text, both from 1, and the line's text."""
    line: int
    column: int
    text: str


def place_of(data: bytes, at: int) -> Place:
    """Returns where a byte stands. A column counts characters."""
    begin = data.rfind(b"\n", 0, at) + 1
    end = data.find(b"\n", at)
    text = data[begin:end if end >= 0 else len(data)].rstrip(b"\r").decode("utf-8", "replace")
    column = len(data[begin:at].decode("utf-8", "replace")) + 1
    return Place(data.count(b"\n", 0, at) + 1, column, text)


def text_of(data: bytes, tree: Tree) -> str:
    """Returns an expression as it stands in the source, in one line."""
    return " ".join(data[tree.at:tree.end].decode("utf-8", "replace").split())
