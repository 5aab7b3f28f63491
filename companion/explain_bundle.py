"""Tells where a file that is no bundle departs from one, and which condition a rejected bundle fails, with both
sides."""
from __future__ import annotations

from .bundles import is_bundle, parsed
from .fixd import Trouble
from .inequalities import Judge
from .reader import Fault
from .sources import function_of, text_of
from .told import Told

KINDS = {"Section": "one of the lines that part a bundle should stand here",
         "BadLine": "this line isn't the one that is due, or has a field too few or too many",
         "BadNumber": "a number isn't in its one spelling: no '+', no needless zero, dyadics as m:e with m odd or e 0",
         "OutOfRange": "a number is outside what it may be", "TooMany": "a count is over its limit",
         "Extra": "something stands behind 'end'"}
WHOLE = "copy the file whole, as bytes, from where 'fixd synth' wrote it; or make it anew from its source"


def of_text(path: str, data: bytes, kind: str, line: int) -> Told:
    """Returns what there is to say of a file that is no bundle."""
    if not data.strip():
        return Told(f"'{path}' is empty",
                    hints=["a 'fixd synth .. > FILE' that finds nothing leaves it so: write to another name and move "
                           "it, "
                                                "fixd synth .. > new && mv new FILE"])
    if not is_bundle(data):
        return of_other(path, data)
    if data.startswith(b"fixd bundle 1\r\n") or data.startswith(b"fixd bundle 2\r\n"):
        return Told("lines end by CR LF, and those of a bundle by LF alone", path, 1,
                    hints=[f"tr -d '\\r' < {path} > NEW, if its source had none; " + WHOLE])
    lines = data.split(b"\n")
    text = lines[line - 1].decode("utf-8", "replace") if 0 < line <= len(lines) else ""
    hints = [WHOLE]
    if kind == "Section" and line == 2:
        hints.insert(0, "the count behind 'source' isn't the source's length in bytes: was the source edited within "
                        "the bundle? Edit it outside, and make the bundle anew")
    if kind == "BadLine" and text.startswith(("mulr", "copyr")):
        hints.insert(0, "'mulr' and 'copyr' stand in version 2 alone: fixd migrate turns a bundle into one")
    notes = [] if text or line <= len(lines) and line else ["the text ends before"]
    return Told(f"{KINDS.get(kind, kind)}", path, line, 1 if text else 0, text, len(text), notes=notes, hints=hints)


def of_other(path: str, data: bytes) -> Told:
    """Returns what a file is, where it isn't a bundle."""
    new = path.rsplit(".", 1)[0] + ".bundle"
    if looks_like_source(data):
        return Told(f"'{path}' is a source, not a bundle",
                    hints=[f"make its bundle first: fixd synth --width 16 {path} > {new}"])
    hints = ["a bundle is what 'fixd synth --width 16 FILE.fixd > FILE.bundle' writes"]
    if path.endswith(".csv"):
        hints.insert(0, f"rows come by the standard input: fixd run FILE.bundle < {path}")
    return Told(f"'{path}' isn't a bundle: its first line isn't 'fixd bundle 1'", hints=hints)


def looks_like_source(data: bytes) -> bool:
    try:
        function_of(data)
    except Fault as fault:
        return fault.kind == "WhichFunction" or b"def " in data and b"Real" in data
    return True


def term_of(judge: Judge, source: bytes, n: int) -> str:
    """Returns what a node computes in the source's words."""
    node = judge.nodes[n]
    if node.tree is None:
        return node.term
    text = text_of(source, node.tree) if not judge.bundle.steps and node.tree.end else node.term
    return f"{text}" + (f" (the value of '{node.val}')" if node.val else "")


def of_rejected(path: str, data: bytes, kind: str, part: str, index: int) -> Told:
    """Returns what there is to say of a bundle that isn't accepted."""
    head = (f"the condition {kind} at {part} {index} fails: the certificate doesn't hold, which doesn't say that the "
            "program is unsafe")
    made = Told(head, path, hints=["a bundle that 'fixd synth' wrote is never rejected: make it anew from its source, "
                                  "or look at docs/inequalities.md for what the condition asks and at docs/messages.md "
                                  "for what to change"])
    try:
        bundle = parsed(data)
        source = function_of(bundle.source, bundle.name)
        judge = Judge(bundle, source)
    except (Trouble, Fault, ValueError, IndexError, KeyError):
        made.notes.append("the parts of this bundle don't fit together, so that no more can be told of it")
        return made
    if part == "node" and index < len(bundle.codes):
        made.notes.append(f"code {index}: {bundle.codes[index].text()}")
        if index < len(judge.nodes):
            made.notes.append(f"its term in the source: {term_of(judge, bundle.source, index)}")
    try:
        for side in judge.sides(kind, part, index):
            made.notes.append(side if isinstance(side, str) else side.told())
    except (IndexError, ValueError, ZeroDivisionError, KeyError):
        made.notes.append("what the condition compares isn't there in this bundle")
    if kind == "Shape" and index < len(judge.nodes):
        made.notes.append(f"the source wants '{judge.nodes[index].op}' of {list(judge.nodes[index].operands)} here")
    return made
