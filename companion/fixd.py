"""Finds the program `fixd` and calls it."""
from __future__ import annotations

import hashlib
import os
import shutil
import subprocess
import sys
from dataclasses import dataclass
from pathlib import Path

HERE = Path(__file__).resolve().parent
WIDTHS = (8, 16, 24, 32, 40, 48, 56, 64)
NOT_FOUND, REJECTED = 9, 1


class Trouble(Exception):
    """What ends a call of `fixd-tools`: a message for its reader."""


@dataclass
class Ran:
    """How a call of `fixd` ended."""
    status: int
    output: bytes
    notes: str

    @property
    def line(self) -> str:
        """The line on the notes without `fixd: `."""
        lines = self.notes.strip().splitlines()
        return lines[-1].removeprefix("fixd: ") if lines else ""

    def lines(self) -> list:
        """The lines of the output."""
        return self.output.decode("utf-8", "replace").splitlines()


@dataclass
class Fixd:
    """A program `fixd` by its path."""
    path: str

    def call(self, *words, rows: bytes = b"") -> Ran:
        """Returns how `fixd WORDS` ends with these bytes as its input."""
        try:
            ran = subprocess.run([self.path, *map(str, words)], input=rows, capture_output=True, check=False)
        except OSError as fault:
            raise Trouble(f"{self.path} can't be run: {fault.strerror}. "
                          "Name a program that can by --fixd PROGRAM") from None
        return Ran(ran.returncode, ran.stdout, ran.stderr.decode("utf-8", "replace"))

    def printed(self, *words, rows: bytes = b"") -> bytes:
        """Returns what `fixd WORDS` prints; where it doesn't end with 0, its line is told and how to have it
        explained."""
        ran = self.call(*words, rows=rows)
        if ran.status:
            shown = " ".join(map(str, words))
            raise Trouble(f"'fixd {shown}' ended with status {ran.status}: {ran.line or 'no line'}\n"
                          f"to have that explained: fixd-tools explain {shown}")
        return ran.output

    def synth(self, path, width, function=None, rounding="floor", tries=None) -> Ran:
        """Returns how the synthesis of a bundle ends."""
        words = ["synth", "--width", width]
        words += ["--function", function] if function else []
        words += ["--round", rounding] if rounding != "floor" else []
        words += ["--tries", tries] if tries is not None else []
        return self.call(*words, "--", path)

    def check(self, path) -> Ran:
        """Returns what `check` says of a bundle."""
        return self.call("check", "--", path)

    def sum(self) -> str:
        """Returns the SHA-256 of the program's bytes."""
        return sum_of(readable(self.path))

    def standing(self) -> str:
        """Returns what this companion knows of the program, as a clause."""
        made = self.sum()
        for name, known in {**built(), **installed()}.items():
            if known == made:
                return f"it is byte for byte {name}"
        return ""


def sum_of(data: bytes) -> str:
    """Returns the SHA-256 of some bytes."""
    return hashlib.sha256(data).hexdigest()


def built() -> dict:
    """Returns the sums of what `make run` built in the checkout that this companion stands in, if it stands in one."""
    top = HERE.parent
    path = top / "build" / "fixd"
    if not (top / "crates.txt").exists() or not path.exists():
        return {}
    return {"the file at which `make run` of this checkout leaves its program, build/fixd": sum_of(path.read_bytes())}


def installed() -> dict:
    """Returns the sum that `make install` wrote down when it installed the program and this companion."""
    path = HERE / "installed.sum"
    return ({"the program that `make install` put in place together with this companion": path.read_text().split()[0]}
            if path.exists() else {})


def candidates(named: str = None):
    """Yields where the program may be, in order, with what says so."""
    if named:
        yield "--fixd", named
        return
    if os.environ.get("FIXD"):
        yield "FIXD", os.environ["FIXD"]
        return
    beside = Path(sys.argv[0]).absolute().parent
    for folder in (beside, HERE, HERE.parent / "build"):
        yield "beside", str(folder / "fixd")
    yield "PATH", shutil.which("fixd") or ""


def find(named: str = None) -> Fixd:
    """Returns the program: the one of --fixd, else of FIXD, else beside this command, else on PATH."""
    for how, path in candidates(named):
        if os.path.isfile(path) and os.access(path, os.X_OK):
            return Fixd(os.path.abspath(path))
        if how in ("--fixd", "FIXD"):
            found = shutil.which(path)
            if found:
                return Fixd(os.path.abspath(found))
            raise Trouble(f"{how} names {path}, which isn't a program that can be run: name the program that 'make "
                          "run' built, build/fixd of the repository")
    raise Trouble("no program 'fixd' was found: neither beside fixd-tools nor on PATH. Name one by --fixd PROGRAM or "
                  "in the variable FIXD; "
                  "'make run' in the repository builds build/fixd")


def readable(path) -> bytes:
    """Returns the bytes of a file, or says why there are none."""
    try:
        with open(path, "rb") as file:
            return file.read()
    except IsADirectoryError:
        raise Trouble(f"{path} is a folder: name a file in it") from None
    except OSError as fault:
        raise Trouble(f"{path} can't be read: {fault.strerror}") from None


def progress(text: str) -> None:
    """Says on the notes how far a long run is."""
    print(f"fixd-tools: {text}", file=sys.stderr, flush=True)
