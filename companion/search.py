"""Bundles that are searched for beside the one that is given: a source, a width, a rounding."""
from __future__ import annotations

import os
import subprocess
import tempfile
import time
from dataclasses import dataclass

from . import bundles
from .fixd import Fixd, NOT_FOUND, Trouble
from .functions import Function


def free_of_demands(data: bytes, made: Function) -> bytes:
    """Returns a source in which a function demands nothing, every byte else at its place."""
    begin = data.rfind(b"ensuring", 0, made.end) if made.demands() else made.end
    return data[:begin] + b" " * (made.end - begin) + data[made.end:]


@dataclass
class Found:
    """How one search ended: the bundle's text and values, or why there are none."""
    width: int
    rounding: str
    text: bytes = b""
    bundle: bundles.Bundle = None
    why: str = ""
    seconds: float = 0.0
    free: bool = False

    @property
    def is_found(self) -> bool:
        return self.bundle is not None

    def bounds(self) -> list:
        return self.bundle.bounds()

    def spans(self) -> list:
        """Returns where the exact values of each output lie, as the certificate has it."""
        first = self.bundle.first_output
        return [line.range for line in self.bundle.lines[first:first + self.bundle.outputs]]


def search(fixd: Fixd, data: bytes, name: str, width: int, rounding: str = "floor", tries: int = None,
           seconds: float = 600) -> Found:
    """Searches a bundle for a function of a source. A fault of the source ends the call."""
    with tempfile.TemporaryDirectory(prefix="fixd-tools-") as folder:
        path = os.path.join(folder, "source.fixd")
        with open(path, "wb") as file:
            file.write(data)
        words = [fixd.path, "synth", "--width", str(width), "--round", rounding, "--function",
                 name] + (["--tries", str(tries)] if tries is not None else [])
        begin = time.monotonic()
        try:
            ran = subprocess.run([*words, path], capture_output=True, timeout=seconds, check=False)
        except subprocess.TimeoutExpired:
            return Found(width, rounding, why=f"stopped after {seconds:.0f} s", seconds=seconds)
        spent = time.monotonic() - begin
    line = ran.stderr.decode("utf-8", "replace").strip().removeprefix("fixd: ")
    if ran.returncode == NOT_FOUND:
        return Found(width, rounding, why=line, seconds=spent)
    if ran.returncode:
        raise Trouble(f"fixd synth ended with status {ran.returncode}: {line}\nto have that explained: fixd-tools "
                      f"explain synth --width {width} FILE")
    return Found(width, rounding, ran.stdout, bundles.parsed(ran.stdout), seconds=spent)


def bytes_of_words(fixd: Fixd, found: Found) -> int:
    """Returns how many bytes the words of a program take, each in its own least width."""
    with tempfile.TemporaryDirectory(prefix="fixd-tools-") as folder:
        path = os.path.join(folder, "found.bundle")
        with open(path, "wb") as file:
            file.write(found.text)
        return int(fixd.printed("widths", path).decode().strip().splitlines()[-1].split()[1])
