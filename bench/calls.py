"""Calls of a built `fixd` that more than one script makes."""
import resource
import subprocess
import sys
import tempfile
from fractions import Fraction


def bound_of(text):
    """Returns the number of `m` or `m/2^e`."""
    top, _, places = text.partition("/2^")
    return Fraction(int(top), 2 ** int(places or 0))


def spent():
    """Returns the processors' seconds of all calls that have ended. Other work on the machine hardly changes them."""
    used = resource.getrusage(resource.RUSAGE_CHILDREN)
    return used.ru_utime + used.ru_stime


class Fixd:
    """A program that is called by its words."""

    def __init__(self, program):
        self.program = program

    def call(self, words, **options):
        """Returns what the program prints, or None where nothing is found; any other status ends the script."""
        ran = subprocess.run([self.program, *words], stdout=subprocess.PIPE, stderr=subprocess.PIPE, text=True,
                             **options)
        if ran.returncode not in (0, 9):
            sys.exit(f"fixd {' '.join(words)}: {ran.stderr.strip()}")
        return ran.stdout if ran.returncode == 0 else None

    def synthesised(self, path, name, width, tries, rounding="floor", seed=0, **options):
        """Returns the bundle for the function of this name, or None if none is found, and the processor's seconds."""
        before = spent()
        words = ["--width", str(width), "--tries", str(tries), "--round", rounding, "--seed", str(seed)]
        text = self.call(["synth", *words, "--function", name, path], **options)
        return text, spent() - before

    def bounds_in(self, text):
        """Returns the certified bounds of the bundle with this text."""
        with tempfile.NamedTemporaryFile("w", encoding="utf-8") as file:
            file.write(text)
            file.flush()
            return self.bounds_of(file.name)

    def bounds_of(self, bundle):
        """Returns the certified bounds of the bundle in this file."""
        return [bound_of(line.split()[1]) for line in self.call(["check", bundle]).splitlines()[1:]]

    def intervals_of(self, bundle):
        """Returns the certified range and the certified error of each code of the bundle in this file."""
        lines = [line.split()[3:] for line in self.call(["show", bundle]).splitlines()]
        ends = [[bound_of(text) for text in fields] for fields in lines if fields]
        return [(lo, hi) for lo, hi, _, _ in ends], [(lo, hi) for _, _, lo, hi in ends]
