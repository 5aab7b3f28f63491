#!/usr/bin/env python3
"""Makes docs/gallery.md and its pictures: what is certified and what is seen of each example without state at three
widths, and of each filter that has a bundle.

    bench/gallery.py PROGRAM [--rows 100000] [--widths 16,24,32] [--only NAME,..] [--out docs/gallery.md]
                     [--gappa FOLDER]

PROGRAM is `fixd` as built. Exact outputs come by Python's fractions (bench/sources.py), so the script knows nothing of
`fixd`'s arithmetic but the numbers that it prints. A row's true inputs are random decimals or corners of the ranges,
and where an input has an error, the given value differs from the true one by a random part of it, or by all of it. With
--gappa the input of Gappa for each program as it is written goes to FOLDER, as NAME.WIDTH.g; where `gappa` is installed
its bound stands in the table.
"""
import argparse
import itertools
import os
import random
import re
import shutil
import subprocess
import sys
import tempfile
import textwrap
import time
from fractions import Fraction

from calls import Fixd
from gallery_pictures import error_over_input, error_over_time
from sources import evaluator, functions_of

ROOT = os.path.join(os.path.dirname(os.path.abspath(__file__)), "..")
CODE_ENDS = {"add": 2, "sub": 2, "mul": 2, "div": 2, "neg": 1, "copy": 1}
RUN_OF_A_FILTER = 2000
SHOWN_OF_A_FILTER = 400

HEAD = """Made by `bench/gallery.py` with {rows:,} rows a function, random ones and corners of the ranges, and at most
{filter_rows:,} a filter; {when}. For each example without state, at three widths: how many nodes it has, the
certified bound of the program as it is written (`--tries 0`) and of the one that `synth` finds (`--tries 200`), the
greatest error seen of the latter, as a part of its bound, how many seconds of the processor `synth` took, and of the
former program the bound of [Gappa](https://gappa.gitlabpages.inria.fr), which knows nothing of errors that inputs are
given with{gappa}. Of several outputs Gappa's bound is of the last, the picture of the first. Filters are shown where
their bundle stands beside their source (*by hand*: bound and error are those of that bundle);
[measures.md](measures.md) has the others. Errors are those of the outputs against exact values; each difference is
taken exactly, and rounded to be shown. Below the table each function of it for which there is a program stands with
its picture; [examples](../examples/README.md) says where the published ones come from."""

COLUMNS = """| function | bits | nodes | bound as written | bound found | error seen | of the bound | seconds | Gappa |
|---|---|---|---|---|---|---|---|---|
"""


def broken(text):
    """Returns a paragraph in lines of at most 120 characters."""
    return textwrap.fill(" ".join(text.split()), 120, break_long_words=False, break_on_hyphens=False)


def short(number):
    return f"{float(number):.3g}"


# ---- rows

def places_of(number):
    """Returns how many decimal places a decimal has."""
    places = 0
    while (number * 10 ** places).denominator != 1:
        places += 1
    return places


def decimal(number):
    places = places_of(number)
    digits = str(abs(int(number * 10 ** places))).rjust(places + 1, "0")
    text = digits if places == 0 else f"{digits[:-places]}.{digits[-places:]}"
    return f"-{text}" if number < 0 else text


def true_value(draw, span):
    places = max(6, places_of(span["lo"]), places_of(span["hi"]))
    unit = 10 ** places
    return Fraction(draw.randint(int(span["lo"] * unit), int(span["hi"] * unit)), unit)


def given_value(draw, true, span):
    if not span["err"]:
        return true
    return true + span["err"] * Fraction(draw.choice([-1, 1, draw.randint(-1000, 1000) / Fraction(1000)]))


def rows_of(function, count):
    """Yields true and given rows: corners first, and then random ones."""
    draw = random.Random(1)
    spans = list(function.inputs.values())
    corners = itertools.islice(itertools.product(*[(span["lo"], span["hi"]) for span in spans]), 4096)
    for n, corner in enumerate(itertools.chain(corners, itertools.repeat(None))):
        if n == count:
            return
        true = corner or [true_value(draw, span) for span in spans]
        yield list(true), [given_value(draw, value, span) for value, span in zip(true, spans)]


def exact_outputs(function, trues):
    """Returns the exact outputs of each row, the state carried."""
    exact, state = evaluator(function), list(function.states.values())
    outputs = []
    for row in trues:
        results = exact(*row, *state)
        count = len(results) - len(state)
        outputs.append(results[:count])
        state = results[count:]
    return outputs


def write_rows(path, function, givens):
    with open(path, "w", encoding="utf-8") as file:
        file.write(",".join(function.inputs) + "\n")
        file.writelines(",".join(map(decimal, row)) + "\n" for row in givens)


def errors_of(fixd, bundle, rows, exact):
    """Returns the error of each row's outputs, as floats of exact differences."""
    with open(rows, encoding="utf-8") as file:
        printed = fixd.call(["run", bundle], stdin=file).splitlines()[1:]
    return [[float(Fraction(text) - value) for text, value in zip(line.split(","), values)]
            for line, values in zip(printed, exact)]


# ---- Gappa

def literals_of(tree):
    """Yields the literals of a tree, in the order of the codes."""
    if isinstance(tree, Fraction):
        yield tree
    elif not isinstance(tree, str):
        for part in tree[1:]:
            yield from literals_of(part)


def gappa_input(bundle, function):
    """Returns the input of Gappa for the bundle's program: each code rounded down to its point, beside the exact
    formula."""
    trees = [tree for _, tree in function.temps] + function.results
    literals = itertools.chain.from_iterable(map(literals_of, trees))
    lines = iter(bundle[bundle.index("\nprogram\n"):].splitlines()[6:])
    codes = [line.split() for line in itertools.takewhile(lambda line: line != "certificate", lines)]
    names = list(function.inputs)
    points, rounded, exact = [], [], []
    for n, (word, *fields) in enumerate(codes):
        operands = [int(f) for f in fields[:CODE_ENDS.get(word, 0)]]
        shifts = [int(f) for f in fields[CODE_ENDS.get(word, 0):]]
        if word == "in":
            points.append(int(fields[1]))
            value = whole = f"m{fields[0]}"
        elif word == "const":
            points.append(int(fields[1]))
            value, whole = f"{fields[0]}b{-int(fields[1])}", decimal(next(literals))
        else:
            value, whole, point = operation(word, operands, shifts, points)
            points.append(point)
        way = "zr" if word == "div" else "dn"
        rounded.append(f"r{n} = {value};" if word in ("const", "neg")
                       else f"r{n} = fixed<{-points[n]},{way}>({value});")
        exact.append(f"e{n} = {whole};")
    last = len(codes) - 1
    ranges = " /\\ ".join(f"m{k} in [{decimal(span['lo'])},{decimal(span['hi'])}]"
                          for k, span in enumerate(function.inputs.values()))
    head = f"# {function.name}: inputs {', '.join(names)}\n"
    return head + "\n".join(rounded + exact) + f"\n{{ {ranges} -> r{last} - e{last} in ? }}\n"


def operation(word, operands, shifts, points):
    """Returns a code's value of rounded operands, the same of exact ones, and its point."""
    sign = {"add": "+", "sub": "-", "mul": "*", "div": "/"}.get(word)
    f = [points[k] for k in operands]
    if sign:
        point = {"+": f[0] - shifts[0], "-": f[0] - shifts[0], "*": sum(f) - shifts[0],
                 "/": f[0] + shifts[0] - f[1]}[sign]
        parts = [f"fixed<{-point},dn>(r{k})" for k in operands] if sign in "+-" else [f"r{k}" for k in operands]
        return f"{parts[0]} {sign} {parts[1]}", f"e{operands[0]} {sign} e{operands[1]}", point
    minus = "-" if word == "neg" else ""
    return f"{minus}r{operands[0]}", f"{minus}e{operands[0]}", f[0] - (shifts[0] if shifts else 0)


def gappa_bound(text):
    ran = subprocess.run(["gappa"], input=text, stdout=subprocess.PIPE, stderr=subprocess.STDOUT, text=True)
    found = re.search(r"in \[(\S+?)(?: \{(\S+), .*?)?, (\S+?)(?: \{(\S+), .*?)?\]", ran.stdout)
    if not found:
        return "none"
    return short(max(abs(float(found[2] or found[1])), abs(float(found[4] or found[3]))))


# ---- an example with its picture

OVER_INPUT = ("{name} at {width} bits, over its first input `{first}`. The lines above and below are the certified "
              "bound, {bound}; each stroke goes from the least to "
              "the greatest error that was seen where the input had that value. In all {seen} was seen, {part} of the "
              "bound.")
OVER_TIME = ("{name} at {width} bits, the first {shown} rows of {rows:,}. The lines above and below are the certified "
             "bound, {bound}, which holds forever; the error seen was at most {seen}, {part} of it.")


def shown_name(path, function):
    """Returns the function's name, or where that is a letter its folder's."""
    return function.name if len(function.name) > 1 else os.path.basename(os.path.dirname(path))


def text_of(path, name):
    """Returns a function's own lines in a source, with the comment that stands above it or, of a source in an object,
    above that."""
    with open(path, encoding="utf-8") as file:
        lines = file.read().splitlines()
    start = next(n for n, line in enumerate(lines) if re.match(rf"\s*def {name}\(", line))
    depth, end = 0, start
    while end < len(lines):
        depth += lines[end].count("{") - lines[end].count("}")
        end += 1
        if depth == 0:
            break
    indent = len(lines[start]) - len(lines[start].lstrip())
    comments = [line.strip() for line in lines[:start] if line.strip().startswith("//")]
    return comments[-1:] + [line[indent:] for line in lines[start:end]]


def section(path, function, caption):
    """Returns the part of the page that shows an example: its text, its picture, and what the picture shows."""
    name, place = shown_name(path, function), os.path.relpath(path, ROOT)
    source = "\n".join("    " + line for line in text_of(path, function.name))
    picture = f"![The errors of {name} between its bounds](gallery/{name}.svg)"
    return f"## {name}\n\n[{place}](../{place}):\n\n{source}\n\n{picture}\n\n{broken(f'*{caption}*')}\n"


# ---- the table

class Gallery:
    def __init__(self, options, folder):
        self.options = options
        self.folder = folder
        self.fixd = Fixd(os.path.abspath(options.program))
        self.lines = []
        self.pictures = []
        self.has_gappa = shutil.which("gappa") is not None

    def picture(self, path, function, text, caption):
        name = shown_name(path, function)
        place = os.path.join(os.path.dirname(self.options.out), "gallery")
        os.makedirs(place, exist_ok=True)
        with open(os.path.join(place, f"{name}.svg"), "w", encoding="utf-8") as file:
            file.write(text)
        self.pictures.append(section(path, function, caption))

    def row(self, *fields):
        self.lines.append("| " + " | ".join(map(str, fields)) + " |")

    def gappa(self, name, bundle, function):
        if bundle is None or not (self.options.gappa or self.has_gappa):
            return ""
        text = gappa_input(bundle, function)
        if self.options.gappa:
            os.makedirs(self.options.gappa, exist_ok=True)
            with open(os.path.join(self.options.gappa, f"{name}.g"), "w", encoding="utf-8") as file:
                file.write(text)
        return gappa_bound(text) if self.has_gappa else ""

    def bundle_file(self, text):
        path = os.path.join(self.folder, "now.bundle")
        with open(path, "w", encoding="utf-8") as file:
            file.write(text)
        return path

    def function(self, path, function):
        """The rows of the table of a function without state, and its picture at the least width at which there is a
        program."""
        name = shown_name(path, function)
        trues, givens = zip(*rows_of(function, self.options.rows))
        exact = exact_outputs(function, trues)
        rows = os.path.join(self.folder, "rows.csv")
        write_rows(rows, function, givens)
        is_drawn = False
        for width in self.options.widths:
            plain, _ = self.fixd.synthesised(path, function.name, width, 0)
            found, seconds = self.fixd.synthesised(path, function.name, width, 200)
            written = short(max(self.fixd.bounds_of(self.bundle_file(plain)))) if plain else "not found"
            if found is None:
                self.row(f"`{name}`", width, "", written, "not found", "", "", f"{seconds:.2f}", "")
                continue
            bundle = self.bundle_file(found)
            bounds = self.fixd.bounds_of(bundle)
            errors = errors_of(self.fixd, bundle, rows, exact)
            seen = [max(abs(row[j]) for row in errors) for j in range(len(bounds))]
            part = max(s / float(b) if b else 0.0 for s, b in zip(seen, bounds))
            nodes = int(re.search(r"^sizes \d+ \d+ \d+ (\d+)$", plain or found, re.M)[1])
            gappa = self.gappa(f"{function.name}.{width}", plain, function)
            self.row(f"`{name}`", width, nodes, written, short(max(bounds)), short(max(seen)), f"{100 * part:.0f}%",
                     f"{seconds:.2f}", gappa)
            if not is_drawn:
                is_drawn = True
                first = [float(row[0]) for row in trues]
                title = f"{name}, {width} bits: error over {next(iter(function.inputs))}"
                part = f"{100 * seen[0] / float(bounds[0]) if bounds[0] else 0:.0f}%"
                caption = OVER_INPUT.format(name=name, width=width, first=next(iter(function.inputs)),
                                            bound=short(bounds[0]), seen=short(seen[0]), part=part)
                self.picture(path, function,
                             error_over_input(title, first, [row[0] for row in errors], float(bounds[0])), caption)

    def filter(self, path, bundle, function):
        """A filter's row, by the bundle that stands beside its source, and its picture over time."""
        trues, givens = zip(*rows_of(function, min(self.options.rows, RUN_OF_A_FILTER)))
        exact = exact_outputs(function, trues)
        rows = os.path.join(self.folder, "rows.csv")
        write_rows(rows, function, givens)
        bound = self.fixd.bounds_of(bundle)[0]
        errors = [row[0] for row in errors_of(self.fixd, bundle, rows, exact)]
        seen = max(map(abs, errors))
        with open(bundle, encoding="utf-8") as file:
            text = file.read()
        width = re.search(r"^width (\d+)$", text, re.M)[1]
        nodes = re.search(r"^sizes \d+ \d+ \d+ (\d+)$", text, re.M)[1]
        name, part = shown_name(path, function), f"{100 * seen / float(bound):.0f}%"
        self.row(f"`{name}`, by hand", width, nodes, short(bound), "", short(seen), part, "", "")
        shown = errors[:SHOWN_OF_A_FILTER]
        caption = OVER_TIME.format(name=name, width=width, shown=len(shown), rows=len(errors), bound=short(bound),
                                   seen=short(seen), part=part)
        self.picture(path, function, error_over_time(f"{name}, {width} bits: error over time", shown, float(bound)),
                     caption)

    def example(self, path):
        with open(path, encoding="utf-8") as file:
            functions = functions_of(file.read())
        for function in functions:
            if self.options.only and function.name not in self.options.only:
                continue
            bundle = path.removesuffix(".fixd") + ".bundle"
            if not function.states:
                self.function(path, function)
            elif os.path.exists(bundle):
                self.filter(path, bundle, function)
            print(f"{function.name} done", file=sys.stderr)

    def write(self):
        gappa = "" if self.has_gappa else " (empty: `gappa` wasn't there)"
        when = time.strftime("%Y-%m-%d")
        head = broken(HEAD.format(rows=self.options.rows, filter_rows=RUN_OF_A_FILTER, when=when, gappa=gappa))
        with open(self.options.out, "w", encoding="utf-8") as file:
            file.write(f"# Gallery\n\n{head}\n\n{COLUMNS}" + "\n".join(self.lines) + "\n\n" + "\n".join(self.pictures))


def main():
    parser = argparse.ArgumentParser()
    parser.add_argument("program")
    parser.add_argument("--rows", type=int, default=100_000)
    parser.add_argument("--widths", type=lambda text: [int(w) for w in text.split(",")], default=[16, 24, 32])
    parser.add_argument("--only", type=lambda text: text.split(","))
    parser.add_argument("--out", default=os.path.join(ROOT, "docs/gallery.md"))
    parser.add_argument("--gappa")
    options = parser.parse_args()
    examples = sorted(os.path.join(folder, name) for folder, _, names in os.walk(os.path.join(ROOT, "examples"))
                      for name in names if name.endswith(".fixd"))
    with tempfile.TemporaryDirectory(prefix="fixd-gallery-") as folder:
        gallery = Gallery(options, folder)
        for path in examples:
            gallery.example(path)
        gallery.write()


if __name__ == "__main__":
    main()
