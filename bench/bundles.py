#!/usr/bin/env python3
"""Writes a bundle that is accepted and long in one way, or one whose last line is wrong: bundles.py KIND > BUNDLE

KIND is `columns` (a sum of 8 inputs), `plain` (4,000 nodes), `forms` (4,000 nodes, each operation with a form over 64
inputs and 32 states), `rows` (512 templates and 512 error templates of 32 states, each with 64 shares), `steps` (10,000
steps on 2,000 nodes), `root` (10,000 steps at the root of a tree of 4,000 nodes) or `long` (16 MB of forms and shares;
its last line is wrong, so that nothing but its reading is measured).
"""
import random
import sys

POINT = 12


def dyadic(mantissa, exponent=0):
    while exponent > 0 and mantissa % 2 == 0:
        mantissa, exponent = mantissa // 2, exponent - 1
    return f"{mantissa}:{exponent if mantissa else 0}"


def words(*parts):
    return " ".join(str(part) for part in parts)


def shares_text(shares):
    return words(len(shares), *(f"{row} {times}" for row, times in shares))


def text(source, name, width, sizes, codes, lines, starts=(), rows=((), ()), steps=(), end="end"):
    """A bundle's text. Templates are given as coefficients, interval and shares."""
    inputs, states, outputs = sizes
    parts = ["fixd bundle 1", f"source {len(source)}", source, "program", "fixd program 1", f"width {width}",
             f"name {name}"]
    parts += [words("sizes", inputs, states, outputs, len(codes)), *codes, "certificate", "fixd certificate 1"]
    parts += [words("sizes", inputs, states, len(codes)), words("steps", len(steps)), *steps, *starts]
    parts.append(words("rows", len(rows[0]), len(rows[1])))
    for group in rows:
        for k, (coefficients, interval, shares) in enumerate(group):
            head = ["box"] if k < states else ["row", *coefficients]
            parts.append(words(*head, interval, shares_text(shares)))
    return "\n".join([*parts, *lines, end, ""])


def ranges(names, low="-1", high="1"):
    return " && ".join(f"{low} <= {name} && {name} <= {high}" for name in names)


def plain(low, high, error_low, error_high):
    return words("plain", dyadic(low), dyadic(high), dyadic(error_low, POINT), dyadic(error_high, POINT))


def columns():
    """The sum of 8 inputs from -1 to 1."""
    names = [f"u{k}" for k in range(8)]
    source = (f"def total({', '.join(n + ': Real' for n in names)}): Real = {{ require({ranges(names)}) "
              f"{' + '.join(names)} }}")
    codes = [f"in {k} {POINT}" for k in range(8)]
    lines = [plain(-1, 1, -1, 0)] * 8
    for k in range(1, 8):
        codes.append(f"add {0 if k == 1 else 6 + k} {k} 0 0")
        lines.append(plain(-k - 1, k + 1, -k - 1, 0))
    codes.append("copy 14 0")
    lines.append(lines[-1])
    return text(source, "total", 32, (8, 0, 1), codes, lines)


def sums(count, terms, names):
    """Temps that add so many names in turn, each to what stands before, and the name of the last temp."""
    temps, before = [], names[0]
    for first in range(0, count, terms):
        added = [names[(first + k + 1) % len(names)] for k in range(min(terms, count - first))]
        temps.append(f"val t{len(temps)} = {' + '.join([before, *added])}")
        before = f"t{len(temps) - 1}"
    return "\n  ".join(temps), before


def plain_nodes():
    """x + x + .. with 3,998 sums."""
    count = 3998
    temps, last = sums(count, 199, ["x"])
    source = f"def f(x: Real): Real = {{\n  require(0 <= x && x <= 1)\n  {temps}\n  {last}\n}}"
    codes = [f"in 0 {POINT}"] + [f"add {k} 0 0 0" for k in range(count)] + [f"copy {count} 0"]
    lines = [plain(0, k + 1, -k - 1, 0) for k in range(count + 1)]
    return text(source, "f", 32, (1, 0, 1), codes, [*lines, lines[-1]])


def variables(inputs, states):
    """The parameter lists, `require`, and the names of inputs and states."""
    xs, ss = [f"x{k}" for k in range(inputs)], [f"s{k}" for k in range(states)]
    front = f"({', '.join(x + ': Real' for x in xs)})({', '.join(s + ': Real = 0' for s in ss)})"
    return front, f"require({ranges(xs)})", xs, ss


def form(low, high, error_low, error_high, coefficients, by="0 0"):
    """A form without rest, whose range and error are the bound of its coefficients."""
    return words("form", dyadic(low), dyadic(high), dyadic(error_low, POINT), dyadic(error_high, POINT), "0:0 0:0",
                 *coefficients,
                 "0:0 0:0 0:0 0:0", by)


def forms():
    """Sums of 64 inputs and 32 states in turn; the next states are inputs."""
    inputs, states, count = 64, 32, 4000 - 64 - 2 * 32 - 1
    front, require, xs, ss = variables(inputs, states)
    temps, last = sums(count, 199, xs + ss)
    results = ", ".join(["Real"] * (states + 1))
    source = f"def f{front}: ({results}) = {{\n  {require}\n  {temps}\n  ({', '.join([last, *xs[:states]])})\n}}"
    every = inputs + states
    codes = [f"in {k} {POINT}" for k in range(inputs)] + [f"st {k} {POINT} 0" for k in range(states)]
    lines = [plain(-1, 1, -1, 0)] * every
    times = [1] + [0] * (every - 1)
    for k in range(count):
        codes.append(f"add {0 if k == 0 else every + k - 1} {(k + 1) % every} 0 0")
        times[(k + 1) % every] += 1
        lines.append(form(-k - 2, k + 2, -k - 2, 0, [dyadic(t) for t in times]))
    codes += [f"copy {every + count - 1} 0"] + [f"copy {k} 0" for k in range(states)]
    lines.append(lines[-1])
    lines += [form(-1, 1, -1, 0, [dyadic(int(j == k)) for j in range(every)]) for k in range(states)]
    box = f"{dyadic(-1)} {dyadic(1)}"
    error_box = f"{dyadic(-1, POINT)} 0:0"
    return text(source, "f", 32, (inputs, states, 1), codes, lines, ["start 0:0 0:0 0:0 0:0"] * states,
                ([((), box, ())] * states, [((), error_box, ())] * states))


def rows():
    """The next states are the input; templates of all states with room, each with 64 shares."""
    states, count, given = 32, 512, 64
    front, require, xs, ss = variables(1, states)
    results = ", ".join(["Real"] * (states + 1))
    source = f"def f{front}: ({results}) = {{ {require} ({', '.join(['x0'] * (states + 1))}) }}"
    codes = [f"in 0 {POINT}"] + [f"st {k} {POINT} 0" for k in range(states)] + ["copy 0 0"] * (states + 1)
    unit = [dyadic(int(j == 0)) for j in range(states + 1)]
    lines = [plain(-1, 1, -1, 0)] + [plain(-4, 4, -4, 4)] * states + [form(-1, 1, -1, 0, unit)] * (states + 1)
    draw = random.Random(1)

    def group(interval):
        made = []
        for k in range(count):
            shares = [(row, dyadic(draw.choice([-1, 1, 3]), 40)) for row in sorted(draw.sample(range(count), given))]
            made.append(([dyadic(draw.randint(-64, 64), 11) for _ in range(states)], interval, shares))
        return made

    return text(source, "f", 32, (1, states, 1), codes, lines, ["start 0:0 0:0 0:0 0:0"] * states,
                (group(f"{dyadic(-4)} {dyadic(4)}"), group(f"{dyadic(-4, POINT)} {dyadic(4, POINT)}")))


def steps():
    """Sums of 10 trees of 199 operations; each step is taken back by the one behind it."""
    count = 1998
    temps, last = sums(count, 199, ["x"])
    source = f"def f(x: Real): Real = {{\n  require(0 <= x && x <= 1)\n  {temps}\n  {last}\n}}"
    codes = [f"in 0 {POINT}"] + [f"add {k} 0 0 0" for k in range(count)] + [f"copy {count} 0"]
    lines = [plain(0, k + 1, -k - 1, 0) for k in range(count + 1)]
    draw = random.Random(2)
    made = []
    while len(made) < 10000:
        place, depth = draw.randrange(10), draw.randrange(190)
        path = "0" * depth or "-"
        there, back = draw.choice([(1, 1), (2, 3)])
        made += [f"step {place} {path} {there}", f"step {place} {path} {back}"]
    return text(source, "f", 32, (1, 0, 1), codes, [*lines, lines[-1]], steps=made)


def root():
    """A balanced sum of 3,998 operations, whose two halves change places 10,000 times."""
    codes, lines = [f"in 0 {POINT}"], [plain(0, 1, -1, 0)]

    def add(count):
        """Appends the codes of a sum of so many inputs; gives its text and its last code."""
        if count == 1:
            return "x", 0
        left, a = add(count // 2)
        right, b = add(count - count // 2)
        codes.append(f"add {a} {b} 0 0")
        lines.append(plain(0, count, -count, 0))
        return f"({left} + {right})", len(codes) - 1

    whole, last = add(3999)
    codes.append(f"copy {last} 0")
    source = f"def f(x: Real): Real = {{ require(0 <= x && x <= 1) {whole} }}"
    return text(source, "f", 32, (1, 0, 1), codes, [*lines, lines[-1]], steps=["step 0 - 1"] * 10000)


def long():
    """Numbers of all lengths; behind each form 52 shares. It ends with another word than `end`."""
    inputs, states, count = 64, 32, 512
    front, require, xs, ss = variables(inputs, states)
    every, nodes = inputs + states, 4000
    results = ", ".join(["Real"] * (states + 1))
    source = f"def f{front}: ({results}) = {{ {require} ({', '.join(['x0'] * (states + 1))}) }}"
    codes = [f"in {k} {POINT}" for k in range(inputs)] + [f"st {k} {POINT} 0" for k in range(states)]
    codes += [f"add {k - 1} 0 0 0" for k in range(every, nodes - states - 1)] + ["copy 0 0"] * (states + 1)
    draw = random.Random(3)

    def number():
        return f"{draw.choice(['', '-'])}{draw.getrandbits(draw.choice([62, 62, 60, 40])) | 1}:{draw.randrange(97)}"

    def some(most):
        return shares_text([(row, number()) for row in sorted(draw.sample(range(count), most))])

    lines = [plain(-1, 1, -1, 0)] * every
    for _ in range(nodes - every):
        lines.append(words("form", *(number() for _ in range(6 + every + 4)), some(26), some(26)))
    group = [([number() for _ in range(states)], f"{number()} {number()}",
              [(row, number()) for row in range(0, 512, 8)]) for _ in range(count)]
    return text(source, "f", 32, (inputs, states, 1), codes, lines, ["start 0:0 0:0 0:0 0:0"] * states, (group, group),
                end="fin")


KINDS = {"columns": columns, "plain": plain_nodes, "forms": forms, "rows": rows, "steps": steps, "root": root,
         "long": long}
if __name__ == "__main__":
    sys.stdout.write(KINDS[sys.argv[1]]())
