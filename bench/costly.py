#!/usr/bin/env python3
"""Writes an accepted bundle that is made to cost its checker as much as its text allows: costly.py KIND > BUNDLE

KIND is `shares` (512 templates and 512 error templates of 32 states with 512 shares each, and a form over all variables
with 512 shares for its range and as many for its error at each sum: some 43 MB), `rows` (those templates alone),
`great` (forms whose coefficients are near 2^61, over 96 variables, at 3,776 of 4,000 nodes), `quotients` (3,997 of
them), `copies` (10,000 steps, each of which copies a tree of 1,990 operations or compares it with its copy), `name` (a
function's name of half a megabyte) or `temps` (1,000 long names that differ at their ends).
"""
import random
import sys

from bundles import dyadic, form, plain, ranges, shares_text, sums, text, variables, words

POINT = 12
GREAT = 2**61 - 1


def given_shares(draw, count=512):
    """So many shares of all templates, each taken a very little."""
    return shares_text([(row, dyadic(draw.choice([-1, 1, 3]), 40)) for row in range(count)])


def wide_rows(draw, states=32, count=512):
    """Templates and error templates with all shares; each is held with room where the next states are the input."""
    def group(interval):
        coefficients = [[dyadic(draw.randint(-64, 64), 11) for _ in range(states)] for _ in range(count)]
        return [(row, interval, [(k, dyadic(draw.choice([-1, 1, 3]), 40)) for k in range(count)])
                for row in coefficients]
    return group(f"{dyadic(-4)} {dyadic(4)}"), group(f"{dyadic(-4, POINT)} {dyadic(4, POINT)}")


def sharing(count, shared):
    """So many sums of an input and 32 states, whose forms have shares or none; the next states are the input."""
    draw, states = random.Random(5), 32
    front, require, xs, ss = variables(1, states)
    temps, last = sums(count, 199, xs + ss) if count else ("", "x0")
    results = ", ".join(["Real"] * (states + 1))
    source = f"def f{front}: ({results}) = {{\n  {require}\n  {temps}\n  ({', '.join([last, *xs * states])})\n}}"
    every = states + 1
    codes = [f"in 0 {POINT}"] + [f"st {k} {POINT} 0" for k in range(states)]
    lines = [plain(-1, 1, -1, 0)] + [plain(-4, 4, -4, 4)] * states
    times, some = [1] + [0] * states, [given_shares(draw) for _ in range(16)]
    for k in range(count):
        codes.append(f"add {0 if k == 0 else every + k - 1} {(k + 1) % every} 0 0")
        times[(k + 1) % every] += 1
        most = times[0] + 4 * sum(times[1:]) + 1
        lines.append(form(-most, most, -most, most, [dyadic(t) for t in times], f"{some[k % 16]} {some[(k + 7) % 16]}"
                          if shared else "0 0"))
    codes += [f"copy {every + count - 1 if count else 0} 0"] + ["copy 0 0"] * states
    lines.append(lines[-1] if count else lines[0])
    lines += [form(-1, 1, -1, 0, [dyadic(int(j == 0)) for j in range(every)])] * states
    return text(source, "f", 32, (1, states, 1), codes, lines, ["start 0:0 0:0 0:0 0:0"] * states, wide_rows(draw))


def great_line(top, coefficients, error_low, error_high, rest=0, centres="0:0 0:0"):
    """A form with a range of so much to both sides, at point 0, and an error's rest from -rest to rest."""
    return words("form", dyadic(-top), dyadic(top), dyadic(error_low), dyadic(error_high), centres, *coefficients,
                 "0:0 0:0", dyadic(-rest),
                 dyadic(rest), "0 0")


def great():
    """Products of a great literal and each of 96 variables within 1/128, then their sums and differences."""
    inputs, states = 64, 32
    every = inputs + states
    front, _, xs, ss = variables(inputs, states)
    count = 4000 - 3 * every - states - 1
    temps = "\n  ".join(f"val y{k} = {GREAT} * {name}" for k, name in enumerate(xs + ss))
    chains = [f"val t{at} = {f't{at - 1}' if at else 'y0'}"
              + "".join(f" {'+-'[k % 2 if k >= every else 0]} y{k % every if k < every else 0}"
              for k in range(1 + 150 * at, 1 + min(150 * at + 150, count))) for at in range((count + 149) // 150)]
    lower = "\n  ".join(chains)
    results = ", ".join(["Real"] * (states + 1))
    source = (f"def f{front}: ({results}) = {{\n  require({ranges(xs, '-0.0078125', '0.0078125')})\n  {temps}\n  "
              f"{lower}\n"
              f"  ({', '.join([f't{len(chains) - 1}', *xs[:states]])})\n}}")
    codes = [f"in {k} 62" for k in range(inputs)] + [f"st {k} 62 0" for k in range(states)]
    variable = words("plain", "-1:7 1:7 -1:62 0:0")
    lines, unit = [variable] * every, 2**54
    for k in range(every):
        codes += [f"const {GREAT} 0", f"mul {every + 2 * k} {k} 62"]
        lines += [words("plain", dyadic(GREAT), dyadic(GREAT), "0:0 0:0"),
                  great_line(unit, [dyadic(GREAT * (j == k)) for j in range(every)], -2, 2, 1, f"{dyadic(GREAT)} 0:0")]
    products, has = [every + 2 * k + 1 for k in range(every)], [1] + [0] * (every - 1)
    for k in range(1, 1 + count):
        other = k if k < every else 0
        sign = -1 if k >= every and k % 2 else 1
        has[other] += sign
        codes.append(f"{'add' if sign > 0 else 'sub'} {3 * every + k - 2 if k > 1 else products[0]} {products[other]} "
                     "0 0")
        lines.append(great_line((every + 1) * unit, [dyadic(GREAT * h) for h in has], -4 * k - 4, 4 * k + 4, k + 1))
    codes += [f"copy {3 * every + count - 1} 0"] + [f"copy {k} 0" for k in range(states)]
    lines += [lines[-1]] + [variable] * states
    box = [((), "-1:7 1:7", ())] * states, [((), "-1:62 0:0", ())] * states
    return text(source, "f", 64, (inputs, states, 1), codes, lines, ["start 0:0 0:0 0:0 0:0"] * states, box)


def quotients():
    """x / y / y / .. for y = 1, at point 40; each error is a little greater than the one before."""
    count, point = 3997, 40
    temps = [f"val t{at} = {f't{at - 1}' if at else 'x'}{' / y' * min(190, count - 190 * at)}"
             for at in range((count + 189) // 190)]
    lower = "\n  ".join(temps)
    source = (f"def f(x: Real, y: Real): Real = {{\n  require(1 <= x && x <= 2 && 1 <= y && y <= 1)\n  {lower}\n  "
              f"t{len(temps) - 1}\n}}")
    codes, lines = [f"in 0 {point}", f"in 1 {point}"], [f"plain 1:0 1:0 -1:{point} 0:0"]
    lines.insert(0, f"plain 1:0 2:0 -1:{point} 0:0")
    for k in range(count):
        codes.append(f"div {k + 1 if k else 0} 1 {point}")
        lines.append(words("plain", "1:0 2:0", dyadic(-2 * k - 4, point), dyadic(4 * k + 4, point)))
    return text(source, "f", 64, (2, 0, 1), [*codes, f"copy {count + 1} 0"], [*lines, lines[-1]])


def balanced(count):
    """A sum of so many x with few parentheses open at once."""
    return "x" if count == 1 else f"({balanced(count // 2)} + {balanced(count - count // 2)})"


def copies():
    """a * (x + x), where a is a sum of 1,991 x: multiplied out and factored again, over and over."""
    count, codes, lines = 1991, [f"in 0 {POINT}"], [plain(0, 1, -1, 0)]

    def added(terms):
        """The code of such a sum."""
        if terms == 1:
            return 0
        left, right = added(terms // 2), added(terms - terms // 2)
        codes.append(f"add {left} {right} 0 0")
        lines.append(plain(0, terms, -terms, 0))
        return len(codes) - 1

    left, right = added(count), added(2)
    codes += [f"mul {left} {right} {POINT}", f"copy {right + 1} 0"]
    lines += [plain(0, 2 * count, -4 * count - 1, count)] * 2
    source = f"def f(x: Real): Real = {{\n  require(0 <= x && x <= 1)\n  {balanced(count)} * (x + x)\n}}"
    return text(source, "f", 32, (1, 0, 1), codes, lines, steps=["step 0 - 7", "step 0 - 11"] * 5000)


def name():
    """x itself, by a function whose name is half a megabyte."""
    called = "f" * 500000
    source = f"def {called}(x: Real): Real = {{ require(0 <= x && x <= 1) x }}"
    return text(source, called, 16, (1, 0, 1), ["in 0 12", "copy 0 0"], [plain(0, 1, -1, 0)] * 2)


def temps():
    """1,000 temps with names of 195 bytes, each the last three added; their names differ in the last four bytes."""
    front = "t" * 191
    names = ["x"] * 3 + [f"{front}{k:04d}" for k in range(1000)]
    given = [f"val {names[k]} = {names[k - 1]} + {names[k - 2]} - {names[k - 2]}" for k in range(3, 1003)]
    lower = "\n  ".join(given)
    source = f"def f(x: Real): Real = {{\n  require(0 <= x && x <= 1)\n  {lower}\n  {names[-1]}\n}}"
    codes, variable = [f"in 0 {POINT}"], words("form", "0:0 1:0", f"-1:{POINT} 0:0", "0:0 0:0 1:0 0:0 0:0 0:0 0:0 0 0")
    lines, place = [plain(0, 1, -1, 0)], [0, 0, 0]
    for k in range(3, 1003):
        codes += [f"add {place[k - 1]} {place[k - 2]} 0 0", f"sub {len(codes)} {place[k - 2]} 0 0"]
        lines += [variable.replace("1:0", "2:0").replace("-1:12", "-1:11"), variable]
        place.append(len(codes) - 1)
    return text(source, "f", 32, (1, 0, 1), [*codes, f"copy {place[-1]} 0"], [*lines, lines[-1]])


KINDS = {"shares": lambda: sharing(3934, True), "rows": lambda: sharing(0, False), "great": great,
         "quotients": quotients, "copies": copies,
         "name": name, "temps": temps}
if __name__ == "__main__":
    sys.stdout.write(KINDS[sys.argv[1]]())
