#!/usr/bin/env python3
"""Writes a bundle of N codes, rows for it, and two C programs of the same arithmetic: make.py N ROWS FOLDER [mixed]

chain.c is compiled for its one program; codes.c goes over a list of codes, as `fixd` does, and would do so with any.

The chain is x - (x - (x - ..)), in words of 32 bits. Points go from 11 to 10 and back, so that each difference shifts
both of its operands and no compiler can leave one out. The mixed program has sums, differences and negations in random
order, at points of 10 or 11 at random, so that no processor foretells the next code. Errors are counted in units of
2^-12.
"""
import random
import sys

WIDTH, POINT = 32, 12


def dyadic(mantissa, exponent):
    while exponent > 0 and mantissa % 2 == 0:
        mantissa, exponent = mantissa // 2, exponent - 1
    return f"{mantissa}:{exponent if mantissa else 0}"


def chain(count):
    """For each operation its kind, its point, and by how much x and the operation before it are shifted."""
    yield "sub", 11, 1, 1
    for i in range(1, count):
        yield ("sub", 10, 2, 1) if i % 2 else ("sub", 11, 1, -1)


def mixed(count):
    """The same at random, where a negation shifts nothing."""
    draw = random.Random(7)
    before = POINT
    for i in range(count):
        kind = draw.choice(["sub", "add", "sub", "add", "neg"]) if i else "sub"
        point = before if kind == "neg" else draw.choice([10, 11])
        yield kind, point, POINT - point, before - point
        before = point


def line_after(kind, shift_before, unit, line):
    """The range and the error of an operation, from those of the one before it."""
    low, high, error_low, error_high = line
    gained = unit if shift_before > 0 else 0
    if kind == "neg":
        return -high, -low, -error_high, -error_low
    if kind == "sub":
        return 0 - high, 1 - low, -1 - error_high - unit, 0 - error_low + gained
    return low, 1 + high, -1 + error_low - unit - gained, error_high


def bundle(operations):
    terms = {"sub": "x - {}", "add": "x + {}", "neg": "-{}"}
    temps = [f"  val t{i + 1} = {terms[kind].format(f't{i}' if i else 'x')}" for i, (kind, *_) in enumerate(operations)]
    source = "\n".join(
        ["def chain(x: Real): Real = {", "  require(0 <= x && x <= 1)", *temps, f"  t{len(operations)}", "}"]
    )
    codes = [f"in 0 {POINT}"]
    lines = [(0, 1, -1, 0)]
    for i, (kind, point, shift_x, shift_before) in enumerate(operations):
        codes.append(f"neg {i}" if kind == "neg" else f"{kind} 0 {i} {shift_x} {shift_before}")
        lines.append(line_after(kind, shift_before, 2 ** (POINT - point), lines[-1]))
    codes.append(f"copy {len(operations)} 0")
    lines.append(lines[-1])
    plain = [f"plain {dyadic(a, 0)} {dyadic(b, 0)} {dyadic(c, POINT)} {dyadic(d, POINT)}" for a, b, c, d in lines]
    return "\n".join(
        [
            "fixd bundle 1", f"source {len(source)}", source, "program", "fixd program 1", f"width {WIDTH}",
            "name chain",
            f"sizes 1 0 1 {len(codes)}", *codes, "certificate", "fixd certificate 1", f"sizes 1 0 {len(codes)}",
            "steps 0",
            "rows 0 0", *plain, "end", "",
        ]
    )


def shifted(word, shift):
    return f"({word} >> {shift})" if shift > 0 else f"{word} * {2 ** -shift}"


def compiled(operations):
    """The operations as statements of C, one for each code."""
    words = []
    for i, (kind, _, shift_x, shift_before) in enumerate(operations):
        before = shifted(f"w[{i}]", shift_before)
        sign = "-" if kind == "sub" else "+"
        words.append(f"        w[{i + 1}] = "
                     + (f"-w[{i}];" if kind == "neg" else f"{shifted('w[0]', shift_x)} {sign} {before};"))
    last = len(operations)
    return "", "\n".join([*words, f"        w[{last + 1}] = w[{last}];"])


def interpreted(operations):
    """The operations as a list of codes, and the loop over any such list."""
    lines = ["    {IN, 0, 0, 0, 0},"]
    for i, (kind, _, shift_x, shift_before) in enumerate(operations):
        lines.append(f"    {{NEG, {i}, 0, 0, 0}}," if kind == "neg"
                     else f"    {{{kind.upper()}, 0, {i}, {shift_x}, {shift_before}}},")
    lines.append(f"    {{COPY, {len(operations)}, 0, 0, 0}},")
    table = "\n".join(lines)
    above = f"""
enum kind {{ IN, STATE, CONST, NEG, ADD, SUB, MUL, DIV, COPY }};

struct code {{ enum kind kind; uint32_t a, b; int32_t sa, sb; }};

static struct code codes[] = {{
{table}
}};

static int32_t states[1];

/* a word times 2^-s, rounded down */
static inline int64_t shifted(int64_t w, int32_t s) {{ return s >= 0 ? w >> (s < 32 ? s : 31) : w << -s; }}

static void step(const struct code *c, size_t count, int32_t x) {{
    for (size_t i = 0; i < count; i++, c++) {{
        switch (c->kind) {{
        case IN: w[i] = x; break;
        case STATE: w[i] = states[c->a]; break;
        case CONST: w[i] = c->sa; break;
        case NEG: w[i] = -w[c->a]; break;
        case ADD: w[i] = (int32_t)(shifted(w[c->a], c->sa) + shifted(w[c->b], c->sb)); break;
        case SUB: w[i] = (int32_t)(shifted(w[c->a], c->sa) - shifted(w[c->b], c->sb)); break;
        case MUL: w[i] = (int32_t)(((int64_t)w[c->a] * w[c->b]) >> c->sa); break;
        case DIV: w[i] = (int32_t)(((int64_t)w[c->a] << c->sa) / w[c->b]); break;
        case COPY: w[i] = (int32_t)shifted(w[c->a], c->sa); break;
        }}
    }}
}}
"""
    return above, "        step(codes, sizeof codes / sizeof *codes, w[0]);"


def program(operations, parts):
    above, body = parts
    count = len(operations) + 2
    point = operations[-1][1]
    return f"""#include <stdint.h>
#include <stdio.h>
#include <string.h>

static int32_t w[{count}];
{above}
/* the word of a decimal from 0 to 1, rounded down to {POINT} places */
static int32_t read_word(const char *s) {{
    int64_t a = 0, b = 1;
    int point = 0;
    for (; *s && *s != '\\n'; s++) {{
        if (*s == '.') {{ point = 1; continue; }}
        a = a * 10 + (*s - '0');
        if (point) b *= 10;
    }}
    return (int32_t)((a << {POINT}) / b);
}}

/* the decimal of v / 2^{point}, without needless zeros */
static void print_word(int32_t v) {{
    char text[40];
    int n = 0;
    uint64_t a = v < 0 ? (uint64_t)(-(int64_t)v) : (uint64_t)v;
    if (v < 0) text[n++] = '-';
    n += sprintf(text + n, "%llu", (unsigned long long)(a >> {point}));
    a &= (1u << {point}) - 1;
    if (a) text[n++] = '.';
    while (a) {{ a *= 10; text[n++] = (char)('0' + (a >> {point})); a &= (1u << {point}) - 1; }}
    text[n++] = '\\n';
    fwrite(text, 1, (size_t)n, stdout);
}}

int main(void) {{
    char line[256];
    if (!fgets(line, sizeof line, stdin) || strcmp(line, "x\\n")) return 5;
    puts("out1");
    while (fgets(line, sizeof line, stdin)) {{
        w[0] = read_word(line);
{body}
        print_word(w[{count - 1}]);
    }}
    return 0;
}}
"""


def main():
    count, rows, folder = int(sys.argv[1]), int(sys.argv[2]), sys.argv[3]
    operations = list((mixed if sys.argv[4:] == ["mixed"] else chain)(count - 2))
    with open(f"{folder}/chain.bundle", "w") as file:
        file.write(bundle(operations))
    with open(f"{folder}/chain.c", "w") as file:
        file.write(program(operations, compiled(operations)))
    with open(f"{folder}/codes.c", "w") as file:
        file.write(program(operations, interpreted(operations)))
    with open(f"{folder}/chain.csv", "w") as file:
        file.write("x\n")
        for i in range(rows):
            file.write(f"0.{(i * 7919) % 1000000:06d}\n")


main()
