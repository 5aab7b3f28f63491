"""A program round the texts of `fixd-c`: it reads rows of words and writes outputs and next states. For bench/c.py.

Words are eight bytes each, the least first. The program is C99 and C++ alike, and has a test by `#if` for each macro.
"""
import os
import re
import subprocess

from texts import Failed, ended, floor_at, written

WARNINGS = ["-Wall", "-Wextra", "-Wpedantic", "-Wconversion", "-Wsign-conversion"]
SANITIZED = ["-O1", "-fsanitize=undefined", "-fno-sanitize-recover=all"]
C99 = ["-std=c99", *WARNINGS]
COMPILERS = ("gcc", "clang")

MAIN = """\
#include <stdio.h>
#include "step.h"
#include "step.h"

{tests}

typedef {word} word;

static int taken(word *words, int count) {{
    for (int k = 0; k < count; k++) {{
        int64_t given;
        if (fread(&given, sizeof given, 1, stdin) != 1) return 0;
        words[k] = (word)given;
    }}
    return 1;
}}

static int put(const word *words, int count) {{
    for (int k = 0; k < count; k++) {{
        int64_t given = words[k];
        if (fwrite(&given, sizeof given, 1, stdout) != 1) return 0;
    }}
    return 1;
}}

int main(void) {{
    word input[{big}_INPUTS], output[{big}_OUTPUTS];
{begin}    while (taken(input, {big}_INPUTS)) {{
        fixd_{name}_step({state}input, output);
        if (!put(output, {big}_OUTPUTS)) return 2;
{after}    }}
    return 0;
}}
"""


def word_of(case):
    """Returns the type of an element of the arrays."""
    return f"int{next(bits for bits in (8, 16, 32, 64) if case.bundle.width <= bits)}_t"


def macros(case):
    """Yields what each macro of the header has to be, by the bundle and its source."""
    bundle, function = case.bundle, case.function
    yield from (("WIDTH", bundle.width), ("INPUTS", bundle.inputs), ("STATES", bundle.states))
    yield "OUTPUTS", bundle.outputs
    for k, (one, code) in enumerate(zip(function.inputs, bundle.input_codes())):
        yield f"INPUT{k}_POINT", code.point
        yield f"INPUT{k}_LEAST", floor_at(one.lo, code.point)
        yield f"INPUT{k}_GREATEST", floor_at(one.hi, code.point)
    for k, code in enumerate(bundle.state_codes()):
        yield f"STATE{k}_POINT", code.point
        yield f"STATE{k}_START", code.numbers[2]
    for j, (point, bound) in enumerate(zip(bundle.output_points(), bundle.bounds())):
        yield f"OUTPUT{j}_POINT", point
        yield f"OUTPUT{j}_BOUND", bound.numerator
        yield f"OUTPUT{j}_BOUND_POINT", bound.denominator.bit_length() - 1


def number(value):
    return "(-9223372036854775807 - 1)" if value == -2 ** 63 else str(value)


def main_text(case):
    """Returns the program."""
    name, states = case.bundle.name, case.bundle.states > 0
    big = f"FIXD_{name}"
    tests = [f"#if {big}_{what} != {number(value)}\n#error {what}\n#endif" for what, value in macros(case)]
    return MAIN.format(
        name=name, big=big, word=word_of(case), tests="\n".join(tests), state="state, " if states else "",
        begin=f"    word state[{big}_STATES];\n    fixd_{name}_reset(state);\n" if states else "",
        after=f"        if (!put(state, {big}_STATES)) return 2;\n" if states else "")


def put_files(case, folder):
    """Writes the two texts and the program round them."""
    written(folder, "step.c", case.source)
    written(folder, "step.h", case.header)
    written(folder, "main.c", main_text(case))


def built(folder, out, *commands):
    """Carries out commands, none of which may warn, and returns the program that they made."""
    for command in commands:
        said = ended(command, cwd=folder).stderr.decode(errors="replace")
        if said:
            raise Failed(f"{' '.join(command)} warns: {said[:2000]}")
    return os.path.join(folder, out)


def programs(folder):
    """Yields what compiled the texts, and the program: each compiler with its sanitizer, and for speed, below C++."""
    for compiler in COMPILERS:
        checked, fast = [compiler, *C99, *SANITIZED], f"{compiler}-fast"
        yield compiler, built(folder, compiler, [*checked, "-c", "-o", f"{compiler}.o", "step.c"],
                              [*checked, "-o", compiler, f"{compiler}.o", "main.c"])
        yield f"{compiler} -O2 and g++", built(
            folder, fast, [compiler, *C99, "-O2", "-c", "-o", f"{fast}.o", "step.c"],
            ["g++", "-std=c++11", *WARNINGS, "-o", fast, "-x", "c++", "main.c", "-x", "none", f"{fast}.o"])


def pages(case, folder):
    """Returns what each program writes of the rows."""
    put_files(case, folder)
    return {what: ended([path], input=case.words).stdout for what, path in programs(folder)}


FINDING = re.compile(r"^(\d+) (misra-\S+)$", re.M)
FLOOR = "    return (x >= 0) ? (x >> s) : (-1 - ((-1 - x) >> s));"
# what cppcheck finds: a shift of a signed value; of a type that it doesn't know it forgets the parentheses, and its own
# INT64_MIN is an unsigned constant
FINDINGS = {("misra-c2012-10.1", "where it is rounded down"),
            ("misra-c2012-12.1", "where it is rounded down in 128 bits"), ("misra-c2012-7.2", "at INT64_MIN")}


def place_of(lines, at):
    """Returns what stands in a line where something may be found."""
    if lines[at] == FLOOR:
        return "where it is rounded down" + (" in 128 bits" if "fixd_wide" in lines[at - 1] else "")
    return "at INT64_MIN" if "= INT64_MIN;" in lines[at] else f"in '{lines[at].strip()}'"


def findings(case, folder):
    """Returns what cppcheck and its MISRA addon find in the source: each rule with its place."""
    command = ["cppcheck", "--std=c99", "--enable=style", "--addon=misra", "--quiet", "--template={line} {id}"]
    done = subprocess.run([*command, "step.c"], cwd=folder, capture_output=True, text=True, check=False)
    lines = case.source.split("\n")
    return [(rule, place_of(lines, int(line) - 1)) for line, rule in FINDING.findall(done.stderr)]
