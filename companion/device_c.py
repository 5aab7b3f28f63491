"""Writes what a device needs around the C of `fixd-c`."""
from __future__ import annotations

import re

from .device_emulated import LINKER, emulated_script
from .device_page import decimal_of, page
from .fixd import Trouble

PROVED = ("`{name}.c` and `{name}.h` are what `fixd-c` prints, byte for byte; what is proved of its text,\n"
          "docs/guarantees.md of `fixd`'s repository says.")

HERE = """#!/bin/sh
# the rows on this machine, with what C leaves open trapped where the compiler can
cd "$(dirname "$0")" && mkdir -p build || exit 1
cc="${{CC:-cc}} -std=c99 -Wall -Wextra -O2"
$cc -fsanitize=undefined -fno-sanitize-recover -o build/checked {name}_test.c {name}.c && build/checked &&
$cc -o build/plain {name}_test.c {name}.c && build/plain
"""
ARM = """build() {{
  ${{ARM_CC:-arm-none-eabi-gcc}} ${{ARM_FLAGS-}} -std=gnu99 -mcpu=$1 -mthumb -Os -ffreestanding -nostdlib \\
    -DEMULATED -Temulated/link.ld -o build/$1.elf emulated/start.c {name}_test.c {name}.c -lgcc
}}"""


def files_of(plan, source: str, header: str) -> dict:
    """Returns the files of the folder."""
    name = plan.name
    return {
        f"{name}.c": source, f"{name}.h": header, f"{name}_device.h": device_header(plan, header),
        f"{name}_test.c": test(plan),
        f"{name}_rows.h": rows(plan),
        "emulated/start.c": START, "emulated/link.ld": LINKER,
        "test-here.sh": HERE.format(name=name),
        "test-emulated.sh": emulated_script(ARM.format(name=name), "arm-none-eabi-gcc", "Debian: gcc-arm-none-eabi"),
        "README.md": page(plan, "c", PROVED.format(name=name), use_of(plan)),
    }


def use_of(plan) -> list:
    name, one = plan.name, plan.inputs[0]
    return ["**To use it**, compile `" + name + ".c` and include `" + name + "_device.h`:", "", "```c",
            f"{name}_device filter;", f"{name}_device_reset(&filter);",
            f"{name}_word input[FIXD_{name.upper()}_INPUTS] = "
            f"{{{', '.join(f'{name}_word_of_reading_{it.name}(reading)' for it in plan.inputs)}}};   /* or "
            f".._word_of_decimal_{one.name}(digits, places) */",
            f"{name}_word output[FIXD_{name.upper()}_OUTPUTS];", f"{name}_device_step(&filter, input, output);", "```"]


def parameters(header: str, name: str, function: str) -> str:
    """Returns the parameters of a function that the header declares."""
    shape = re.search(rf"\bfixd_{re.escape(name)}_{function}\s*\(([^)]*)\)", header)
    return shape[1] if shape else ""


def device_header(plan, header: str) -> str:
    """Returns the header of the struct and of the words."""
    name = plan.name
    step, reset = parameters(header, name, "step"), parameters(header, name, "reset")
    kind = re.search(r"\b(int(?:8|16|32|64)_t)\s+input\b", step)
    if not kind:
        raise Trouble(f"the header that fixd-c printed declares no fixd_{name}_step: is it another version?")
    big = f"FIXD_{name.upper()}"
    state = "device->state, " if "state" in step else ""
    lines = [f"/* {plan.header}: one struct with reset and step, and the words of inputs. By fixd-tools device; "
             "README.md says what is proved. */",
             f"#ifndef {big}_DEVICE_H", f"#define {big}_DEVICE_H", "", "#include <stdint.h>", f'#include "{name}.h"',
             "",
             f"typedef {kind[1]} {name}_word;", "", "/* the states: one struct for each signal */",
             f"typedef struct {{ {name}_word state[{max(1, len(plan.states))}]; }} {name}_device;", ""]
    reset_line = f"    fixd_{name}_reset(device->state);" if "state" in reset else "    (void)device;"
    lines += [f"static inline void {name}_device_reset({name}_device *device) {{", reset_line, "}", ""]
    for k, it in enumerate(plan.inputs):
        lines += input_functions(name, big, k, it)
    held = [f"    held[{k}] = {name}_hold_{it.name}(input[{k}]);" for k, it in enumerate(plan.inputs)]
    lines += ["/* a step: each word is held to the range of its input first, since nothing is certified of others */",
              f"static inline void {name}_device_step({name}_device *device, const {name}_word "
              f"input[{len(plan.inputs)}], {name}_word output[{len(plan.outputs)}]) {{",
              f"    {name}_word held[{len(plan.inputs)}];", *held, *([] if state else ["    (void)device;"]),
              f"    fixd_{name}_step({state}held, output);", "}", "", "#endif", ""]
    return "\n".join(lines)


def literal(value: int) -> str:
    return "INT64_MIN" if value == -2 ** 63 else f"INT64_C({value})" if value >= 0 else f"(-INT64_C({-value}))"


def input_functions(name: str, big: str, k: int, it) -> list:
    """Returns the functions that make a word of an input."""
    a, b, d = it.reading()
    bits = 31 if abs(a) + (abs(b) << 31) < 2 ** 62 else 16
    if not has_readings(it):
        reading = [f"/* no function makes a word of a reading of {it.name}: its numbers leave 64 bits; take another "
                   "converter's range */", ""]
    else:
        kind = "int32_t" if bits == 31 else "int16_t"
        reading = [f"/* the word of a reading of the converter of {it.name}, held to the range: reading 0 is "
                   f"{float(it.low):g}, reading {it.steps} is {float(it.high):g} */",
                   f"static inline {name}_word {name}_word_of_reading_{it.name}({kind} reading) {{",
                   f"    const int64_t top = {literal(a)} + {literal(b)} * reading;",
                   f"    const int64_t low = top / {literal(d)} - (top % {literal(d)} < 0);",
                   f"    return {name}_hold_{it.name}(low);", "}", ""]
    top = -(-it.ends[1].numerator // it.ends[1].denominator)
    low = it.ends[0].numerator // it.ends[0].denominator
    least, greatest = literal(it.least), literal(it.greatest)
    word = "word" if it.point >= 0 else f"word >= 0 ? word >> {-it.point} : -1 - ((-1 - word) >> {-it.point})"
    shift = f"    return {name}_hold_{it.name}({word});"
    return [f"/* holds a word of {it.name}, {it.text}, to the range */",
            f"static inline {name}_word {name}_hold_{it.name}(int64_t word) {{",
            f"    return ({name}_word)(word < {least} ? {least} : word > {greatest} ? {greatest} : word);", "}", "",
            *reading,
            f"/* the word of the decimal digits / 10^places of {it.name}, held to the range; places above 18 count as "
            "18 */",
            f"static inline {name}_word {name}_word_of_decimal_{it.name}(int64_t digits, unsigned places) {{",
            "    int64_t ten = 1, word, rest;", "    unsigned k;",
            "    for (k = 0; k < places && k < 18; k++) ten *= 10;", "    word = digits / ten;",
            "    rest = digits % ten;", "    if (rest < 0) { rest += ten; word--; }",
            f"    if (word < {literal(low)}) return {name}_hold_{it.name}({least});",
            f"    if (word > {literal(top)}) return {name}_hold_{it.name}({greatest});",
            f"    for (k = 0; k < {max(0, it.point)}; k++) {{", "        word *= 2;", "        rest *= 2;",
            "        if (rest >= ten) { rest -= ten; word++; }", "    }", shift, "}", ""]


def has_readings(it) -> bool:
    """Returns whether a reading's word can be computed in 64 bits."""
    a, b, d = it.reading()
    return abs(a) + (abs(b) << 16) < 2 ** 62 and d < 2 ** 62


def rows(plan) -> str:
    """Returns the rows as a table."""
    lines = "\n".join(f"    {{{', '.join(map(c_word, [*given, *answers]))}}}," for given, answers in plan.rows)
    return ("/* the words of rows.csv, and those of what 'fixd run' printed of them */\n"
            f"#define ROWS {len(plan.rows)}\n"
            f"static const {plan.name}_word rows[ROWS][{len(plan.inputs) + len(plan.outputs)}] = {{\n{lines}\n}};\n")


def c_word(word: int) -> str:
    return ("INT64_MIN" if word == -2 ** 63 else f"{word}LL" if abs(word) >= 2 ** 31 else "(-2147483647 - 1)"
            if word == -2 ** 31 else str(word))


def test(plan) -> str:
    """Returns the test of the rows, for this machine and for an emulated one."""
    name, inputs, outputs = plan.name, len(plan.inputs), len(plan.outputs)
    checks = [f"    if ({name}_word_of_decimal_{it.name}({literal(digits)}, {places}) != {c_word(word)}) return "
              "differs(\"a decimal\");"
              for (given, _), row in list(zip(plan.rows, plan.values))[:50] for it, word,
              (digits, places) in zip(plan.inputs, given, map(decimal_of, row))]
    checks += [f"    if ({name}_word_of_reading_{it.name}({reading}) != {c_word(word)}) return differs(\"a reading\");"
               for it in plan.inputs if has_readings(it)
               for reading, word in it.readings()]
    checks = "\n".join(checks)
    return f"""/* the rows of rows.csv come out as 'fixd run' printed them */
#include "{name}_device.h"
#include "{name}_rows.h"

#ifdef EMULATED
void say(const char *text);
#else
#include <stdio.h>
static void say(const char *text) {{ fputs(text, stdout); }}
#endif

static int differs(const char *what) {{
    say(what);
    say(" gives another word\\n");
    return 1;
}}

static int words(void) {{
{checks}
    return 0;
}}

int main(void) {{
    {name}_device filter;
    int k, j;
    if (words()) return 1;
    {name}_device_reset(&filter);
    for (k = 0; k < ROWS; k++) {{
        {name}_word output[{outputs}];
        {name}_device_step(&filter, rows[k], output);
        for (j = 0; j < {outputs}; j++) {{
            if (output[j] != rows[k][{inputs} + j]) {{
                say("a row differs\\n");
                return 1;
            }}
        }}
    }}
    say("{len(plan.rows)} rows are equal\\n");
    return 0;
}}
"""


START = """/* what a processor without a system needs: its vectors, and words to the emulator by semihosting */
#include <stdint.h>

int main(void);
void say(const char *text);
void start(void);

static void ask(uintptr_t what, uintptr_t with) {
    register uintptr_t r0 __asm__("r0") = what;
    register uintptr_t r1 __asm__("r1") = with;
    __asm__ volatile("bkpt 0xab" : "+r"(r0) : "r"(r1) : "memory");
}

void say(const char *text) { ask(4, (uintptr_t)text); }

void start(void) {
    ask(0x18, main() == 0 ? 0x20026 : 0x20023);
    for (;;) { }
}

__attribute__((section(".vectors"), used)) static const uintptr_t vectors[2] = {0x20004000, (uintptr_t)start};

void *memcpy(void *to, const void *from, unsigned long count) {
    unsigned char *a = to;
    const unsigned char *b = from;
    while (count--) *a++ = *b++;
    return to;
}
"""
