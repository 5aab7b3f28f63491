#!/usr/bin/env python3
"""Runs programs on emulated microcontrollers and compares them with `fixd run`: device.py [--fixd P] [--fixd-c P]

Of examples of 16 and 32 bits three things are compiled for a Cortex-M0 (qemu's `microbit`) and a Cortex-M4
(`mps2-an386`): the text of `fixd rust`, that of `fixd-c`, and C by hand (bench/device/by_hand). A thousand rows in
range go through each, the ends of the ranges among them, and each word of an output has to be that of `fixd run`.
Printed is a table in Markdown: the instructions of a step, with all that it calls, and the bytes of code of both.

Instructions are counted one by one, over the first hundred rows in a run of its own. qemu goes instruction by
instruction and writes a line for each that lies in the section of the step, where nothing stands but the step and what
it calls of a library (bench/device/device.ld). So the figure is a mean, without the call of the step.

rustc has no `core` for these processors here, so it is built from rustc's own source, once, into build/device: some 40
seconds of a processor for each. --source names the folder of rustc's library, of the very version of --rustc. Outside
the gate: it needs both programs, and of Debian rustc, rust-src, gcc-arm-none-eabi and qemu-system-arm. A difference
ends it with 1.
"""
import argparse
import functools
import glob
import os
import re
import subprocess
import tempfile
from dataclasses import dataclass
from fractions import Fraction

import texts
from c import printed
from texts import EXAMPLES, TOP, Failed, Trouble, case_of, ended, put, shown, words_in, written

PARTS = os.path.join(TOP, "bench", "device")
BY_HAND = os.path.join(PARTS, "by_hand")
STEP_FROM, STEP_TO = 0x20000, 0x2ffff
COUNTED = 100
DECLARED = re.compile(r"^void (\w+_step)\((int\d+_t state\[\w+\], )?const (int\d+_t) input\[\w+\], "
                      r"int\d+_t output\[\w+\]\)", re.M)

BEGINNING = """\
#![no_std]
#[allow(unused_variables)]
mod program;

#[panic_handler]
fn stop(_: &core::panic::PanicInfo) -> ! {
    loop {}
}

#[no_mangle]
"""


@dataclass(frozen=True)
class Core:
    """A processor: its name, the machine that has it, rustc's target and gcc's words."""
    name: str
    machine: str
    target: str
    words: tuple


CORES = [Core("Cortex-M0", "microbit", "thumbv6m-none-eabi", ("-mcpu=cortex-m0", "-mthumb")),
         Core("Cortex-M4", "mps2-an386", "thumbv7em-none-eabi", ("-mcpu=cortex-m4", "-mthumb", "-mfloat-abi=soft"))]


@dataclass
class Program:
    """A bundle's case, its rows as words, and the outputs' words that `run` printed."""
    case: texts.Case
    rows: list
    words: list

    @property
    def path(self):
        return self.case.path

    @property
    def bundle(self):
        return self.case.bundle


# a program and its rows


def program_of_bundle(fixd, path):
    case = case_of(fixd, path)
    words, inputs = words_in(case.words), case.bundle.inputs
    return Program(case, [words[at:at + inputs] for at in range(0, len(words), inputs)], answered(case))


def answered(case):
    """Returns the words that `run` printed, as decimals."""
    points, lines = case.bundle.output_points(), case.page[1:]
    words = [[Fraction(cell) * Fraction(2) ** point for cell, point in zip(line.split(","), points)] for line in lines]
    if len(words) != len(case.rows) or any(word.denominator != 1 for row in words for word in row):
        raise Failed(f"{case.path}: run printed other than {len(case.rows)} rows of words")
    if [",".join(shown(int(word), point) for word, point in zip(row, points)) for row in words] != lines:
        raise Failed(f"{case.path}: run printed words in another form")
    return [int(word) for row in words for word in row]


# what is compiled


@functools.cache
def library(rustc, edition, source, core):
    """Returns the folder that has `core` for a processor, and makes it where it isn't there."""
    folder = os.path.join(TOP, "build", "device", core.target)
    os.makedirs(folder, exist_ok=True)
    environment = dict(os.environ, RUSTC_BOOTSTRAP="1")
    words = [rustc, "--edition", edition, "--crate-type", "rlib", "--target", core.target, "-O", "-C", "panic=abort",
             "--cap-lints", "allow"]
    made = os.path.join(folder, "libcore.rlib")
    if not os.path.exists(made):
        ended([*words, "--crate-name", "core", "-Z", "force-unstable-if-unmarked", "-o", made,
               os.path.join(source, "core", "src", "lib.rs")], env=environment)
    name = "compiler_builtins"
    ended([*words, "--crate-name", name, "-L", folder, "-o", os.path.join(folder, f"lib{name}.rlib"),
           os.path.join(PARTS, "builtins.rs")], env=environment)
    return folder


def rust_step(given, core, program, folder):
    """Compiles the text as it is, behind a function of C's form. Returns its declaration."""
    written(folder, "program.rs", given.fixd.printed("rust", program.path).decode())
    inputs, outputs, states = program.bundle.inputs, program.bundle.outputs, program.bundle.states
    state = f"state: &mut [i64; {states}], " if states else ""
    head = f'pub extern "C" fn rust_step({state}input: &[i64; {inputs}], output: &mut [i64; {outputs}]) {{\n'
    call = f"    *output = program::step({'state' if states else '&mut []'}, input);\n}}\n"
    written(folder, "lib.rs", BEGINNING + head + call)
    folder_of_core = library(given.rustc, given.edition, given.source, core)
    ended([given.rustc, "--edition", given.edition, "--crate-name", "texts", "--crate-type", "staticlib",
           "--target", core.target, "-O", "-C", "panic=abort", "-C", "codegen-units=1", "-L", folder_of_core,
           "-o", "step.a", "lib.rs"], cwd=folder)
    state = "int64_t state[], " if states else ""
    return f"void rust_step({state}const int64_t input[], int64_t output[])", "int64_t", "rust_step", "step.a"


def c_step(core, text, folder):
    """Compiles C. Returns its declaration, as the text has it."""
    written(folder, "step.c", text)
    found = DECLARED.search(text)
    if not found:
        raise Failed("no step is declared in the C")
    ended(["arm-none-eabi-gcc", *core.words, "-std=c99", "-O2", "-ffunction-sections", "-c", "-o", "step.o", "step.c"],
          cwd=folder)
    return re.sub(r"\[\w+\]", "[]", found[0]), found[3], found[1], "step.o"


def image(core, program, made, count, folder):
    """Links a step with rows and what makes a step of each. Returns the bytes of the step with what it calls."""
    declaration, word, step, compiled = made
    bundle, rows = program.bundle, ",\n".join("{" + ", ".join(map(str, row)) + "}" for row in program.rows[:count])
    written(folder, "rows.h", "\n".join([
        "#include <stdint.h>", f"typedef {word} WORD;", f"{declaration};",
        f"#define STEP(state, input, output) {step}({'state, ' if bundle.states else ''}input, output)",
        f"#define START {{{', '.join(map(str, program.case.starts)) or '0'}}}",
        f"enum {{ ROWS = {count}, OUTPUTS = {bundle.outputs} }};",
        f"static const WORD rows[][{bundle.inputs}] = {{", rows, "};", ""]))
    gcc = ["arm-none-eabi-gcc", *core.words]
    ended([*gcc, "-std=gnu99", "-Os", "-ffreestanding", "-I", folder, "-c", "-o", "main.o",
           os.path.join(PARTS, "main.c")], cwd=folder)
    called = set(ended(["arm-none-eabi-nm", "-u", "main.o"], cwd=folder).stdout.decode().split()) - {"U"}
    if called != {step, "stack_top"}:
        raise Failed(f"main.c calls {', '.join(sorted(called))}")
    ended([*gcc, "-nostdlib", "-Wl,--gc-sections", "-T", os.path.join(PARTS, "device.ld"), "-o", "image", "main.o",
           compiled, "-lgcc"], cwd=folder)
    sections = ended(["arm-none-eabi-size", "-A", "image"], cwd=folder).stdout.decode()
    return int(re.search(r"^\.text\s+(\d+)", sections, re.M)[1])


# what is run


def run(core, folder, *words):
    """Returns the words that the image writes."""
    emulator = ["qemu-system-arm", "-M", core.machine, "-kernel", "image", "-display", "none", "-serial", "none",
                "-monitor", "none", "-chardev", "file,id=out,path=out",
                "-semihosting-config", "enable=on,target=native,chardev=out"]
    ended([*emulator, *words], cwd=folder, timeout=300)
    with open(os.path.join(folder, "out"), encoding="ascii") as file:
        return [int.from_bytes(bytes.fromhex(line), "big", signed=True) for line in file.read().split()]


def executed(core, folder):
    """Returns how many instructions the image executes in the section of the step."""
    run(core, folder, "-singlestep", "-d", "exec,nochain", "-dfilter", f"{STEP_FROM:#x}..{STEP_TO:#x}", "-D", "log")
    with open(os.path.join(folder, "log"), encoding="ascii", errors="replace") as file:
        return sum({"Trace": 1, "Stopp": -1}.get(line[:5], 0) for line in file)


def measured(given, core, program, kind):
    """Returns the instructions of a step and the bytes of code of one kind of a program that answers as `run` does."""
    bundle = program.bundle
    with tempfile.TemporaryDirectory() as folder:
        if kind == "Rust":
            made = rust_step(given, core, program, folder)
        elif kind == "C":
            made = c_step(core, printed(given.fixd_c, program.path), folder)
        else:
            with open(os.path.join(BY_HAND, f"{bundle.name}.{bundle.width}.c"), encoding="utf-8") as file:
                made = c_step(core, file.read(), folder)
        size = image(core, program, made, len(program.rows), folder)
        words = run(core, folder)
        image(core, program, made, COUNTED, folder)
        count = executed(core, folder)
    if words != program.words:
        pairs = enumerate(zip(words, program.words))
        at = next((k for k, pair in pairs if pair[0] != pair[1]), min(len(words), len(program.words)))
        raise Failed(f"{kind} of {program.path} on a {core.name}: word {at} of {len(words)} isn't that of run")
    return count / COUNTED, size


def bundles(fixd, folder):
    """Yields the paths: bundles of examples/, and what `synth` finds for a filter with states at both widths."""
    for name in ("average", "nearest", "mix", "parallel"):
        yield os.path.join(EXAMPLES, name, f"{name}.bundle")
    for width in (16, 32):
        ran = fixd.synth(os.path.join(EXAMPLES, "states", "lowpass_tdf2.fixd"), width, tries=1)
        yield put(folder, str(width), ran.output)


def table(given, folder):
    kinds = ("Rust", "C", "by hand")
    programs = sorted((program_of_bundle(given.fixd, path) for path in bundles(given.fixd, folder)),
                      key=lambda it: it.bundle.width)
    compared = 0
    for core in [it for it in CORES if given.core in (None, it.name)]:
        print(f"| {core.name} | codes | width | instructions a step: Rust | C | by hand | bytes: Rust | C | by hand |")
        print("|" + "---|" * 9)
        for program in programs:
            bundle, found = program.bundle, [measured(given, core, program, kind) for kind in kinds]
            compared += len(kinds) * len(program.words)
            cells = [f"{count:,.0f}" if count == int(count) else f"{count:,.1f}" for count, _ in found]
            cells += [f"{size:,}" for _, size in found]
            print(f"| `{bundle.name}` | {len(bundle.codes)} | {bundle.width} | {' | '.join(cells)} |", flush=True)
        print()
    print(f"{compared:,} words, all of them those of `fixd run`")


def words_given():
    parser = argparse.ArgumentParser(description=__doc__, formatter_class=argparse.RawDescriptionHelpFormatter)
    texts.add_programs(parser, with_c=True)
    parser.add_argument("--core", choices=[it.name for it in CORES], help="this one alone")
    parser.add_argument("--rustc", default="/usr/bin/rustc")
    parser.add_argument("--source", default=next(iter(sorted(glob.glob("/usr/src/rustc-*/library"))), None))
    parser.add_argument("--edition", default="2021", help="that of the source of `core`")
    given = parser.parse_args()
    if not given.source:
        parser.error("the source of rustc's library isn't there: apt-get install rust-src")
    texts.take_programs(parser, given)
    return given


def main():
    given = words_given()
    try:
        with tempfile.TemporaryDirectory() as folder:
            table(given, folder)
    except (Failed, Trouble, subprocess.TimeoutExpired) as failed:
        raise SystemExit(f"device: {failed}") from failed


if __name__ == "__main__":
    main()
