#!/usr/bin/env python3
"""Prints sizes and instructions of a step, as Rust and as C, as a table in Markdown: sizes.py [--fixd P] [--fixd-c P]

Of some examples, the text of `fixd rust` and that of `fixd-c`. A size is that of the code (.text) of one object, but
for the reset; what it calls of the compiler's library isn't in it, and is named. Instructions are counted by callgrind,
inside the step and what it calls, over a thousand rows in range. A target whose compiler or whose `core` isn't there is
left out. Outside the gate: it needs both programs, rustc, gcc and valgrind.
"""
import argparse
import os
import re
import shutil
import subprocess
import tempfile

import c_programs
import texts
from c import c_case
from rust import rust_case
from rust_programs import MAIN, ROWS, RUSTC, starts_of
from texts import EXAMPLES, Failed, Trouble, ended, written

SIZED = ("average", "mix", "nearest", "parallel")
THUMB = "thumbv6m-none-eabi"
CORTEX = ["arm-none-eabi-gcc", "-mcpu=cortex-m0", "-mthumb"]


def step_of(case):
    """Returns the name of the step in C."""
    return f"fixd_{case.bundle.name}_step"


def exported(case):
    """A function of a known name round the Rust text's, which the compiler merges into it."""
    bundle = case.bundle
    kinds = f"s: &mut [i64; {bundle.states}], x: &[i64; {bundle.inputs}]) -> [i64; {bundle.outputs}]"
    return (f"#[allow(unused_variables)]\nmod m0;\n#[no_mangle]\n#[inline(never)]\npub fn {step_of(case)}({kinds} {{\n"
            "    m0::step(s, x)\n}\n")


def size_of(path, tool="size"):
    """Returns the bytes of code of an object, without the reset, and the names that it doesn't have itself."""
    sections = ended([tool, "-A", path]).stdout.decode()
    code = sum(int(size) for size in re.findall(r"^\.text(?!\S*_reset)\S*\s+(\d+)", sections, re.M))
    names = ended([tool.replace("size", "nm"), "-u", path]).stdout.decode().split()
    return code, sorted(name for name in names if name != "U" and not name.startswith("_GLOBAL_OFFSET"))


def of_rust(case, folder, target=None):
    """Returns the size of the text for a target, or None where there is no `core` for it."""
    goal = ["--target", target] if target else []
    asked = ["rustc", "--print", "target-libdir", *goal]
    place = subprocess.run(asked, capture_output=True, text=True, check=False).stdout.strip()
    if not os.path.isdir(place):
        return None
    written(folder, "lib.rs", "#![no_std]\n" + exported(case))
    ended([*RUSTC, *goal, "--crate-type", "lib", "--emit", "obj", "-C", "opt-level=s", "-C", "panic=abort", "-o",
           "rust.o", "lib.rs"], cwd=folder)
    return size_of(os.path.join(folder, "rust.o"))


def of_c(folder, compiler, tool="size"):
    if not shutil.which(compiler[0]):
        return None
    ended([*compiler, "-std=c99", "-Os", "-ffunction-sections", "-c", "-o", "c.o", "step.c"], cwd=folder)
    return size_of(os.path.join(folder, "c.o"), tool)


def linked(case, folder):
    """Returns the size of the step in the last object, for a Cortex-M0, with all that it calls of the library."""
    if not shutil.which(CORTEX[0]):
        return ""
    ended([*CORTEX, "-nostdlib", f"-Wl,--entry={step_of(case)}", "-Wl,--gc-sections", "-o", "c.elf", "c.o", "-lgcc"],
          cwd=folder)
    return f"{size_of(os.path.join(folder, 'c.elf'), 'arm-none-eabi-size')[0]:,}"


def instructions(case, folder, program):
    """Returns how many instructions a step takes, or None where there is no valgrind."""
    if not shutil.which("valgrind"):
        return None
    words = ["valgrind", "--tool=callgrind", "--callgrind-out-file=/dev/null", f"--toggle-collect={step_of(case)}"]
    said = ended([*words, os.path.join(folder, program)], input=case.words).stderr.decode()
    return int(re.search(r"Collected : (\d+)", said)[1]) / len(case.rows)


def instructions_of(case, folder):
    """Returns those of the text and of its C, both compiled for speed."""
    call = f"    rows({step_of(case)}, {starts_of(case)}, {len(case.rows)}, &mut words, &mut out);"
    written(folder, "main.rs", exported(case) + ROWS + MAIN.format(calls=call))
    ended([*RUSTC, "-O", "-o", "rust", "main.rs"], cwd=folder)
    ended(["gcc", "-std=c99", "-O2", "-o", "c", "step.c", "main.c"], cwd=folder)
    return instructions(case, folder, "rust"), instructions(case, folder, "c")


def row(given, name):
    """The row of one example."""
    path = os.path.join(EXAMPLES, name, name + ".bundle")
    rust, case = rust_case(given.fixd, path), c_case(given, path)
    with tempfile.TemporaryDirectory() as folder:
        written(folder, "m0.rs", rust.text)
        c_programs.put_files(case, folder)
        found = [of_rust(case, folder), of_c(folder, ["gcc"]), of_rust(case, folder, THUMB),
                 of_c(folder, CORTEX, "arm-none-eabi-size")]
        sizes = [cell(it) for it in found] + [linked(case, folder)]
        counts = ["" if it is None else f"{it:.0f}" for it in instructions_of(case, folder)]
    return [f"`{name}`", str(len(case.widths)), str(case.bundle.width), *sizes, *counts]


def cell(found):
    if found is None:
        return ""
    size, called = found
    names = ["a panic" if "panic" in name else f"`{name}`" for name in called]
    return f"{size:,}" + (f", calls {' and '.join(names)}" if names else "")


def table(rows):
    """Prints a row for each example. A column that has nothing is left out."""
    head = ["example", "codes", "width", "x86-64: bytes of Rust", "of C", f"{THUMB}: bytes of Rust",
            "Cortex-M0: bytes of C", "with what it calls", "x86-64: instructions a step, Rust", "C"]
    kept = [k for k in range(len(head)) if any(line[k] for line in rows)]
    lines = ["| " + " | ".join(line[k] for k in kept) + " |" for line in [head, *rows]]
    print("\n".join([lines[0], "|" + "---|" * len(kept), *lines[1:]]))


def main():
    parser = argparse.ArgumentParser(description=__doc__, formatter_class=argparse.RawDescriptionHelpFormatter)
    texts.add_programs(parser, with_c=True)
    given = parser.parse_args()
    texts.take_programs(parser, given)
    try:
        table([row(given, name) for name in SIZED])
    except (Failed, Trouble) as failed:
        raise SystemExit(f"sizes: {failed}") from failed


if __name__ == "__main__":
    main()
