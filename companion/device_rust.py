"""Writes a crate without std around the text of `fixd rust`."""
from __future__ import annotations

import re

from .device_emulated import LINKER, emulated_script
from .device_page import decimal_of, page

PROVED = ("`src/filter.rs` is what `fixd rust` prints, byte for byte. That it gives the words of `fixd run`, over all\n"
          "rows in range, is proved by the meaning that the definitions of `fixd` give to its few forms\n"
          "(docs/guarantees.md of its repository).")

HINT = "rustup target add thumbv6m-none-eabi thumbv7em-none-eabi; Debian: rustc, rust-src and gcc-arm-none-eabi"


def small(name: str) -> str:
    """Returns a name as a function's."""
    return re.sub(r"(?<=[a-z0-9])([A-Z])", r"_\1", name).lower()


def files_of(plan, text: str) -> dict:
    """Returns the files of the crate."""
    crate = "fixd_" + small(plan.name).strip("_")
    return {
        "Cargo.toml": f'[package]\nname = "{crate}"\nversion = "0.1.0"\nedition = "2021"\npublish = '
                      'false\n\n[lib]\npath = "src/lib.rs"\n\n[workspace]\n',
        "src/filter.rs": text, "src/lib.rs": library(plan), "tests/rows.rs": host_test(plan, crate),
        "tests/rows_data.rs": rows_data(plan),
        "emulated/main.rs": emulated(plan, crate), "emulated/link.ld": LINKER, "emulated/builtins.rs": BUILTINS,
        "test-here.sh": "#!/bin/sh\n# the rows on this machine, overflow checks on and off\ncd \"$(dirname \"$0\")\" "
                        "&& cargo test --offline && cargo test --offline --release\n",
        "test-emulated.sh": emulated_script(BUILD.replace("CRATE", crate), "rustc", HINT),
        "README.md": page(plan, "rust", PROVED, use_of(plan, crate)),
    }


def use_of(plan, crate: str) -> list:
    one = plan.inputs[0]
    return ["**To use it**, add the folder to `[dependencies]` by its path:", "", "```rust",
            f"let mut filter = {crate}::Filter::new();",
            f"let words = [{', '.join(f'{crate}::word_of_reading_{it.label}(reading)' for it in plan.inputs)}];   // "
            f"or word_of_decimal_{one.label}(digits, places)",
            f"let [{', '.join(it.label for it in plan.outputs)}] = filter.step(words);", "```"]


def library(plan) -> str:
    """Returns src/lib.rs."""
    word = f"i{plan.word}"
    lines = [f"//! {plan.header}: the step of an accepted bundle with what a device needs around it. README.md says "
             "what is proved.", "//!",
             "//! `filter.rs` is what `fixd rust` prints, byte for byte; the rest was written by `fixd-tools device`.",
             "#![no_std]", "#![forbid(unsafe_code)]", "",
             "#[rustfmt::skip]", "#[allow(unused_variables, clippy::all)]", "mod filter;", "",
             f"/// The least type that holds each word of a program of {plan.width} bits.",
             f"pub type Word = {word};", "", f"pub const INPUTS: usize = {len(plan.inputs)};",
             f"pub const STATES: usize = {len(plan.states)};", f"pub const OUTPUTS: usize = {len(plan.outputs)};", ""]
    for it in plan.inputs:
        name = it.label.upper()
        lines += [f"/// `{it.name}`, {it.text}: its word is the floor of the value times 2^{it.point}.",
                  f"pub const {name}_POINT: i32 = {it.point};",
                  f"/// The word of the least value that `{it.name}` may have.",
                  f"pub const {name}_LEAST: Word = {it.least};",
                  f"/// The word of the greatest value that `{it.name}` may have.",
                  f"pub const {name}_GREATEST: Word = {it.greatest};", ""]
    for it in plan.outputs:
        name, places = it.label.upper(), it.bound.denominator.bit_length() - 1
        lines += [f"/// A word `w` of `{it.name}` stands for `w / 2^{it.point}`.",
                  f"pub const {name}_POINT: i32 = {it.point};",
                  f"/// `{it.name}` is at most `{name}_BOUND / 2^{name}_BOUND_POINT` from the exact value.",
                  f"pub const {name}_BOUND: i64 = {it.bound.numerator};",
                  f"pub const {name}_BOUND_POINT: i32 = {places};", ""]
    starts = ", ".join(str(start) for _, start, _ in plan.states)
    lines += ["/// The words of the states before the first step.", f"const START: [Word; STATES] = [{starts}];", ""]
    for it in plan.inputs:
        lines += input_functions(it)
    return "\n".join(lines + filter_struct(plan)) + DECIMAL


def input_functions(it) -> list:
    """Returns the functions that make a word of an input."""
    name, const = it.label, it.label.upper()
    a, b, d = it.reading()
    wide = "i64" if abs(a) + (abs(b) << 32) < 2 ** 63 and d < 2 ** 62 else "i128"
    top = -(-it.ends[1].numerator // it.ends[1].denominator)
    low = it.ends[0].numerator // it.ends[0].denominator
    return [f"/// The word of a reading of the converter of `{it.name}`, held to the range: reading 0 is "
            f"{float(it.low):g}, reading {it.steps} is {float(it.high):g}.",
            f"pub const fn word_of_reading_{name}(reading: i32) -> Word {{",
            f"    let word = ({a}{wide} + {b}{wide} * reading as {wide}).div_euclid({d}{wide});",
            f"    if word < {const}_LEAST as {wide} {{", f"        return {const}_LEAST;", "    }",
            f"    if word > {const}_GREATEST as {wide} {{", f"        return {const}_GREATEST;", "    }",
            "    word as Word", "}", "", f"/// The word of the decimal `digits / 10^places` of `{it.name}`, held to "
                                         "the range; places above 18 count as 18.",
            f"pub const fn word_of_decimal_{name}(digits: i64, places: u32) -> Word {{",
            f"    let word = floor_of_decimal(digits, places, {const}_POINT, {low}, {top}, {const}_LEAST as i64, "
            f"{const}_GREATEST as i64);",
            f"    hold_{name}(word)", "}", "", f"/// Holds a word of `{it.name}` to the range.",
            f"pub const fn hold_{name}(word: i64) -> Word {{",
            f"    if word < {const}_LEAST as i64 {{", f"        {const}_LEAST",
            f"    }} else if word > {const}_GREATEST as i64 {{", f"        {const}_GREATEST", "    } else {",
            "        word as Word", "    }", "}", ""]


def filter_struct(plan) -> list:
    """Returns the struct with its reset and its step."""
    words = ", ".join(f"hold_{it.label}(words[{k}] as i64) as i64" for k, it in enumerate(plan.inputs))
    kept = ["        let mut state = [0i64; STATES];", "        let mut k = 0;", "        while k < STATES {",
            "            state[k] = self.state[k] as i64;", "            k += 1;", "        }"]
    back = ["        let mut k = 0;", "        while k < STATES {", "            self.state[k] = state[k] as Word;",
            "            k += 1;", "        }"]
    if not plan.states:
        kept, back = ["        let mut state = [0i64; 0];"], []
    outs = ", ".join(f"found[{j}] as Word" for j in range(len(plan.outputs)))
    return ["/// The filter with its states: one for each signal.", "#[derive(Debug, Clone, PartialEq, Eq)]",
            "pub struct Filter {", "    state: [Word; STATES],", "}", "", "impl Filter {",
            "    /// A filter before its first step.", "    pub const fn new() -> Self {",
            "        Self { state: START }", "    }", "", "    /// Begins anew.", "    pub fn reset(&mut self) {",
            "        self.state = START;", "    }", "",
            "    /// Makes a step: each word is held to the range of its input first, since nothing is certified of "
            "others.",
            "    pub fn step(&mut self, words: [Word; INPUTS]) -> [Word; OUTPUTS] {", *kept,
            f"        let found = filter::step(&mut state, &[{words}]);", *back, f"        [{outs}]", "    }", "}", "",
            "impl Default for Filter {", "    fn default() -> Self {", "        Self::new()", "    }", "}", "", ""]


DECIMAL = """/// The floor of `digits / 10^places * 2^point`. What lies below `low` or above `high`, whole numbers about
/// the range, is `least` or `greatest`.
const fn floor_of_decimal(digits: i64, places: u32, point: i32, low: i64, high: i64, least: i64, greatest: i64) -> i64 {
    let ten = 10i64.pow(if places > 18 { 18 } else { places });
    let mut word = digits.div_euclid(ten);
    let mut rest = digits.rem_euclid(ten);
    if word < low {
        return least;
    }
    if word > high {
        return greatest;
    }
    let mut k = 0;
    while k < point {
        word *= 2;
        rest *= 2;
        if rest >= ten {
            rest -= ten;
            word += 1;
        }
        k += 1;
    }
    if point < 0 {
        word >>= -point;
    }
    word
}
"""


def rows_data(plan) -> str:
    """Returns the rows as a constant."""
    rows = "\n".join(f"    ([{', '.join(map(str, given))}], [{', '.join(map(str, answers))}]),"
                     for given, answers in plan.rows)
    kind = f"([i{plan.word}; {len(plan.inputs)}], [i{plan.word}; {len(plan.outputs)}])"
    return ("// the words of rows.csv, and those of what `fixd run` printed of them\n"
            f"pub const ROWS: [{kind}; {len(plan.rows)}] = [\n{rows}\n];\n")


def host_test(plan, crate: str) -> str:
    """Returns the test of the rows, and of the words of decimals and readings."""
    one = plan.inputs[0]
    decimals = [f"    assert_eq!({crate}::word_of_decimal_{it.label}({digits}, {places}), {word});"
                for (given, _), row in list(zip(plan.rows, plan.values))[:50] for it, word,
                (digits, places) in zip(plan.inputs, given, map(decimal_of, row))]
    readings = [f"    assert_eq!({crate}::word_of_reading_{it.label}({reading}), {word});" for it in plan.inputs
                for reading, word in it.readings()]
    lines = ["//! The rows of rows.csv come out as `fixd run` printed them, and decimals and readings become their "
             "words.", "mod rows_data;", "", f"use {crate}::Filter;", "", "#[test]",
             "fn rows_come_out_as_fixd_run_printed_them() {", "    let mut filter = Filter::new();",
             "    for (k, (given, wanted)) in rows_data::ROWS.iter().enumerate() {",
             '        assert_eq!(filter.step(*given), *wanted, "row {}", k + 1);', "    }", "    filter.reset();",
             "    assert_eq!(filter, Filter::new());", "}", "", "#[test]",
             "fn decimals_become_their_words() {", *decimals,
             f"    assert_eq!({crate}::word_of_decimal_{one.label}(i64::MAX, 0), "
             f"{crate}::{one.label.upper()}_GREATEST);",
             f"    assert_eq!({crate}::word_of_decimal_{one.label}(i64::MIN, 0), {crate}::{one.label.upper()}_LEAST);",
             "}", "", "#[test]", "fn readings_become_their_words() {", *readings, "}", ""]
    return "\n".join(lines)


def emulated(plan, crate: str) -> str:
    """Returns the program that an emulated processor runs."""
    return f"""//! The rows on a processor without a system: what is said goes to the emulator by semihosting.
#![no_std]
#![no_main]

#[path = "../tests/rows_data.rs"]
mod rows_data;

use core::arch::asm;
use {crate}::Filter;

fn ask(what: u32, with: u32) {{
    unsafe {{
        asm!("bkpt 0xab", inout("r0") what => _, in("r1") with);
    }}
}}

fn say(text: &[u8]) {{
    ask(4, text.as_ptr() as u32);
}}

#[panic_handler]
fn panicked(_: &core::panic::PanicInfo) -> ! {{
    say(b"it panicked\\n\\0");
    end(false)
}}

fn end(is_good: bool) -> ! {{
    ask(0x18, if is_good {{ 0x20026 }} else {{ 0x20023 }});
    loop {{}}
}}

#[no_mangle]
pub extern "C" fn start() -> ! {{
    let mut filter = Filter::new();
    for (given, wanted) in rows_data::ROWS.iter() {{
        if filter.step(*given) != *wanted {{
            say(b"a row differs\\n\\0");
            end(false)
        }}
    }}
    say(b"{len(plan.rows)} rows are equal\\n\\0");
    end(true)
}}

#[repr(C)]
pub struct Vectors(usize, extern "C" fn() -> !);
unsafe impl Sync for Vectors {{}}

#[link_section = ".vectors"]
#[no_mangle]
pub static VECTORS: Vectors = Vectors(0x2000_4000, start);
"""


# builds the test for a processor, by the target of rustc, or else by `core` from rustc's sources and gcc's linker
BUILD = r"""# `core` from the sources of rustc (Debian: rust-src), for a target that isn't installed
core() {
  library=$root/src/rust/library/core
  [ -f "$library/src/lib.rs" ] || return 1
  edition=$(sed -n 's/^edition = "\(.*\)"/\1/p' "$library/Cargo.toml")
  made=build/core-$target
  unstable="env RUSTC_BOOTSTRAP=1 $rustc --edition $edition --crate-type rlib --cap-lints allow $flags"
  mkdir -p "$made"
  [ -f "$made/libcore.rlib" ] || $unstable --crate-name core -Z force-unstable-if-unmarked \
    -o "$made/libcore.rlib" "$library/src/lib.rs" || return 1
  $unstable --crate-name compiler_builtins -L "$made" -o "$made/libcompiler_builtins.rlib" \
    emulated/builtins.rs || return 1
  flags="$flags -L $made"
  link="-C linker=${ARM_CC:-arm-none-eabi-gcc} -C linker-flavor=gcc -C link-args=-mcpu=$1 -C link-args=-mthumb"
  link="$link -C link-args=-nostdlib -C link-args=-lgcc"
}

build() {
  case $1 in cortex-m0) target=thumbv6m-none-eabi ;; *) target=thumbv7em-none-eabi ;; esac
  rustc=${RUSTC:-rustc}
  flags="--target $target -O -C panic=abort"
  link="-C linker=${ARM_LD:-rust-lld} -C linker-flavor=ld.lld"
  root=$($rustc --print sysroot)/lib/rustlib
  [ -d "$root/$target/lib" ] || core "$1" || return 1
  $rustc --edition 2021 $flags --crate-name CRATE --crate-type rlib --out-dir "build/$1" src/lib.rs &&
  $rustc --edition 2021 $flags --crate-name emulated --crate-type bin --extern CRATE="build/$1/libCRATE.rlib" \
    $link -C link-args=-Temulated/link.ld -o "build/$1.elf" emulated/main.rs
}"""

BUILTINS = """//! Stands for the compiler's own library where `core` is built from its sources. What a step calls of it,
//! gcc's has.
#![feature(compiler_builtins)]
#![compiler_builtins]
#![no_std]
#![no_builtins]
"""
