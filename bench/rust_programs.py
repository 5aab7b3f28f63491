"""Programs round the texts of `fixd rust`: they read rows of words and write outputs and next states.

For bench/rust.py. Words are eight bytes each, the least first. Many texts are compiled at once, each in a module of its
own, and the rows of one stand behind those of another.
"""
import json
import os
import re

from texts import ended, written

RUSTC = ["rustc", "--edition", "2021", "--crate-name", "texts"]

ROWS = """\
use std::io::{Read, Write};

fn rows<const K: usize, const I: usize, const M: usize>(
    step: fn(&mut [i64; K], &[i64; I]) -> [i64; M],
    mut state: [i64; K],
    count: usize,
    words: &mut impl Iterator<Item = i64>,
    out: &mut Vec<u8>,
) {
    for _ in 0..count {
        let mut row = [0; I];
        row.iter_mut().for_each(|word| *word = words.next().unwrap());
        step(&mut state, &row).iter().chain(&state).for_each(|word| out.extend(word.to_le_bytes()));
    }
}
"""

MAIN = """
fn main() {{
    let mut data = Vec::new();
    std::io::stdin().read_to_end(&mut data).unwrap();
    let mut words = data.chunks_exact(8).map(|word| i64::from_le_bytes(word.try_into().unwrap()));
    let mut out = Vec::new();
{calls}
    std::io::stdout().write_all(&out).unwrap();
}}
"""

SEEN = """
use std::{cell::RefCell, collections::BTreeMap};

type Ends = BTreeMap<(usize, usize), (i128, i128)>;

thread_local! { static SEEN: RefCell<Ends> = const { RefCell::new(BTreeMap::new()) }; }

pub fn seen(text: usize, name: usize, word: i128) -> i128 {
    SEEN.with_borrow_mut(|all| {
        let ends = all.entry((text, name)).or_insert((word, word));
        *ends = (ends.0.min(word), ends.1.max(word));
    });
    word
}
"""

SHOWN = """\
    SEEN.with_borrow(|all| {
        for ((text, name), (low, high)) in all {
            eprintln!("{text} {name} {low} {high}");
        }
    });
"""


def starts_of(case):
    """Returns the start words as an array of Rust."""
    return "[" + ", ".join(f"{word}i64" if word > -2 ** 63 else "i64::MIN" for word in case.starts) + "]"


def calls(cases):
    return "\n".join(f"    rows(m{k}::step, {starts_of(case)}, {len(case.rows)}, &mut words, &mut out);"
                     for k, case in enumerate(cases))


def as_library(cases, folder):
    """Compiles the texts, as they are, to a library without std. Returns how often each warning came."""
    for k, case in enumerate(cases):
        written(folder, f"m{k}.rs", case.text)
    written(folder, "lib.rs", "#![no_std]\n" + "".join(f"pub mod m{k};\n" for k in range(len(cases))))
    done = ended([*RUSTC, "--crate-type", "lib", "--error-format", "json", "-o", "texts.rlib", "lib.rs"], cwd=folder)
    found = {}
    for line in done.stderr.decode().splitlines():
        message = json.loads(line)
        if message.get("code"):
            found[message["code"]["code"]] = found.get(message["code"]["code"], 0) + 1
    return found


def as_programs(cases, folder, words):
    """Compiles the texts, as they are, with overflow checks and again with -O. Returns what each program writes."""
    modules = "".join(f"#[allow(unused_variables)]\nmod m{k};\n" for k in range(len(cases)))
    written(folder, "main.rs", modules + ROWS + MAIN.format(calls=calls(cases)))
    pages = []
    for name, options in (("checked", ["-C", "overflow-checks=on", "-C", "debug-assertions=on"]), ("fast", ["-O"])):
        ended([*RUSTC, *options, "-o", name, "main.rs"], cwd=folder)
        pages.append(ended([os.path.join(folder, name)], input=words).stdout)
    return pages


def in_i128(text, place):
    """The text with each word of type `i128`, so that no `as` can change it, and each one noted."""
    def noted(it):
        value = re.sub(r" as i(8|16|32|64)$", " as i128", it[2])
        return f"let w{it[1]}: i128 = crate::seen({place}, {it[1]}, {value});"

    return re.sub(r"let w(\d+): i\d+ = (.*);", noted, text)


def words_seen(cases, folder, words):
    """Runs the texts with words of 128 bits. Returns what is written, and the ends of each name's words."""
    for k, case in enumerate(cases):
        written(folder, f"v{k}.rs", in_i128(case.text, k))
    modules = "".join(f'#[allow(unused_variables)]\n#[path = "v{k}.rs"]\nmod m{k};\n' for k in range(len(cases)))
    written(folder, "seen.rs", modules + ROWS + SEEN + MAIN.format(calls=calls(cases) + "\n" + SHOWN))
    ended([*RUSTC, "-C", "overflow-checks=on", "-o", "seen", "seen.rs"], cwd=folder)
    done = ended([os.path.join(folder, "seen")], input=words)
    ends = {}
    for line in done.stderr.decode().splitlines():
        text, name, low, high = map(int, line.split())
        ends[text, name] = (low, high)
    return done.stdout, ends
