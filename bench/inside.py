#!/usr/bin/env python3
"""Measures calls inside `fixd` that no command shows alone: inside.py [PROGRAM]

Printing a bundle, applying rewriting steps, listing single steps and plain attempts, by a program over the proved
crates that makes each call many times. Without PROGRAM that program is written into a folder of its own beside copies
of the crates, and `rt` proves and builds it, which takes as long as `make run` does the first time. Figures are seconds
of the processor of the greater number of calls less those of the smaller one. Outside the gate: figures depend on the
machine.
"""
import os
import re
import resource
import shutil
import subprocess
import sys
import tempfile

HERE = os.path.dirname(os.path.abspath(__file__))
ROOT = os.path.join(HERE, "..")

BODY = """\
//! Calls from inside `fixd`, many times over: `print FILE TIMES`, `rewrite FILE TIMES`, `steps FILE TIMES`,
//! `attempt FILE TIMES`.
#![tactic(auto)]

use fx_analysis::plain_attempt;
use fx_cert_text::{print_bundle, read_bundle};
use fx_expr::Function;
use fx_parser::parse;
use fx_program::Round;
use fx_rewrite::{SingleSteps, apply};
use fx_step::Step;
use std::alloc::Global;
use std::process::ExitCode;
use std::{env, fs};

const SOURCE_LIMIT: usize = 1_048_576;

// The bytes of a bundle's text, which is printed so often.
fn printed(alloc: Global, bytes: &[u8], times: u64) -> usize {
    let Ok(bundle) = read_bundle(alloc, bytes) else {
        return 0;
    };
    let source = bundle.source.as_slice();
    if source.len() > SOURCE_LIMIT {
        return 0;
    }
    let mut length = 0;
    for _ in 0..times {
        if let Ok(text) = print_bundle(alloc, source, &bundle.program, &bundle.certificate) {
            length = text.len();
        }
    }
    length
}

// How many single steps there are, counted so often.
fn counted(alloc: Global, function: &Function) -> u64 {
    let mut steps = SingleSteps::new(alloc, function);
    let mut count = 0u64;
    for _ in 0..100_000 {
        match steps.next(alloc) {
            Ok(Some(_)) => count = count.wrapping_add(1),
            _ => return count,
        }
    }
    count
}

// The first steps of a function by rules 1 and 2: an exchange of a sum's operands, or a regrouping.
fn sum_steps(alloc: Global, function: &Function) -> Vec<Step> {
    let mut all = Vec::new(alloc);
    let mut steps = SingleSteps::new(alloc, function);
    for _ in 0..100_000 {
        match steps.next(alloc) {
            Ok(Some(step)) => {
                if step.rule <= 2 && all.push(step).is_err() {
                    return all;
                }
            }
            _ => return all,
        }
    }
    all
}

// How many of so many steps, each of them made and made again, are made.
fn applied(alloc: Global, function: &mut Function, steps: &[Step]) -> u64 {
    let mut count = 0u64;
    for step in steps {
        if apply(alloc, function, step).is_ok() && apply(alloc, function, step).is_ok() {
            count = count.wrapping_add(2);
        }
    }
    count
}

fn rewritten(alloc: Global, bytes: &[u8], times: u64) -> u64 {
    if bytes.len() > SOURCE_LIMIT {
        return 0;
    }
    let Ok(mut function) = parse(alloc, bytes, None) else {
        return 0;
    };
    let steps = sum_steps(alloc, &function);
    let mut count = 0u64;
    for _ in 0..times {
        count = count.wrapping_add(applied(alloc, &mut function, steps.as_slice()));
    }
    count
}

fn listed(alloc: Global, bytes: &[u8], times: u64) -> u64 {
    if bytes.len() > SOURCE_LIMIT {
        return 0;
    }
    let Ok(function) = parse(alloc, bytes, None) else {
        return 0;
    };
    let mut count = 0u64;
    for _ in 0..times {
        count = count.wrapping_add(counted(alloc, &function));
    }
    count
}

// How many nodes so many plain attempts have.
fn attempted(alloc: Global, bytes: &[u8], times: u64) -> u64 {
    if bytes.len() > SOURCE_LIMIT {
        return 0;
    }
    let Ok(function) = parse(alloc, bytes, None) else {
        return 0;
    };
    if function.states.len() != 0 {
        return 0;
    }
    let mut count = 0u64;
    for _ in 0..times {
        match plain_attempt(alloc, &function, 32, Round::Floor) {
            Ok(Some((_, certificate))) => count = count.wrapping_add(certificate.lines.len() as u64),
            _ => return count,
        }
    }
    count
}

fn main(rt: HostRuntime) -> ExitCode {
    let alloc = rt.alloc();
    let Ok(all) = env::args(&rt) else {
        return ExitCode::FAILURE;
    };
    let Ok(words) = all.skip(1).collect::<Vec<String>>(alloc) else {
        return ExitCode::FAILURE;
    };
    let [call, file, times] = words.as_slice() else {
        return ExitCode::FAILURE;
    };
    let (Ok(bytes), Ok(times)) = (fs::read(&rt, file.as_str()), times.as_str().parse::<u64>()) else {
        return ExitCode::FAILURE;
    };
    let count = match call.as_str() {
        "print" => printed(alloc, bytes.as_slice(), times) as u64,
        "rewrite" => rewritten(alloc, bytes.as_slice(), times),
        "steps" => listed(alloc, bytes.as_slice(), times),
        "attempt" => attempted(alloc, bytes.as_slice(), times),
        _ => return ExitCode::FAILURE,
    };
    match println!(rt; "{count}") {
        Ok(()) => ExitCode::SUCCESS,
        Err(_) => ExitCode::FAILURE,
    }
}
"""


def built(folder):
    """The program, proved and built in a repository with copies of this one's crates, since `rt` takes no links."""
    crates = os.path.join(folder, "crates")
    os.makedirs(os.path.join(crates, "inside", "src"))
    for name in os.listdir(os.path.join(ROOT, "crates")):
        shutil.copytree(os.path.join(ROOT, "crates", name), os.path.join(crates, name),
                        ignore=shutil.ignore_patterns("out"))
    with open(os.path.join(ROOT, "crates.txt")) as file:
        lines = [line for line in file if not line.startswith("fx_cli:")]
    below = " ".join(sorted(set(re.findall(r"^use (fx_\w+)", BODY, re.MULTILINE))))
    with open(os.path.join(folder, "crates.txt"), "w") as file:
        file.writelines(lines)
        file.write(f"inside: {below}\n")
    with open(os.path.join(folder, "HANDLES"), "w") as file:
        file.write("Handles allowed: none.\n")
    with open(os.path.join(crates, "inside", "src", "main.rt"), "w") as file:
        file.write(BODY)
    subprocess.run(["rt", "run"], cwd=os.path.join(crates, "inside"), stdout=subprocess.DEVNULL)
    return os.path.join(crates, "inside", "out", "inside")


def seconds(program, call, path, times):
    """The least seconds of the processor of five runs, and what the program printed."""
    best = answer = None
    for _ in range(5):
        before = resource.getrusage(resource.RUSAGE_CHILDREN)
        answer = subprocess.run([program, call, path, str(times)], capture_output=True, text=True, check=True).stdout
        after = resource.getrusage(resource.RUSAGE_CHILDREN)
        used = after.ru_utime - before.ru_utime + after.ru_stime - before.ru_stime
        best = used if best is None else min(best, used)
    return best, int(answer)


def balanced(terms):
    """A sum of terms that is as low as can be."""
    while len(terms) > 1:
        terms = [f"({terms[k]} + {terms[k + 1]})" if k + 1 < len(terms) else terms[k] for k in range(0, len(terms), 2)]
    return terms[0]


def source(nodes):
    """A function of about so many nodes: temps of eight operations each, and their sum."""
    count = max(1, (nodes - 3) // 9)
    temps = "".join(f"  val t{k} = (x * y + y * z) * (x - z) + 0.5 * x\n" for k in range(count))
    return ("def f(x: Real, y: Real, z: Real): Real = {\n"
            "  require(0 <= x && x <= 1 && 0 <= y && y <= 1 && 0 <= z && z <= 1)\n"
            f"{temps}  {balanced([f't{k}' for k in range(count)])}\n}}\n")


def measure_print(program, folder):
    path = os.path.join(folder, "long.bundle")
    with open(path, "w") as file:
        subprocess.run([sys.executable, os.path.join(HERE, "bundles.py"), "long"], stdout=file, check=True)
    with open(path) as file:
        text = file.read()
    # its last line is wrong, which `check` is to refuse late
    with open(path, "w") as file:
        file.write(text[:text.rstrip("\n").rindex("\n") + 1] + "end\n")
    (few, size), (more, _) = seconds(program, "print", path, 1), seconds(program, "print", path, 6)
    print(f"printing a bundle of {size} bytes: {(more - few) / 5:.3f} s, {size * 5 / (more - few) / 1e6:.0f} MB/s")


def measure_rewrite(program, folder, nodes, times):
    path = os.path.join(folder, f"{nodes}.fixd")
    with open(path, "w") as file:
        file.write(source(nodes))
    for call, what in (("rewrite", "applications"), ("steps", "single steps")):
        (few, a), (more, b) = seconds(program, call, path, times), seconds(program, call, path, 6 * times)
        print(f"{nodes} nodes: {(b - a) / (more - few):.0f} {what} a second")


def measure_attempt(program, folder, nodes, times):
    path = os.path.join(folder, f"{nodes}.fixd")
    with open(path, "w") as file:
        file.write(source(nodes))
    (few, a), (more, b) = seconds(program, "attempt", path, times), seconds(program, "attempt", path, 6 * times)
    print(f"a plain attempt of {a // times} nodes: {(more - few) / (5 * times) * 1e6:.1f} microseconds")


def main():
    with tempfile.TemporaryDirectory() as folder:
        program = sys.argv[1] if len(sys.argv) > 1 else built(folder)
        measure_print(program, folder)
        for nodes, times in ((20, 20000), (200, 2000), (2000, 100)):
            measure_rewrite(program, folder, nodes, times)
        for nodes, times in ((12, 20000), (40, 10000), (150, 2000)):
            measure_attempt(program, folder, nodes, times)


main()
