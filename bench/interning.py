#!/usr/bin/env python3
"""How long a pool takes to intern a thousand, four thousand and sixteen thousand times a thousand terms.

Run it from the top of the repository: bench/interning.py
It makes a program beside a copy of the crates in a folder of its own, since no program of the repository does nothing but
intern, and prints one line for each number of terms: seconds of the processor, terms a second, and bytes of peak memory a term. It is no part
of the gate.
"""

import tempfile

from programs import build, run

MAIN = """//! Interns as many terms as the program has words, times a thousand.
#![tactic(auto)]

use data_theory::{FunId, NoMemory, TermId};
use std::env;
use std::process::ExitCode;
use term_pool::{Head, Pool};

/// Adds terms, each over the one before and over an old one.
fn fill(pool: &mut Pool, count: usize) -> Result<(), NoMemory> {
    let mut last = pool.intern(Head::Fun(FunId(300)), &[])?;
    for i in 0..count {
        let old = TermId(i / 2);
        if last.0 >= pool.len() || old.0 >= pool.len() {
            return Ok(());
        }
        last = pool.intern(Head::Fun(FunId(301)), &[last, old])?;
    }
    Ok(())
}

fn main(rt: HostRuntime) -> ExitCode {
    let Ok(mut pool) = Pool::new(rt.alloc()) else {
        return ExitCode::FAILURE;
    };
    let thousands = env::args(&rt).map_or(0, |words| words.count());
    match fill(&mut pool, thousands.saturating_mul(1_000)) {
        Ok(()) => ExitCode::SUCCESS,
        Err(_) => ExitCode::FAILURE,
    }
}
"""


def main():
    with tempfile.TemporaryDirectory() as folder:
        program = build(folder, "interning", ["data_theory", "term_pool"], {"src/main.rt": MAIN})
        for thousands in (1_000, 4_000, 16_000):
            seconds, memory = run(program, thousands)
            terms = thousands * 1_000
            print(f"{terms:10} terms {seconds:7.2f} s {terms / seconds / 1e6:6.2f} million/s {memory * 1024 / terms:6.0f} bytes a term at the peak")


if __name__ == "__main__":
    main()
