#!/usr/bin/env python3
"""How long a signature of a thousand, four thousand and sixteen thousand functions takes to make and to ask for each of them.

Run it from the top of the repository: bench/signature.py
The functions have names of their own, or one name over as many sorts. It prints one line for each signature: seconds of the
processor, how many times those of the line before, and the peak memory. It is no part of the gate.
"""

import tempfile

from programs import build, run

MAIN = '''//! Makes a signature of a thousand functions for each two words of its command, and asks for each of them. With an even number
//! of words each has a name of its own, and with an odd one they have one name, over as many sorts.
#![tactic(auto)]

use data_theory::{Names, NoMemory, Signature, SortId};
use std::alloc::Global;
use std::env;
use std::process::ExitCode;

/// Adds a constant of Bool that isn't there.
fn add_constant(signature: &mut Signature, text: &str) -> Result<bool, NoMemory> {
    let name = signature.take_name(text)?;
    let None = signature.fun(text, &[]) else {
        return Ok(false);
    };
    if signature.next_sort().0 == 0 {
        return Ok(false);
    }
    signature.add_map(name, SortId(0))?;
    Ok(true)
}

/// Adds a sort that isn't there.
fn add_sort(signature: &mut Signature, text: &str) -> Result<bool, NoMemory> {
    let name = signature.take_name(text)?;
    if signature.sort(name).is_some() {
        return Ok(false);
    }
    signature.add_sort(name)?;
    Ok(true)
}

/// Adds constants of Bool with names of their own, and asks for each.
fn distinct_names(alloc: Global, signature: &mut Signature, count: usize) -> Result<bool, NoMemory> {
    for i in 0..count {
        let text = format!(in alloc; "f_{i}")?;
        if !add_constant(signature, text.as_str())? {
            return Ok(false);
        }
    }
    for i in 0..count {
        let text = format!(in alloc; "f_{i}")?;
        if signature.fun(text.as_str(), &[]).is_none() {
            return Ok(false);
        }
    }
    Ok(true)
}

/// Adds sorts, each with its built-in functions, and asks for `==` over each.
fn one_name(alloc: Global, signature: &mut Signature, count: usize) -> Result<bool, NoMemory> {
    for i in 0..count {
        let text = format!(in alloc; "S_{i}")?;
        if !add_sort(signature, text.as_str())? {
            return Ok(false);
        }
    }
    for i in 0..count {
        if signature.fun("==", &[SortId(i), SortId(i)]).is_none() {
            return Ok(false);
        }
    }
    Ok(true)
}

fn main(rt: HostRuntime) -> ExitCode {
    let words = env::args(&rt).map_or(0, |words| words.count());
    let Ok(mut signature) = Signature::new(rt.alloc(), Names::new(rt.alloc())) else {
        return ExitCode::FAILURE;
    };
    let count = (words / 2).saturating_mul(1_000);
    let made = if words % 2 == 0 {
        distinct_names(rt.alloc(), &mut signature, count)
    } else {
        one_name(rt.alloc(), &mut signature, count)
    };
    match made {
        Ok(true) => ExitCode::SUCCESS,
        _ => ExitCode::FAILURE,
    }
}
'''
LEMMA = """-- A name under which no function is found is the name of none.
use Rattle.std.proofs.Common.{◌≡◌, ℕ, List, Some, slice_get, ap, ◌∙◌}
use Rattle.data_theory.specs.declared.ids.NameId.{NameId}
use Rattle.data_theory.specs.declared.ids.SortId.{SortId}
use Rattle.data_theory.specs.Keys.{Key, key}
use Rattle.data_theory.specs.Functions.{HasKey}
use Rattle.data_theory.specs.Signature.{Sig, IsFun}

pub absent : (g : Sig) (t : List ℕ) (name : NameId) (args : List SortId) → slice_get g.texts name.0 ≡ Some t → ((k : ℕ) → IsFun g t args k → ⊥) → (k : ℕ) → HasKey g.functions (key name args) k → ⊥
absent g t name args named none k (f, at, e) = none k (f, at, ap (λ (x : Key). slice_get g.texts x.name.0) e ∙ named, ap (λ (x : Key). x.sorts) e)
"""
ANSWERS = """use Rattle.std.proofs.Common.{[]}
use Rattle.signing.proofs.Absent.{absent}
use Rattle.signing.proofs.add_constant.Goals as goal

pub add_map-requires-clause-absent : goal.add_map-requires-clause-absent
add_map-requires-clause-absent c = absent c.take_name.new.self c.args.text.now c.in_ok-name.name [] c.in_ok-name.ensures.named c.in-None.ensures
"""
FILES = {
    "src/main.rt": MAIN,
    "proofs/Lib.antt": "mod Absent\n",
    "proofs/Absent.antt": LEMMA,
    "proofs/add_constant/Answers.antt": ANSWERS,
}


def main():
    with tempfile.TemporaryDirectory() as folder:
        program = build(folder, "signing", ["data_theory"], FILES)
        for kind, odd in (("names of their own", 0), ("one name", 1)):
            before = None
            for thousands in (1, 4, 16):
                seconds, memory = min(run(program, 2 * thousands + odd) for _ in range(5))
                times = f"{seconds / before:5.1f} times" if before else " " * 11
                print(f"{thousands * 1_000:6} functions, {kind:18} {seconds:8.4f} s {times} {memory // 1024:4} MiB")
                before = seconds


if __name__ == "__main__":
    main()
