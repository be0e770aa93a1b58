//! Compares the proved static libraries with the Rust crate in one process.
//!
//! usage: beside SEED NUMBERS CALLS SEQUENCES SCRIPTS
//!
//! NUMBERS operands for each instruction, CALLS calls on machines, SEQUENCES of calls on memories and as many on tables, SCRIPTS of each kind and a mutant of
//! each; a 0 leaves the part out. Each part prints its counts. The exit status is 1 where something differs, and where nothing was compared.
mod calls;
mod limits;
mod machines;
mod memories;
mod numbers;
mod tables;

use conformance::archives::run_script;
use conformance::comparison::mutant;
use conformance::generator::{Generator, PROFILES};
use std::process::exit;
use wasmi_core_proved::script::replay;

/// How many trials differ that are shown.
const SHOWN: u64 = 5;

/// How much was tried, and how much differs.
#[derive(Default)]
pub struct Tally {
    pub tried: u64,
    pub differ: u64,
}

impl Tally {
    /// Counts a trial; shows one of the first that differ.
    fn add(&mut self, is_same: bool, shown: impl FnOnce() -> String) {
        self.tried += 1;
        if !is_same {
            self.differ += 1;
            if self.differ <= SHOWN {
                println!("DIFFERS {}", shown());
            }
        }
    }
}

// ---- scripts: what the static library prints beside what the Rust crate's `script::replay` does, and the status

fn in_library(script: &[u8]) -> (u8, Vec<u8>) {
    let mut text = Vec::new();
    (run_script(script, &mut text), text)
}

fn here(mut script: &[u8]) -> (u8, Vec<u8>) {
    let mut text = Vec::new();
    let status = replay(&mut script, &mut text).code();
    (status, text)
}

/// Tries so many scripts of each kind and a mutant of each.
fn compare_scripts(seed: u64, count: u64) -> Tally {
    let (mut tally, mut lines) = (Tally::default(), 0);
    for (index, name) in PROFILES.iter().enumerate() {
        for number in 0..count {
            let own_seed = seed.wrapping_mul(999_983).wrapping_add(number).wrapping_mul(37).wrapping_add(index as u64);
            let mut generator = Generator::new(own_seed);
            generator.write_script(name, number as usize);
            let other = mutant(&generator.text, &mut generator.random);
            for script in [generator.text, other] {
                if Generator::asks_too_much(&script) {
                    continue;
                }
                let (there, here) = (in_library(&script), here(&script));
                lines += there.1.iter().filter(|byte| **byte == b'\n').count();
                tally.add(there == here, || {
                    let texts = [&script, &there.1, &here.1].map(|text| String::from_utf8_lossy(text));
                    format!("{name} {own_seed}: {} and {}\n{}", there.0, here.0, texts.join("\n---\n"))
                });
            }
        }
    }
    println!("scripts, seed {seed}: {} scripts, {lines} lines, {} differ", tally.tried, tally.differ);
    tally
}

fn main() {
    let words: Vec<u64> = std::env::args().skip(1).map(|word| word.parse().expect("a number")).collect();
    let [seed, numbers, calls, sequences, scripts] = words[..] else {
        eprintln!("usage: beside SEED NUMBERS CALLS SEQUENCES SCRIPTS");
        exit(2);
    };
    let parts: [(u64, fn(u64, u64) -> Tally); 5] = [
        (numbers, numbers::compare),
        (calls, machines::compare),
        (sequences, memories::compare),
        (sequences, tables::compare),
        (scripts, compare_scripts),
    ];
    let (mut tried, mut differ) = (0, 0);
    for (count, compare) in parts.into_iter().filter(|(count, _)| *count > 0) {
        let tally = compare(seed, count);
        tried += tally.tried;
        differ += tally.differ;
        if tally.tried == 0 {
            println!("nothing was compared");
            exit(1);
        }
    }
    println!("seed {seed}: {tried} trials, {differ} differ");
    exit((differ > 0 || tried == 0).into());
}
