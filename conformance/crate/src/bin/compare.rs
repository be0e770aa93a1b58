//! Compares the proved library with the machine over the Rust crate on random scripts and mutants of them, in one process; with --replay
//! `script::replay` of the Rust crate of ../../rust in its place.
//!
//! usage: compare [--replay] PROFILE|all SEED COUNT MUTANTS FOLDER
//!
//! `conformance::comparison` says what they are.
use conformance::{archives::run_script, comparison::run};
use wasmi_core_proved::script::replay;

fn replayed(mut script: &[u8], text: &mut Vec<u8>) -> u8 {
    text.clear();
    replay(&mut script, text).code()
}

fn main() {
    let words: Vec<String> = std::env::args().skip(1).collect();
    match &words[..] {
        [first, rest @ ..] if first == "--replay" => run(replayed, rest),
        _ => run(run_script, &words),
    }
}
