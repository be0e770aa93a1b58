//! The engine's decoder and validator: whatever the bytes are, a module is made or refused with a text, and what is taken without floats
//! is taken with them.
#![cfg_attr(not(kept), no_main)]
use engine::{Engine, Module};
use std::sync::LazyLock;
use wasmi_fuzz::{agree, fuzz_target, is_planted};

// The random modules with which engines are compared.
#[allow(dead_code)]
#[path = "../../../engine/fuzz/src/body.rs"]
mod body;
#[path = "../../../engine/fuzz/src/instructions.rs"]
mod instructions;
#[allow(dead_code)]
#[path = "../../../engine/fuzz/src/module.rs"]
mod module;
#[allow(dead_code)]
#[path = "../../../engine/fuzz/src/random.rs"]
mod random;

fuzz_target!(is_kept, changed);

fn is_kept(input: &[u8]) -> bool {
    static ENGINE: LazyLock<Engine> = LazyLock::new(Engine::default);
    let read = [Module::new_strict, Module::new];
    let [strict, plain] = read.map(|read| read(&ENGINE, input).map_err(|it| it.to_string()));
    let is_refused = [&strict, &plain].map(|made| made.as_ref().is_err());
    let has_text = [&strict, &plain].map(|made| made.as_ref().is_err_and(|text| !text.is_empty()));
    agree("decoder", &is_refused, &has_text);
    let is_taken = plain.is_ok() != is_planted("decoder");
    agree("decoder", &(is_taken || strict.is_err()), &true);
    true
}

/// One of sixteen inputs is a random module.
fn changed(_: &[u8], seed: u32) -> Option<Vec<u8>> {
    static INSTRUCTIONS: LazyLock<Vec<instructions::Instruction>> = LazyLock::new(instructions::instructions);
    (seed % 16 == 0).then(|| module::case(seed.into(), &INSTRUCTIONS).bytes)
}
