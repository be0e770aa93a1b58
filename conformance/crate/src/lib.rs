//! The language of scripts (docs/SCRIPT.md) over the Rust crate's own memories, tables, instructions and meter, and random scripts.
//! `instructions` has the functions of the Rust crate and of the proved one by name, and `archives` the calls of the proved library.
#[cfg(feature = "library")]
pub mod archives;
pub mod calls;
pub mod comparison;
pub mod generator;
pub mod instructions;
pub mod machine;
pub mod operands;
pub mod parse;
pub mod random;
pub mod session;
#[cfg(feature = "library")]
pub mod structs;

use session::Session;

/// The greatest length of a script, in bytes.
pub const LONGEST: usize = 1_048_576;

/// What the program prints for a script, and its exit status.
pub fn replay(text: &[u8]) -> (u8, String) {
    if text.len() > LONGEST {
        return (2, "script too long\n".into());
    }
    let script = match parse::parse(text) {
        Ok(script) => script,
        Err(line) => return (2, format!("line {line}: bad command\n")),
    };
    let Some(mut session) = Session::new(&script.headers) else {
        return (3, "out of memory\n".into());
    };
    for (tenant, call) in &script.calls {
        session.call(*tenant, call);
    }
    session.end();
    (0, std::mem::take(&mut session.printed))
}
