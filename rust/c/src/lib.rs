//! The functions that the headers in `include/` declare, over the sources of the Rust crate: for any target of rustc
//! with `std`, by `cargo build --release` alone. Tested, not proved; the archive by the kit is the proved one.
//!
//! The modules of the crate beside this one are compiled here as well, since what is for C stands on parts of it that no
//! other crate can name.
#![deny(unsafe_code)]
#![allow(
    unused,
    unknown_lints,
    mismatched_lifetime_syntaxes,
    clippy::complexity,
    clippy::style,
    clippy::result_large_err,
    reason = "the style is that of the sources in Rattle, and contracts, which aren't here, use more than the code does"
)]

extern crate alloc;

#[macro_use]
#[path = "../../src/proved/api.rs"]
mod api;
#[macro_use]
#[path = "../../src/examples.rs"]
mod examples;
#[macro_use]
#[path = "../../src/forms.rs"]
mod forms;

mod by_hand;
#[allow(
    unsafe_code,
    reason = "a name that the linker knows is one, and so is the use of what memory.rs makes"
)]
mod generated;
mod memory;
#[path = "../../src"]
mod sources {
    pub mod proved;
    pub mod rattle;
}

use sources::{proved, rattle};
