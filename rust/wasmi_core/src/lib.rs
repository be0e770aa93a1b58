//! [`wasmi_core_proved`] by the name `wasmi_core`, so that `[patch]` can put it in the place of the Rust crate of that name.
//!
//! # Features
//!
//! - `std`, `simd` and `memory64`, the default ones, are passed on. `sse2` of [`wasmi_core_proved`] is always on.
//! - `libm` and `deterministic` change nothing. In the Rust crate they pick what computes with floats and make each NaN the
//!   canonical one; here nothing computes with floats.
#![no_std]
#![forbid(unsafe_code)]

// The pages of what is in it are its own, where the links of contracts lead somewhere.
#[doc(no_inline)]
pub use wasmi_core_proved::*;
