//! The core of a WebAssembly interpreter, proved: values, instructions on numbers and vectors, fuel,
//! limits, linear memories and tables.
//!
//! This crate has the API of [`wasmi_core`](https://docs.rs/wasmi_core/2.0.0) 2.0.0 without the
//! arithmetic of floats, so an engine over that crate that computes with no floats compiles over this
//! one. Its source is a library in Rattle, which is Rust with contracts: each function of the library
//! has clauses that say what it returns and changes, and a proof that it does. Here the contracts and
//! proofs are left out of the source, and the clauses stand in these pages.
//!
//! # Examples
//!
//! A memory that pays for its growth:
//!
//! ```
//! use wasmi_core_proved::{Fuel, FuelCostsProvider, Memory, MemoryType, ResourceLimiterRef, wasm};
//!
//! let mut fuel = Fuel::new(true, FuelCostsProvider::default());
//! fuel.set_fuel(5000)?;
//!
//! let mut builder = MemoryType::builder();
//! builder.min(1).max(Some(4));
//! let mut limiter = ResourceLimiterRef::default();
//! let mut memory = Memory::new(builder.build()?, &mut limiter)?;
//!
//! // Pages of 65,536 bytes, of which each costs 1,024 units of fuel.
//! assert_eq!(memory.grow(2, Some(&mut fuel), &mut limiter)?, 1);
//! assert_eq!(fuel.get_fuel()?, 2952);
//!
//! assert_eq!(wasm::store32(memory.data_mut(), 65_536, 4, 7), Ok(()));
//! assert_eq!(wasm::load_u32(memory.data(), 65_540, 0), Ok(7));
//! assert!(wasm::load_u32(memory.data(), u64::MAX, 0).is_err());
//! # Ok::<(), Box<dyn std::error::Error>>(())
//! ```
//!
//! # What is here
//!
//! | Where | What |
//! |---|---|
//! | this page | the types and traits of `wasmi_core`: [`Memory`], [`Table`], [`Fuel`], [`ResourceLimiter`], [`Global`], [`FuncType`], [`Trap`], [`RawVal`], [`TypedRawVal`], [`V128`], .. |
//! | [`wasm`], [`simd`] | the instructions, as functions |
//! | [`machine`] | a machine that executes lists of calls, and generic memories, tables and limiters |
//! | [`pool`] | machines that share a cap |
//! | [`region`] | memories and tables that lie in a region of the caller |
//! | [`ops`] | the instructions as values, with their names |
#![cfg_attr(
    feature = "std",
    doc = "| [`script`], [`grammar`] | scripts of calls: parsed, run and printed |"
)]
#![cfg_attr(
    doc,
    doc = "| [`specs`], [`laws`] | the definitions that the contracts cite, and what holds of all runs |"
)]
//!
//! # How to read a contract
//!
//! A section *Contract* has the clauses of a function as they stand in its source. `requires` is what
//! a caller has to meet, and `ensures` is what the function then keeps (`ensures*`: also what is lent
//! and comes back); a name before the colon says what the clause is about. In a clause
//!
//! - `result` is what is returned;
//! - of a parameter behind `&mut`, `x.old` is its value before the call and `x.new` its value after
//!   it; `x.now` is the value behind a shared reference; `.entry` and `.exit` are the references
//!   themselves, before and after the call;
//! - a function is applied by writing its arguments after it, without parentheses: `f x y`;
//! - `≡` is "is", `×` is "and", `→` is "if .. then", and `λ x. e` is a function.
//!
//! Below a contract stand links to the definitions that it uses. The words of Rattle's own library are
//! in the table of [`specs`]. Try to read the contract of [`Fuel::get_fuel`].
//!
//! A section *Model* says what a contract sees of a type: `Value` is the type of its values there,
//! `view` how one is read off the fields, `invariant` what holds at any time.
//!
//! # What is proved, tested and trusted
//!
//! - **Proved**, of the Rattle source where `usize` has 64 bits: each clause that is shown; no
//!   function panics, overflows or reads past an end if its `requires` are met; each function ends.
//! - **Tested**, of this crate: that it does what the proved library does, by each instruction on
//!   edges and random operands, by lists of calls and scripts, and by refusing each allocation. A
//!   `usize` of 32 bits and big-endian targets are tested, and not proved.
//! - **Trusted**: the program that leaves the contracts out, the files of this crate that have no
//!   contract (they turn the proved library's API into that of `wasmi_core`, and stand for what
//!   Rattle's standard library has otherwise), and rustc.
//!
//! Where a proof requires something of a caller, the function here asserts it, which its section
//! *Panics* says. What no test can see is left to the caller: a limiter or a closure of yours that
//! panics ends what was proved.
//!
//! # What differs from `wasmi_core`
//!
//! - Floats have no arithmetic: what moves their bits is there, and the other 120 functions aren't.
//! - If the system refuses memory, a memory or table isn't made or doesn't grow, and an error says so.
//!   [`FuncType::new`] panics. A [`Trap`], an [`ElementSegment`], and a [`FuncType`] of more than 21
//!   types, may abort; [`machine::ElementSegment::new`] returns an error.
//! - [`Memory::data_ptr`] returns a `*const u8`, so a write through it doesn't compile.
//! - Where `usize` has 32 bits, sizes of 2^32 and more are refused, and a greater maximum counts as
//!   2^32 - 1: that of a table too, which `wasmi_core` doesn't make then.
//!
//! The repository's `docs/DIFFERENCES.md` has the whole list.
//!
//! # Features
//!
//! - `std` (default): scripts, and errors of `std::io`. Without it the crate needs `alloc` alone.
//! - `simd` (default): the vector instructions.
//! - `memory64` (default): 64-bit memories.
//! - `sse2` (default): lanes of vectors in registers, on targets that have SSE2, by the unsafe blocks
//!   of one file. Without it, and on other targets, the crate has no unsafe code.
#![no_std]
#![warn(missing_docs, unnameable_types)]
// What is named after a vector instruction links to it where it is there.
#![cfg_attr(not(feature = "simd"), allow(rustdoc::broken_intra_doc_links))]
#![cfg_attr(all(feature = "sse2", target_feature = "sse2"), deny(unsafe_code))]
#![cfg_attr(
    not(all(feature = "sse2", target_feature = "sse2")),
    forbid(unsafe_code)
)]
#![cfg_attr(docsrs, feature(doc_cfg))]
#![warn(
    clippy::missing_errors_doc,
    clippy::missing_panics_doc,
    clippy::must_use_candidate
)]

extern crate alloc;
#[cfg(any(feature = "std", test))]
extern crate std;

#[macro_use]
#[path = "proved/api.rs"]
mod api;
#[macro_use]
mod examples;
#[macro_use]
mod forms;
mod debug;
mod float;
mod func_type;
#[cfg(doc)]
#[path = "proved/pages_of_laws.rs"]
pub mod laws;
mod limiter;
pub mod machine;
mod memory;
pub mod ops;
#[allow(
    unused,
    unknown_lints,
    mismatched_lifetime_syntaxes,
    reason = "contracts, which aren't here, use more than the code does"
)]
mod proved;
#[allow(
    clippy::missing_errors_doc,
    clippy::missing_panics_doc,
    clippy::must_use_candidate,
    clippy::complexity,
    clippy::perf,
    clippy::style,
    reason = "it has the form of Rattle's library, and loops of which LLVM makes vectors"
)]
mod rattle;
#[cfg(any(doc, feature = "simd"))]
pub mod simd;
/// The words and signs of Rattle's own library that contracts use; each other word has a page below.
///
/// | In a contract | Meaning |
/// |---|---|
/// | `x ≡ y`, `x ≢ y` | x is y, x is not y |
/// | `P × Q`, `P ⊎ Q`, `¬ P`, `⊤`, `⊥` | and, or, not, always true, always false; `(x : T) × P` is: there is an x for which P |
/// | `P → Q`, `P ↔ Q` | if P, then Q; if and only if; `(x : T) → P` is P for every x; of types, the functions from P to Q |
/// | `if b then x else y`, `MatchBool b P Q`, `IsTrue b` | by a Boolean; `==`, `&&`, `not`, `nat_eq`, `nat_le`, `nat_lt` give one |
/// | `record { a = x; b = y }` | the value with these fields |
/// | `⟦<T as Trait>⟧`, `T.Trait`, `T.name` | the implementation of a trait for a type, and a member of it, such as the `rules` of a limiter |
/// | `ℕ`, `m - n`, `m / n`, `m % n` | the whole numbers from 0 on: a difference is 0 where n is greater, a quotient is rounded down; `suc n` is n + 1 |
/// | `ℤ`, `+ℤ`, `-ℤ`, `*ℤ`, `int_div`, .. | the numbers with a sign, whose quotient is rounded towards 0; `pos n` is n, and `negsuc n` is -(n + 1) |
/// | `w8` .. `w128`, `bits w` | the widths of integers, and the number of bits of one |
/// | `cast_signed w n`, `cast_unsigned w z` | a number of w bits read with a sign, in two's complement, and without one |
/// | `int_wrap w z`, `FitsSigned w z` | z modulo 2 ^ w, as a number with a sign; z is in the range of those of a width |
/// | `clamp_signed w z`, `clamp_unsigned w z` | the number of the range of a width that is nearest to z |
/// | `bit_at n i`, `bit_and`, `bit_or`, `bit_xor` | bit i of n, where bit 0 is the lowest; the bits of two numbers |
/// | `count_ones n`, `leading_zeros w n`, `trailing_zeros w n` | how many bits are set, or aren't above and below those that are |
/// | `IsInRange a b n` | n is from a to b |
/// | `[]`, `x ∷ xs`, `xs ++ ys`, `"text"` | lists: the empty one, one that begins with x, one followed by another, the characters of a text |
/// | `take n xs`, `drop n xs`, `replicate n x` | the first n elements, all others, n times x |
/// | `slice_get xs i`, `slice_index_or xs i x` | element i, if there is one, or x; `slice_index xs i` is 0 past the end |
/// | `slice_set xs i x` | the list with x in place of element i |
/// | `All P xs`, `sum_by f xs`, `flat_map f xs`, `fold f x xs`, `zip xs ys` | P of each element, the sum and the lists of each f, f of each in turn, the pairs |
/// | `pointwise eq xs ys` | the lists are as long, and eq of each two elements |
/// | `number_l p digits`, `decimal n`, `digit_value c` | the number of digits of base p, the lowest first; the digits of a number; the value of a character as a digit, or 36 |
/// | `Some x`, `None`, `Ok x`, `Err e` | the values of `Option` and `Result` |
/// | `IsSome o`, `IsOk r`, `IsErr r`, `IsErrOf r e` | there is a value, or an error, or that error; `is_some`, `is_none` are Booleans |
/// | `IfSome o P`, `IfOk r P`, `IfErr r P` | P of the value or the error, if there is one; `IsSomeAnd`: there is one, and P of it |
/// | `OnOk r P`, `OnErr r P` | P, if r is a value, or an error |
/// | `SomeIff o P x`, `OkIff r P x` | if P, it is the value x; else there is none |
/// | `MatchOption o P Q`, `MatchResult r P Q` | P where there is no value, else Q of it; P of the value, or Q of the error |
/// | `option_map f o`, `option_and_then`, `unwrap_or o x` | as the methods of `Option` |
/// | `F.post f x y`, `C.FnOnce`, `F.IsAlwaysCallable f` | the closure, called on x, may return y; it may be called on all arguments |
/// | `P.into_iter_gives xs it`, `I.next_gives it x it'`, `I.can_next it` | what the functions of an iterator may give, and whether `next` may be called |
/// | `T.converts x y`, `T.try_from_gives x r`, `T.output x` | what `From` and `TryFrom` may give, and the bytes that `Display` prints |
/// | `W.contents w`, `Appends old new text`, `R.remaining r` | the bytes of a writer, what it has after a text, the bytes that a reader still has |
/// | `sem 𝓛 (Lends R T x r F)` | the result r borrows from x: what is written through r last, w, makes x the value F w; `LendsIf`: where r is a value |
/// | `T.row`, `the_row ..` | which loans a value of a type has in it, as `Lends` names them; no value depends on it |
/// | `vec_len v`, `vec_capacity v`, `non_zero_u8_get x` | the length and the capacity of a `Vec`, the number of a `NonZero` |
#[cfg(doc)]
#[path = "proved/specs.rs"]
pub mod specs;
mod table;
#[cfg(test)]
mod tests;
mod trap;
mod values;
pub mod wasm;

#[doc(alias = "gas")]
pub use crate::proved::meter::Fuel;
pub use crate::proved::meter::{
    CustomFuelCosts, FuelCosts, FuelCostsProvider, FuelError, LimiterError, MemoryError, TableError,
};
pub use crate::proved::raw::{F32, F64, RawRef, RawVal, V128};
pub use crate::proved::store::{ElementSegmentRef, MemoryType, MemoryTypeBuilder, TableType};
pub use crate::proved::typed::{
    Global, GlobalError, GlobalType, Mutability, ShiftAmount, Typed, TypedRawRef, TypedRawVal,
};
pub use crate::proved::types::{IndexType, RefType, TrapCode, ValType, hint};
pub use crate::proved::{budget as pool, region};
#[cfg(feature = "std")]
pub use crate::proved::{grammar, script};
pub use func_type::{FuncType, FuncTypeError};
#[doc(alias = "limiter")]
#[doc(alias = "limits")]
pub use limiter::ResourceLimiter;
pub use limiter::ResourceLimiterRef;
pub use memory::Memory;
pub use table::{ElementSegment, Table};
pub use trap::{HostError, Trap};
pub use values::{IntoShiftAmount, ReadAs, WriteAs};
