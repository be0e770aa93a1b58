//! The instructions as values: a variant for each function of a shape, what it gives, and its name.
//!
//! The variants of a type stand in the order of its list, which has their names. Own: upstream has
//! no instructions as values.

pub use crate::proved::{ops::*, scalar_ops::*};
