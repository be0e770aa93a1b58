//! What only tests use: texts whose memory can be refused.

use crate::rattle::alloc::AllocError;
use std::string::String;

pub trait TextExt {
    fn try_of(text: &str) -> Result<String, AllocError>;
}

impl TextExt for String {
    fn try_of(text: &str) -> Result<String, AllocError> {
        Ok(String::from(text))
    }
}

pub trait StrExt {
    fn try_repeat(&self, times: usize) -> Result<String, AllocError>;
}

impl StrExt for str {
    fn try_repeat(&self, times: usize) -> Result<String, AllocError> {
        Ok(self.repeat(times))
    }
}

/// The text of some arguments.
pub fn text(arguments: core::fmt::Arguments<'_>) -> Result<String, AllocError> {
    Ok(std::fmt::format(arguments))
}
