//! What the functions of the host work on: the standard streams, and what a program has of the system.

use crate::wasi::{Given, Wasi};
use engine::library::HostError;
use std::fmt;
use std::io::{self, Read, Write};

/// The data of the host.
pub struct Host {
    pub input: Box<dyn Read + Send>,
    pub output: Box<dyn Write + Send>,
    pub errors: Box<dyn Write + Send>,
    pub wasi: Wasi,
}

impl Host {
    /// A host with the standard streams of this process.
    pub fn new(given: Given) -> Self {
        let (input, output, errors) = (io::stdin(), io::stdout(), io::stderr());
        Self { input: Box::new(input), output: Box::new(output), errors: Box::new(errors), wasi: Wasi::new(given) }
    }
}

/// Why a guest stops that prints where nothing can be written.
#[derive(Debug)]
pub struct Unwritten(pub io::Error);

impl fmt::Display for Unwritten {
    fn fmt(&self, f: &mut fmt::Formatter<'_>) -> fmt::Result {
        write!(f, "the output can't be written: {}", self.0)
    }
}

impl HostError for Unwritten {}
