//! Why a module isn't run, or a run ends early.

use crate::library::{HostError, Trap, TrapCode};
use crate::reader::Refusal;
use std::fmt;

/// Why a module isn't run, or why a call gives no results.
///
/// An error of a guest is asked for its [`TrapCode`]:
///
/// | Code | The guest stops because |
/// |---|---|
/// | [`TrapCode::UnreachableCodeReached`] | it has executed `unreachable`, as `abort` and `panic!` end in many languages |
/// | [`TrapCode::MemoryOutOfBounds`], [`TrapCode::TableOutOfBounds`] | an access goes beyond the end |
/// | [`TrapCode::IndirectCallToNull`], [`TrapCode::BadSignature`] | it calls a null element, or a function of another type |
/// | [`TrapCode::IntegerDivisionByZero`], [`TrapCode::IntegerOverflow`] | a division has no result |
/// | [`TrapCode::StackOverflow`] | its calls go deeper than the [`StackLimits`](crate::StackLimits) allow |
/// | [`TrapCode::OutOfFuel`] | the fuel that is left doesn't suffice for what comes next |
///
/// A host has some of them too: that of an access when it reads or writes what isn't there, and
/// [`TrapCode::GrowthOperationLimited`] and [`TrapCode::OutOfSystemMemory`] when a memory or a table can't be made or
/// grown, by itself or for a module that is instantiated.
///
/// An instruction that computes with floats stops a guest by a [`FloatInstruction`](crate::FloatInstruction), which
/// [`Error::downcast_ref`] finds.
///
/// # Examples
///
/// ```
/// use engine::{Error, TrapCode};
///
/// let is_out_of_fuel = |error: &Error| error.as_trap_code() == Some(TrapCode::OutOfFuel);
/// assert!(is_out_of_fuel(&Error::from(TrapCode::OutOfFuel)));
/// assert!(!is_out_of_fuel(&Error::new("a name isn't known")));
/// ```
#[derive(Debug)]
pub enum Error {
    /// The bytes are no module that this engine runs.
    Module(Refusal),
    /// An import is missing or has another type, or a name is defined twice.
    Link(String),
    /// There is no such export, or it has another type, or it takes other arguments; or fuel is set or asked for in an
    /// engine that consumes none.
    Misused(String),
    /// The guest stops: by a trap of WebAssembly, or by an error of the host.
    Trap(Trap),
}

impl Error {
    /// A trap with a message.
    pub fn new(message: impl Into<String>) -> Self {
        Self::Trap(Trap::new(message))
    }

    /// A trap that carries an error of the host, which [`Error::downcast_ref`] finds again.
    pub fn host(error: impl HostError) -> Self {
        Self::Trap(error.into())
    }

    /// A trap that ends the guest with an exit status.
    pub fn i32_exit(status: i32) -> Self {
        Self::Trap(Trap::i32_exit(status))
    }

    /// The code of the trap, if it is one of WebAssembly's.
    pub fn as_trap_code(&self) -> Option<TrapCode> {
        self.trap()?.trap_code()
    }

    /// The status, if the guest ended with one.
    pub fn i32_exit_status(&self) -> Option<i32> {
        self.trap()?.i32_exit_status()
    }

    /// The error of the host, if the trap carries one of this type.
    pub fn downcast_ref<E: HostError>(&self) -> Option<&E> {
        self.trap()?.downcast_ref()
    }

    fn trap(&self) -> Option<&Trap> {
        match self {
            Self::Trap(trap) => Some(trap),
            _ => None,
        }
    }

    pub(crate) fn misused(what: impl Into<String>) -> Self {
        Self::Misused(what.into())
    }
}

impl From<Refusal> for Error {
    fn from(refusal: Refusal) -> Self {
        Self::Module(refusal)
    }
}

impl<T: Into<Trap>> From<T> for Error {
    fn from(trap: T) -> Self {
        Self::Trap(trap.into())
    }
}

impl fmt::Display for Error {
    fn fmt(&self, f: &mut fmt::Formatter<'_>) -> fmt::Result {
        match self {
            Self::Module(refusal) => refusal.fmt(f),
            Self::Link(what) | Self::Misused(what) => f.write_str(what),
            Self::Trap(trap) => trap.fmt(f),
        }
    }
}

impl std::error::Error for Error {}
