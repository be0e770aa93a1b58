//! Traps with an error of the host of any type.

use crate::TrapCode;
use crate::proved::types::{HostError as Plain, Trap as Proved};
use alloc::boxed::Box;
use alloc::string::String;
use core::any::Any;
use core::fmt::{Debug, Display};

/// An error of the host, which a [`Trap`] can carry and give back by its type.
///
/// Each of the methods of `dyn HostError` compares types as Rust's [`Any`] does.
pub trait HostError: 'static + Display + Debug + Any + Send + Sync {}

impl dyn HostError {
    /// Whether it is a `T`.
    pub fn is<T: HostError>(&self) -> bool {
        (self as &dyn Any).is::<T>()
    }

    /// The `T`, if it is one.
    #[must_use]
    #[inline]
    pub fn downcast_ref<T: HostError>(&self) -> Option<&T> {
        (self as &dyn Any).downcast_ref()
    }

    /// The `T`, if it is one, to be changed.
    #[inline]
    pub fn downcast_mut<T: HostError>(&mut self) -> Option<&mut T> {
        (self as &mut dyn Any).downcast_mut()
    }

    /// The `T`, if it is one.
    ///
    /// # Errors
    ///
    /// The error itself, if it isn't a `T`.
    #[inline]
    pub fn downcast<T: HostError>(self: Box<Self>) -> Result<Box<T>, Box<Self>> {
        if !self.is::<T>() {
            return Err(self);
        }
        match (self as Box<dyn Any>).downcast() {
            Ok(error) => Ok(error),
            Err(_) => unreachable!(),
        }
    }
}

/// The error in a trap.
struct Host(Box<dyn HostError>);

impl Plain for Host {}

/// Why a call of WebAssembly code or of the host ended early: a [`TrapCode`], an exit with a status, a
/// message, or a [`HostError`].
///
#[doc = examples!(root Trap)]
#[doc = docs!(types Trap.contract)]
pub struct Trap(Box<Proved<Host>>);

impl Trap {
    #[doc = docs!(types Trap.new)]
    #[cold]
    pub fn new<T>(message: T) -> Self
    where
        T: Into<String>,
    {
        Self(Box::new(Proved::new(message.into())))
    }

    /// The error of the host, if this carries one and it is a `T`.
    ///
    /// The contract is of an error of any type; the comparison of types is Rust's [`Any`].
    ///
    #[doc = docs!(types Trap.downcast_ref.contract)]
    #[must_use]
    #[inline]
    pub fn downcast_ref<T>(&self) -> Option<&T>
    where
        T: HostError,
    {
        self.0
            .downcast_ref()
            .and_then(|error| error.0.downcast_ref())
    }

    /// The error of the host to be changed, if this carries one and it is a `T`.
    ///
    /// The contract is of an error of any type; the comparison of types is Rust's [`Any`].
    ///
    #[doc = docs!(types Trap.downcast_mut.contract)]
    #[inline]
    pub fn downcast_mut<T>(&mut self) -> Option<&mut T>
    where
        T: HostError,
    {
        self.0
            .downcast_mut()
            .and_then(|error| error.0.downcast_mut())
    }

    /// The error of the host, if this carries one and it is a `T`. Else the trap is dropped.
    ///
    /// The contract is of an error of any type; the comparison of types is Rust's [`Any`].
    ///
    #[doc = docs!(types Trap.downcast.contract)]
    #[must_use]
    #[inline]
    pub fn downcast<T>(self) -> Option<T>
    where
        T: HostError,
    {
        self.0
            .downcast()
            .and_then(|error| error.0.downcast().ok())
            .map(|error| *error)
    }

    #[doc = docs!(types Trap.i32_exit)]
    #[must_use]
    #[cold]
    pub fn i32_exit(status: i32) -> Self {
        Self(Box::new(Proved::i32_exit(status)))
    }

    methods!(types Trap: i32_exit_status trap_code);
}

impl From<TrapCode> for Trap {
    #[cold]
    fn from(code: TrapCode) -> Self {
        Self(Box::new(code.into()))
    }
}

impl<E> From<E> for Trap
where
    E: HostError,
{
    #[inline]
    #[cold]
    fn from(error: E) -> Self {
        Self(Box::new(Host(Box::new(error)).into()))
    }
}

shown! {
    Debug for Host: |it| it.0;
    Display for Host: |it| it.0;
    Debug for Trap: |it| it.0;
    Display for Trap: |it| it.0;
}

#[cfg(feature = "std")]
impl core::error::Error for Trap {
    fn description(&self) -> &str {
        self.trap_code().map_or("", |code| code.trap_message())
    }
}
