//! What a handle of C holds: in Rattle a pointer with proofs, here an optional box, which is a pointer too, null where there
//! is none. And what the crate beside this one has outside of its generated part, as far as that asks for it.

use crate::proved::meter::FuelCostsProvider;
use crate::proved::raw::{RawVal, V128};
use crate::rattle::Vec;
use core::fmt::{Debug, Formatter, Result};
use std::io;

macro_rules! without_contents {
    ($($name:ident)*) => { $(
        impl Debug for $name {
            fn fmt(&self, f: &mut Formatter<'_>) -> Result {
                f.write_str(stringify!($name))
            }
        }
    )* };
}

without_contents! { FuelCostsProvider RawVal V128 }

impl io::Write for Vec<u8> {
    fn write(&mut self, bytes: &[u8]) -> io::Result<usize> {
        match self.extend_from_slice(bytes) {
            Ok(()) => Ok(bytes.len()),
            Err(_) => Err(io::ErrorKind::OutOfMemory.into()),
        }
    }

    fn flush(&mut self) -> io::Result<()> {
        Ok(())
    }
}

pub mod held_box {
    //! A value on the heap, or none.

    /// A value on the heap, or none.
    pub struct HeldBox<T>(pub(super) Option<Box<T>>);

    impl<T> HeldBox<T> {
        pub fn empty() -> Self {
            Self(None)
        }

        pub fn from_box(boxed: Box<T>) -> Self {
            Self(Some(boxed))
        }

        /// The box, of which it is proved that it is there wherever this is called.
        pub fn into_box(self) -> Box<T> {
            self.0.expect("there is a value")
        }

        pub fn end(self) {}
    }
}

pub mod machine_box {
    //! A machine on the heap, or none, as C holds it.

    use super::held_box::HeldBox;
    use crate::generated::c::machine::limited_machine::LimitedMachine;

    /// A machine on the heap, or none: the first field of a handle.
    #[repr(transparent)]
    pub struct MachineBox(Option<Box<LimitedMachine>>);

    impl MachineBox {
        pub fn from_held(held: HeldBox<LimitedMachine>) -> Self {
            Self(held.0)
        }

        pub fn into_held(self) -> HeldBox<LimitedMachine> {
            HeldBox(self.0)
        }

        /// The machine, of which it is proved that it is there wherever this is called.
        pub fn machine_mut(&mut self) -> &mut LimitedMachine {
            self.0.as_deref_mut().expect("there is a machine")
        }
    }
}

pub mod pool_box {
    //! A pool on the heap, or none, as C holds it.

    use super::held_box::HeldBox;
    use crate::generated::c::pool::TenantPool;

    /// A pool on the heap, or none: the first field of a handle.
    #[repr(transparent)]
    pub struct PoolBox(Option<Box<TenantPool>>);

    impl PoolBox {
        pub fn from_held(held: HeldBox<TenantPool>) -> Self {
            Self(held.0)
        }

        pub fn into_held(self) -> HeldBox<TenantPool> {
            HeldBox(self.0)
        }

        /// The pool, of which it is proved that it is there wherever this is called.
        pub fn pool_mut(&mut self) -> &mut TenantPool {
            self.0.as_deref_mut().expect("there is a pool")
        }
    }
}
