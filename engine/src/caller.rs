//! What a function of the host knows of the guest that calls it.

use crate::context::{AsContext, AsContextMut, StoreContext, StoreContextMut};
use crate::error::Error;
use crate::func::Func;
use crate::instance::Instance;
use crate::items::{Extern, Memory};
use crate::store::Store;
use std::fmt;

/// The instance that calls a function of the host, and the store.
pub struct Caller<'a, T> {
    pub(crate) store: &'a mut Store<T>,
    pub(crate) instance: u32,
}

impl<T> Caller<'_, T> {
    /// The data of the host.
    pub fn data(&self) -> &T {
        &self.store.data
    }

    /// The data of the host, to be changed.
    pub fn data_mut(&mut self) -> &mut T {
        &mut self.store.data
    }

    /// The instance that calls.
    pub fn instance(&self) -> Instance {
        let entity = &self.store.inner.instances[self.instance];
        Instance { owner: entity.owner.upgrade().expect("an instance that calls is kept") }
    }

    /// An export of the instance that calls.
    pub fn get_export(&self, name: &str) -> Option<Extern> {
        self.instance().get_export(self, name)
    }

    /// A memory that the calling instance exports.
    pub fn get_memory(&self, name: &str) -> Option<Memory> {
        self.get_export(name)?.into_memory()
    }

    /// A function that the calling instance exports.
    pub fn get_func(&self, name: &str) -> Option<Func> {
        self.get_export(name)?.into_func()
    }

    /// The fuel that is left, as [`Store::get_fuel`] says.
    pub fn get_fuel(&self) -> Result<u64, Error> {
        self.as_context().get_fuel()
    }

    /// Sets the fuel that is left.
    pub fn set_fuel(&mut self, fuel: u64) -> Result<(), Error> {
        self.as_context_mut().set_fuel(fuel)
    }

    /// Takes the fuel that `memory.copy` takes for so many bytes ([what costs fuel](crate::Config::consume_fuel)). A
    /// function of the host should do so before it works through bytes of a guest. Without a meter nothing is taken.
    ///
    /// # Errors
    ///
    /// [`TrapCode::OutOfFuel`](crate::TrapCode::OutOfFuel), and nothing is taken. A function of the host that returns
    /// this error ends the call, which can't go on then, even if it began by
    /// [`call_resumable`](crate::TypedFunc::call_resumable).
    pub fn charge_bytes(&mut self, bytes: u64) -> Result<(), Error> {
        self.as_context_mut().charge_bytes(bytes)
    }
}

impl<T> fmt::Debug for Caller<'_, T> {
    fn fmt(&self, f: &mut fmt::Formatter<'_>) -> fmt::Result {
        f.debug_struct("Caller").field("instance", &self.instance).finish_non_exhaustive()
    }
}

impl<T> AsContext for Caller<'_, T> {
    type Data = T;

    fn as_context(&self) -> StoreContext<'_, T> {
        StoreContext { store: self.store }
    }
}

impl<T> AsContextMut for Caller<'_, T> {
    fn as_context_mut(&mut self) -> StoreContextMut<'_, T> {
        StoreContextMut { store: self.store }
    }
}
