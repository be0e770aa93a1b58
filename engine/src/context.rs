//! What gives access to a store: the store itself, and in a function of the host its [`Caller`](crate::Caller).

use crate::engine::Engine;
use crate::error::Error;
use crate::store::Store;
use std::fmt;

/// A store that is borrowed.
#[derive(Clone, Copy)]
pub struct StoreContext<'a, T> {
    pub(crate) store: &'a Store<T>,
}

/// A store that is borrowed to be changed.
pub struct StoreContextMut<'a, T> {
    pub(crate) store: &'a mut Store<T>,
}

/// What a store can be read by: a [`Store`], in a function of the host its [`Caller`](crate::Caller), a [`StoreContext`] or
/// a [`StoreContextMut`], and a reference to one of these.
pub trait AsContext {
    /// The host's data in the store.
    type Data;

    /// The store.
    fn as_context(&self) -> StoreContext<'_, Self::Data>;
}

/// What a store can be changed by: a [`Store`], in a function of the host its [`Caller`](crate::Caller), and a
/// [`StoreContextMut`], also by a reference to one of these that is `&mut`.
pub trait AsContextMut: AsContext {
    /// The store.
    fn as_context_mut(&mut self) -> StoreContextMut<'_, Self::Data>;
}

impl<'a, T> StoreContext<'a, T> {
    /// The data of the host.
    pub fn data(&self) -> &'a T {
        &self.store.data
    }

    /// The engine.
    pub fn engine(&self) -> &'a Engine {
        &self.store.inner.engine
    }

    /// The fuel that is left, as [`Store::get_fuel`] says.
    pub fn get_fuel(&self) -> Result<u64, Error> {
        self.store.inner.fuel.get_fuel().map_err(|it| Error::misused(it.to_string()))
    }
}

impl<T> StoreContextMut<'_, T> {
    /// The data of the host.
    pub fn data(&self) -> &T {
        &self.store.data
    }

    /// The data of the host, to be changed.
    pub fn data_mut(&mut self) -> &mut T {
        &mut self.store.data
    }

    /// The fuel that is left, as [`Store::get_fuel`] says.
    pub fn get_fuel(&self) -> Result<u64, Error> {
        self.as_context().get_fuel()
    }

    /// Sets the fuel that is left.
    pub fn set_fuel(&mut self, fuel: u64) -> Result<(), Error> {
        self.store.inner.fuel.set_fuel(fuel).map_err(|it| Error::misused(it.to_string()))
    }

    /// Takes fuel as [`Caller::charge_bytes`](crate::Caller::charge_bytes) does.
    ///
    /// # Errors
    ///
    /// [`TrapCode::OutOfFuel`](crate::TrapCode::OutOfFuel), and nothing is taken.
    pub fn charge_bytes(&mut self, bytes: u64) -> Result<(), Error> {
        Ok(self.store.inner.charge(bytes)?)
    }
}

impl<T> fmt::Debug for StoreContext<'_, T> {
    fn fmt(&self, f: &mut fmt::Formatter<'_>) -> fmt::Result {
        write!(f, "StoreContext({:?})", self.store)
    }
}

impl<T> fmt::Debug for StoreContextMut<'_, T> {
    fn fmt(&self, f: &mut fmt::Formatter<'_>) -> fmt::Result {
        write!(f, "StoreContextMut({:?})", self.store)
    }
}

impl<T> AsContext for Store<T> {
    type Data = T;

    fn as_context(&self) -> StoreContext<'_, T> {
        StoreContext { store: self }
    }
}

impl<T> AsContextMut for Store<T> {
    fn as_context_mut(&mut self) -> StoreContextMut<'_, T> {
        StoreContextMut { store: self }
    }
}

impl<T> AsContext for StoreContext<'_, T> {
    type Data = T;

    fn as_context(&self) -> StoreContext<'_, T> {
        StoreContext { store: self.store }
    }
}

impl<T> AsContext for StoreContextMut<'_, T> {
    type Data = T;

    fn as_context(&self) -> StoreContext<'_, T> {
        StoreContext { store: self.store }
    }
}

impl<T> AsContextMut for StoreContextMut<'_, T> {
    fn as_context_mut(&mut self) -> StoreContextMut<'_, T> {
        StoreContextMut { store: self.store }
    }
}

impl<C: AsContext> AsContext for &C {
    type Data = C::Data;

    fn as_context(&self) -> StoreContext<'_, C::Data> {
        C::as_context(self)
    }
}

impl<C: AsContext> AsContext for &mut C {
    type Data = C::Data;

    fn as_context(&self) -> StoreContext<'_, C::Data> {
        C::as_context(self)
    }
}

impl<C: AsContextMut> AsContextMut for &mut C {
    fn as_context_mut(&mut self) -> StoreContextMut<'_, C::Data> {
        C::as_context_mut(self)
    }
}

impl<'a, C: AsContext> From<&'a C> for StoreContext<'a, C::Data> {
    fn from(context: &'a C) -> Self {
        context.as_context()
    }
}

impl<'a, C: AsContext> From<&'a mut C> for StoreContext<'a, C::Data> {
    fn from(context: &'a mut C) -> Self {
        C::as_context(context)
    }
}

impl<'a, C: AsContextMut> From<&'a mut C> for StoreContextMut<'a, C::Data> {
    fn from(context: &'a mut C) -> Self {
        context.as_context_mut()
    }
}
