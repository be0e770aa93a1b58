//! Handles of memories, tables and globals, and of anything that is exported.

use crate::context::{AsContext, AsContextMut, StoreContext, StoreContextMut};
use crate::error::Error;
use crate::func::Func;
use crate::handle::{Kept, Owner};
use crate::library::{self, GlobalType, MemoryType, TableType, TrapCode, TypedRawRef};
use crate::values::Val;
use std::sync::Arc;

/// What an instance exports or imports.
#[derive(Clone, Debug)]
pub enum Extern {
    /// A function.
    Func(Func),
    /// A memory.
    Memory(Memory),
    /// A table.
    Table(Table),
    /// A global.
    Global(Global),
}

/// A memory of a store.
///
/// A handle of a memory, of another item or of an instance can be cloned, and isn't `Copy`: an instance is freed when
/// its last handle is dropped ([`Instance`](crate::Instance)).
#[derive(Clone, Debug)]
pub struct Memory {
    pub(crate) owner: Arc<Owner>,
    pub(crate) number: u32,
}

/// A table of a store.
#[derive(Clone, Debug)]
pub struct Table {
    pub(crate) owner: Arc<Owner>,
    pub(crate) number: u32,
}

/// A global of a store.
#[derive(Clone, Debug)]
pub struct Global {
    pub(crate) owner: Arc<Owner>,
    pub(crate) number: u32,
}

macro_rules! kinds {
    ($($name:ident $item:ident;)*) => {
        impl Extern {
            $(#[doc = concat!("The ", stringify!($name), ", if it is one.")]
            pub fn $name(self) -> Option<$item> {
                match self {
                    Self::$item(it) => Some(it),
                    _ => None,
                }
            })*
        }

        $(impl From<$item> for Extern {
            fn from(item: $item) -> Self {
                Self::$item(item)
            }
        })*
    };
}
kinds! {
    into_func Func;
    into_memory Memory;
    into_table Table;
    into_global Global;
}

impl Memory {
    /// Makes a memory of the host.
    ///
    /// # Errors
    ///
    /// [`TrapCode::GrowthOperationLimited`] if the store's [caps](crate::Caps) don't allow it,
    /// [`TrapCode::OutOfSystemMemory`] if the system doesn't.
    ///
    /// # Examples
    ///
    /// ```
    /// use engine::{Engine, Memory, MemoryType, Store};
    ///
    /// let mut store = Store::new(&Engine::default(), ());
    /// // Of one page, and of at most three.
    /// let mut ty = MemoryType::builder();
    /// ty.min(1).max(Some(3));
    /// let memory = Memory::new(&mut store, ty.build()?)?;
    /// memory.write(&mut store, 0, b"bytes")?;
    /// assert_eq!(memory.grow(&mut store, 2)?, 1);
    /// # Ok::<(), Box<dyn std::error::Error>>(())
    /// ```
    pub fn new(mut context: impl AsContextMut, ty: MemoryType) -> Result<Memory, Error> {
        let store = context.as_context_mut().store;
        store.collect();
        let memory = library::Memory::new(ty, &mut store.inner.limiter.lent()).map_err(crate::execute::of_memory)?;
        let number = store.inner.items.memories.insert(memory);
        Ok(Memory { owner: store.inner.owner(Kept::Memory(number)), number })
    }

    /// Its type, of which the least size is the present one.
    pub fn ty(&self, context: impl AsContext) -> MemoryType {
        self.get(&context.as_context()).dynamic_ty()
    }

    /// Its size in pages.
    pub fn size(&self, context: impl AsContext) -> u64 {
        self.get(&context.as_context()).size()
    }

    /// Grows it by so many pages, and says how many it had. No fuel is taken.
    ///
    /// # Errors
    ///
    /// [`TrapCode::GrowthOperationLimited`] if its type or the store's [caps](crate::Caps) don't allow it,
    /// [`TrapCode::OutOfSystemMemory`] if the system doesn't.
    pub fn grow(&self, mut context: impl AsContextMut, pages: u64) -> Result<u64, Error> {
        let store = context.as_context_mut().store;
        store.collect();
        store.inner.check(&self.owner);
        let memory = &mut store.inner.items.memories[self.number];
        Ok(memory.grow(pages, None, &mut store.inner.limiter.lent()).map_err(crate::execute::of_memory)?)
    }

    /// Its bytes.
    pub fn data<'a, T: 'a>(&self, context: impl Into<StoreContext<'a, T>>) -> &'a [u8] {
        self.get(&context.into()).data()
    }

    /// Its bytes, to be changed.
    pub fn data_mut<'a, T: 'a>(&self, context: impl Into<StoreContextMut<'a, T>>) -> &'a mut [u8] {
        self.data_and_store_mut(context).0
    }

    /// Its bytes, and the data of the host.
    pub fn data_and_store_mut<'a, T: 'a>(
        &self,
        context: impl Into<StoreContextMut<'a, T>>,
    ) -> (&'a mut [u8], &'a mut T) {
        let store = context.into().store;
        store.inner.check(&self.owner);
        (store.inner.items.memories[self.number].data_mut(), &mut store.data)
    }

    /// Copies bytes from an offset on.
    ///
    /// # Errors
    ///
    /// The trap of an access out of bounds, if they aren't all there.
    pub fn read(&self, context: impl AsContext, offset: usize, buffer: &mut [u8]) -> Result<(), Error> {
        let read = self.get(&context.as_context()).read(offset, buffer);
        Ok(read.map_err(|_| TrapCode::MemoryOutOfBounds)?)
    }

    /// Copies bytes to an offset.
    ///
    /// # Errors
    ///
    /// The trap of an access out of bounds, if there isn't room for all. Then nothing is written.
    pub fn write(&self, mut context: impl AsContextMut, offset: usize, bytes: &[u8]) -> Result<(), Error> {
        let store = context.as_context_mut().store;
        store.inner.check(&self.owner);
        let written = store.inner.items.memories[self.number].write(offset, bytes);
        Ok(written.map_err(|_| TrapCode::MemoryOutOfBounds)?)
    }

    fn get<'a, T>(&self, context: &StoreContext<'a, T>) -> &'a library::Memory {
        context.store.inner.check(&self.owner);
        &context.store.inner.items.memories[self.number]
    }
}

impl Table {
    /// Makes a table of the host, of elements like this one.
    ///
    /// # Errors
    ///
    /// If the element is of another type, and for the reasons of [`Memory::new`].
    pub fn new(mut context: impl AsContextMut, ty: TableType, init: Val) -> Result<Table, Error> {
        let store = context.as_context_mut().store;
        store.collect();
        let init = element(ty, init)?;
        let table = library::Table::new(ty, init, &mut store.inner.limiter.lent()).map_err(crate::execute::of_table)?;
        let number = store.inner.items.tables.insert(table);
        Ok(Table { owner: store.inner.owner(Kept::Table(number)), number })
    }

    /// Its type, of which the least size is the present one.
    pub fn ty(&self, context: impl AsContext) -> TableType {
        self.get_table(&context.as_context()).dynamic_ty()
    }

    /// How many elements it has.
    pub fn size(&self, context: impl AsContext) -> u64 {
        self.get_table(&context.as_context()).size()
    }

    /// An element.
    pub fn get(&self, mut context: impl AsContextMut, index: u64) -> Option<Val> {
        let store = context.as_context_mut().store;
        if matches!(self.owner.kept, Kept::Instance(_)) {
            store.inner.pin(&self.owner);
        }
        let element = self.get_table(&store.as_context()).get(index)?;
        Some(Val::new(element.ty().into(), element.raw().into()))
    }

    /// Sets an element.
    ///
    /// # Errors
    ///
    /// If there is no such element, and if the value isn't of its type.
    pub fn set(&self, mut context: impl AsContextMut, index: u64, value: Val) -> Result<(), Error> {
        let store = context.as_context_mut().store;
        store.inner.check(&self.owner);
        let table = &mut store.inner.items.tables[self.number];
        let value = element(table.ty(), value)?;
        Ok(table.set(index, value).map_err(|_| TrapCode::TableOutOfBounds)?)
    }

    /// Grows it by so many elements like this one, and says how many it had. No fuel is taken.
    ///
    /// # Errors
    ///
    /// If the element is of another type, and for the reasons of [`Memory::grow`].
    pub fn grow(&self, mut context: impl AsContextMut, count: u64, init: Val) -> Result<u64, Error> {
        let store = context.as_context_mut().store;
        store.collect();
        store.inner.check(&self.owner);
        let table = &mut store.inner.items.tables[self.number];
        let init = element(table.ty(), init)?;
        Ok(table.grow(count, init, None, &mut store.inner.limiter.lent()).map_err(crate::execute::of_table)?)
    }

    fn get_table<'a, T>(&self, context: &StoreContext<'a, T>) -> &'a library::Table {
        context.store.inner.check(&self.owner);
        &context.store.inner.items.tables[self.number]
    }
}

/// A value as an element of a table of this type.
fn element(ty: TableType, value: Val) -> Result<TypedRawRef, Error> {
    if value.ty() != ty.element().into() {
        return Err(Error::misused("an element isn't of the table's type"));
    }
    Ok(TypedRawRef::from(value))
}

impl Global {
    /// Makes a global of the host.
    ///
    /// # Errors
    ///
    /// If the value isn't of its type.
    pub fn new(mut context: impl AsContextMut, ty: GlobalType, value: Val) -> Result<Global, Error> {
        let store = context.as_context_mut().store;
        store.collect();
        if value.ty() != ty.content() {
            return Err(Error::misused("a value isn't of the global's type"));
        }
        let global = library::Global::new(crate::values::canonical(value), ty);
        let number = store.inner.items.globals.insert(global);
        Ok(Global { owner: store.inner.owner(Kept::Global(number)), number })
    }

    /// Its type.
    pub fn ty(&self, context: impl AsContext) -> GlobalType {
        let context = context.as_context();
        context.store.inner.check(&self.owner);
        context.store.inner.items.globals[self.number].ty()
    }

    /// Its value.
    pub fn get(&self, context: impl AsContext) -> Val {
        let context = context.as_context();
        context.store.inner.check(&self.owner);
        context.store.inner.items.globals[self.number].get()
    }

    /// Sets its value.
    ///
    /// # Errors
    ///
    /// If it is constant, and if the value isn't of its type.
    pub fn set(&self, mut context: impl AsContextMut, value: Val) -> Result<(), Error> {
        let store = context.as_context_mut().store;
        store.inner.check(&self.owner);
        let value = Val::new(value.ty(), crate::values::canonical(value));
        store.inner.items.globals[self.number].set(value).map_err(|it| Error::misused(it.to_string()))
    }
}
