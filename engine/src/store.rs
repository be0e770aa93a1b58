//! Stores: fuel, caps, data of the host, and all instances that may import from each other. WebAssembly core
//! specification, 4.2.

use crate::call::Callee;
use crate::context::{StoreContext, StoreContextMut};
use crate::engine::Engine;
use crate::error::Error;
use crate::handle::{Dropped, Kept, Owner};
use crate::library::{
    ElementSegment, Fuel, FuelCostsProvider, Global, LimiterError, Memory, MemoryError, ResourceLimiter,
    ResourceLimiterRef, Table, TableError, TrapCode,
};
use crate::limits;
use crate::module::Module;
use crate::profile::Recorder;
use crate::references::References;
use crate::stack::{Stack, StackLimits};
use crate::trace::Trace;
use std::ops::{Index, IndexMut};
use std::sync::{Arc, Weak};
use std::{fmt, mem};

/// Two caps, on the bytes of all memories and on the elements of all tables of a store: what is left of each.
///
/// A memory or a table takes of them what it has when it is made, and what it grows by. A module's are made when it is
/// instantiated, so caps are set before ([`Store::set_caps`]). A page of a memory has 65,536 bytes, unless its type
/// says otherwise, and a module that clang has made has a table of one element.
///
/// What would exceed a cap isn't made: `memory.grow` and `table.grow` give -1 to a guest, and the host and an
/// instantiation get the error [`TrapCode::GrowthOperationLimited`].
///
/// # Examples
///
/// ```
/// use engine::{Caps, Engine, Linker, Module, Store, TrapCode};
///
/// const PAGE: usize = 65_536;
/// let engine = Engine::default();
/// # let wasm = engine::guests::PLAIN;
/// let module = Module::new(&engine, wasm)?;
/// let mut store = Store::new(&engine, ());
/// store.set_caps(Caps { bytes: 2 * PAGE, ..Caps::default() });
/// // The module has a memory of one page.
/// let instance = Linker::new(&engine).instantiate(&mut store, &module)?;
/// assert_eq!(store.caps().bytes, PAGE);
/// let memory = instance.get_memory(&store, "memory").unwrap();
/// memory.grow(&mut store, 1)?;
/// let refused = memory.grow(&mut store, 1).unwrap_err();
/// assert_eq!(refused.as_trap_code(), Some(TrapCode::GrowthOperationLimited));
/// # Ok::<(), engine::Error>(())
/// ```
#[doc(alias = "StoreLimits")]
#[doc(alias = "ResourceLimiter")]
#[doc(alias = "limiter")]
#[derive(Clone, Copy, Debug, PartialEq, Eq)]
pub struct Caps {
    /// How many bytes memories may still take.
    pub bytes: usize,
    /// How many elements tables may still take.
    pub elements: usize,
}

impl Default for Caps {
    /// 1 GiB, and 10,000,000 elements.
    fn default() -> Self {
        Self { bytes: 1 << 30, elements: 10_000_000 }
    }
}

/// The caps of a store, as the library asks for them. What it is allowed can still fail, by the maximum of a table, by
/// fuel or by the system; then it doesn't count.
#[derive(Default)]
pub(crate) struct Limiter {
    pub caps: Caps,
    /// What was taken last.
    taken: usize,
}

impl Limiter {
    pub fn lent(&mut self) -> ResourceLimiterRef<'_> {
        (self as &mut dyn ResourceLimiter).into()
    }
}

/// Takes this much, if it is left, and notes how much was taken.
fn take(left: &mut usize, taken: &mut usize, added: usize) -> bool {
    let rest = left.checked_sub(added);
    *taken = rest.map_or(0, |_| added);
    rest.map(|rest| *left = rest).is_some()
}

/// Adds to what is left. A cap may have been set to all that there is meanwhile.
fn give(left: &mut usize, freed: usize) {
    *left = left.saturating_add(freed);
}

#[rustfmt::skip]
impl ResourceLimiter for Limiter {
    fn memory_growing(&mut self, from: usize, to: usize, _most: Option<usize>) -> Result<bool, LimiterError> {
        Ok(take(&mut self.caps.bytes, &mut self.taken, to - from))
    }
    fn table_growing(&mut self, from: usize, to: usize, _most: Option<usize>) -> Result<bool, LimiterError> {
        Ok(take(&mut self.caps.elements, &mut self.taken, to - from))
    }
    fn memory_grow_failed(&mut self, _error: &MemoryError) -> Result<(), LimiterError> {
        give(&mut self.caps.bytes, mem::take(&mut self.taken));
        Ok(())
    }
    fn table_grow_failed(&mut self, _error: &TableError) -> Result<(), LimiterError> {
        give(&mut self.caps.elements, mem::take(&mut self.taken));
        Ok(())
    }
    fn instances(&self) -> usize { usize::MAX }
    fn tables(&self) -> usize { limits::TABLES }
    fn memories(&self) -> usize { limits::MEMORIES }
}

/// What a tenant has: fuel, caps, its instances with their memories and tables, and data of the host.
///
/// A tenant is one of those whose modules a host runs, such as a customer, a user or a plugin. A store stays usable
/// after a call that has ended by an error.
///
/// What one instance imports from another one, or is given of it, is of one store. The handles of a store's items
/// ([`Instance`](crate::Instance), [`Memory`](crate::Memory), [`Func`](crate::Func) ..) go with that store, and their
/// methods panic with another one. A thread has a store of its own; stores may share an [`Engine`].
pub struct Store<T> {
    pub(crate) inner: Inner,
    /// What each instance imports as functions.
    pub(crate) callees: Vec<Arc<[Callee<T>]>>,
    pub(crate) data: T,
}

/// What of a store doesn't depend on the type of the host's data.
pub(crate) struct Inner {
    pub engine: Engine,
    pub fuel: Fuel,
    pub limiter: Limiter,
    pub instances: Arena<Entity>,
    pub items: Items,
    pub references: References,
    pub stack_limits: StackLimits,
    /// The stack, while a call runs.
    pub stack: Option<Stack>,
    /// The first value above those of the open calls.
    pub top: usize,
    /// How many calls of the host are open, each in a function of the host that the one before has called.
    pub nested: usize,
    pub trace: Trace,
    pub recorder: Recorder,
    pub dropped: Arc<Dropped>,
    /// The instances that are needed as long as the store is.
    pub pinned: Vec<Arc<Owner>>,
}

/// The memories, tables and globals of a store.
#[derive(Default)]
pub(crate) struct Items {
    pub memories: Arena<Memory>,
    pub tables: Arena<Table>,
    pub globals: Arena<Global>,
}

/// An instance: its module, and the numbers of its items in the store, those that are imported first.
pub(crate) struct Entity {
    pub module: Arc<Module>,
    pub memories: Vec<u32>,
    pub tables: Vec<u32>,
    pub globals: Vec<u32>,
    pub elements: Vec<ElementSegment>,
    pub is_dropped: Vec<bool>,
    /// The reference of its first function.
    pub first: u32,
    /// The number of its module in the store's recorder.
    pub recorded: usize,
    pub owner: Weak<Owner>,
    /// What it imports from.
    pub providers: Vec<Arc<Owner>>,
}

impl<T> Store<T> {
    /// A store with data of the host. It has no fuel yet ([`Store::set_fuel`]), and the caps of [`Caps::default`].
    pub fn new(engine: &Engine, data: T) -> Store<T> {
        let inner = Inner {
            engine: engine.clone(),
            fuel: Fuel::new(engine.is_metered(), FuelCostsProvider::default()),
            limiter: Limiter::default(),
            instances: Arena::default(),
            items: Items::default(),
            references: References::default(),
            stack_limits: StackLimits::default(),
            stack: None,
            top: 0,
            nested: 0,
            trace: Trace::default(),
            recorder: Recorder::default(),
            dropped: Arc::default(),
            pinned: vec![],
        };
        Store { inner, callees: vec![], data }
    }

    /// The engine.
    pub fn engine(&self) -> &Engine {
        &self.inner.engine
    }

    /// The data of the host.
    pub fn data(&self) -> &T {
        &self.data
    }

    /// The data of the host, to be changed.
    pub fn data_mut(&mut self) -> &mut T {
        &mut self.data
    }

    /// The data of the host. All instances are dropped.
    pub fn into_data(self) -> T {
        self.data
    }

    /// The fuel that is left. A store has none at first.
    ///
    /// What a call has used is what was left before it, less what is left after it. A call that has ended out of fuel
    /// leaves what didn't suffice for the next piece of code, which needn't be 0.
    ///
    /// # Errors
    ///
    /// If the engine doesn't [consume fuel](crate::Config::consume_fuel).
    ///
    /// # Examples
    ///
    /// ```
    /// # use engine::{Config, Engine, Linker, Module, Store};
    /// # let engine = Engine::new(Config::default().consume_fuel(true));
    /// # let module = Module::new(&engine, engine::guests::PLAIN)?;
    /// # let mut store = Store::new(&engine, ());
    /// # let instance = Linker::new(&engine).instantiate(&mut store, &module)?;
    /// let sum = instance.get_typed_func::<i32, i32>(&store, "sum")?;
    /// store.set_fuel(1000)?;
    /// sum.call(&mut store, 4)?;
    /// let used = 1000 - store.get_fuel()?;
    /// assert!(used > 0);
    /// # Ok::<(), engine::Error>(())
    /// ```
    #[doc(alias = "fuel_consumed")]
    pub fn get_fuel(&self) -> Result<u64, Error> {
        StoreContext::from(self).get_fuel()
    }

    /// Sets the fuel that is left.
    ///
    /// # Errors
    ///
    /// If the engine doesn't [consume fuel](crate::Config::consume_fuel).
    pub fn set_fuel(&mut self, fuel: u64) -> Result<(), Error> {
        StoreContextMut::from(self).set_fuel(fuel)
    }

    /// What memories and tables may still take. What was dropped is freed first, for which the store is borrowed to be
    /// changed.
    pub fn caps(&mut self) -> Caps {
        self.collect();
        self.inner.limiter.caps
    }

    /// Sets what memories and tables may take from now on. What they have already doesn't count.
    #[doc(alias = "limiter")]
    pub fn set_caps(&mut self, caps: Caps) {
        self.collect();
        self.inner.limiter.caps = caps;
    }

    /// Limits the stack of the calls that begin from now on. It has no more than [`StackLimits::default`].
    pub fn set_stack_limits(&mut self, limits: StackLimits) {
        self.inner.stack_limits = limits;
    }

    /// Frees what nobody needs any more, and gives back what it took of the caps.
    pub(crate) fn collect(&mut self) {
        while let Some(kept) = self.inner.dropped.next() {
            match kept {
                Kept::Instance(number) => self.release(number),
                _ => self.inner.free(kept),
            }
        }
    }

    fn release(&mut self, number: u32) {
        let Some(entity) = self.inner.instances.remove(number) else { return };
        let Entity { module, memories, tables, globals, first, providers, .. } = entity;
        let imported = module.imported;
        memories[imported.memories.min(memories.len())..].iter().for_each(|it| self.inner.free(Kept::Memory(*it)));
        tables[imported.tables.min(tables.len())..].iter().for_each(|it| self.inner.free(Kept::Table(*it)));
        globals[imported.globals.min(globals.len())..].iter().for_each(|it| self.inner.free(Kept::Global(*it)));
        self.inner.references.give_back(first, module.functions.len());
        self.callees[number as usize] = Arc::default();
        drop(providers);
    }
}

impl<T> fmt::Debug for Store<T> {
    fn fmt(&self, f: &mut fmt::Formatter<'_>) -> fmt::Result {
        let Inner { engine, fuel, limiter, .. } = &self.inner;
        let fuel = fuel.get_fuel().ok();
        f.debug_struct("Store")
            .field("engine", engine)
            .field("fuel", &fuel)
            .field("caps", &limiter.caps)
            .finish_non_exhaustive()
    }
}

impl Inner {
    fn free(&mut self, kept: Kept) {
        match kept {
            Kept::Memory(number) => {
                let memory = self.items.memories.remove(number);
                give(&mut self.limiter.caps.bytes, memory.map_or(0, |it| it.data_size()));
            }
            Kept::Table(number) => {
                let table = self.items.tables.remove(number);
                give(&mut self.limiter.caps.elements, table.map_or(0, |it| it.size() as usize));
            }
            Kept::Global(number) => drop(self.items.globals.remove(number)),
            Kept::Instance(_) => {}
        }
    }

    /// An owner of what has been made.
    pub fn owner(&self, kept: Kept) -> Arc<Owner> {
        Arc::new(Owner { store: self.dropped.clone(), kept })
    }

    /// Checks that a handle is one of this store.
    pub fn check(&self, owner: &Owner) {
        assert!(Arc::ptr_eq(&owner.store, &self.dropped), "a handle is used with another store than its own");
    }

    /// The instance of a handle.
    pub fn instance(&self, owner: &Owner) -> (u32, &Entity) {
        self.check(owner);
        match owner.kept {
            Kept::Instance(number) => (number, &self.instances[number]),
            kept => unreachable!("{kept:?} has no functions"),
        }
    }

    /// Keeps an instance as long as the store: functions of it may be in tables, globals and values of others.
    pub fn pin(&mut self, owner: &Arc<Owner>) {
        if !self.pinned.iter().any(|it| Arc::ptr_eq(it, owner)) {
            self.pinned.push(owner.clone());
        }
    }

    /// Takes fuel for copying so many bytes, as a bulk instruction does.
    pub fn charge(&mut self, bytes: u64) -> Result<(), TrapCode> {
        let price = |costs: &FuelCostsProvider| costs.fuel_for_copying_values::<u8>(bytes);
        self.fuel.consume_fuel_if(price).map(drop).map_err(|_| TrapCode::OutOfFuel)
    }
}

/// Items by number. The number of one that is removed is given to another one.
#[derive(Debug)]
pub(crate) struct Arena<X> {
    items: Vec<Option<X>>,
    free: Vec<u32>,
}

impl<X> Default for Arena<X> {
    fn default() -> Self {
        Self { items: vec![], free: vec![] }
    }
}

impl<X> Arena<X> {
    pub fn insert(&mut self, item: X) -> u32 {
        if let Some(number) = self.free.pop() {
            self.items[number as usize] = Some(item);
            return number;
        }
        self.items.push(Some(item));
        self.items.len() as u32 - 1
    }

    pub fn remove(&mut self, number: u32) -> Option<X> {
        let item = self.items[number as usize].take();
        self.free.extend(item.as_ref().map(|_| number));
        item
    }

    #[inline(always)]
    pub fn get(&self, number: u32) -> Option<&X> {
        self.items.get(number as usize)?.as_ref()
    }

    #[inline(always)]
    pub fn get_mut(&mut self, number: u32) -> Option<&mut X> {
        self.items.get_mut(number as usize)?.as_mut()
    }

    /// Two items, unless they are one.
    pub fn pair(&mut self, numbers: [u32; 2]) -> Option<[&mut X; 2]> {
        match self.items.get_disjoint_mut(numbers.map(|it| it as usize)) {
            Ok([Some(one), Some(other)]) => Some([one, other]),
            _ => None,
        }
    }
}

// An item lives as long as a handle or an instance has its number.
impl<X> Index<u32> for Arena<X> {
    type Output = X;

    #[inline(always)]
    fn index(&self, number: u32) -> &X {
        self.items[number as usize].as_ref().expect("the item was dropped")
    }
}

impl<X> IndexMut<u32> for Arena<X> {
    #[inline(always)]
    fn index_mut(&mut self, number: u32) -> &mut X {
        self.items[number as usize].as_mut().expect("the item was dropped")
    }
}
