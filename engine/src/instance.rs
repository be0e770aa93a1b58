//! Instances: made from a module, and read. WebAssembly core specification, 4.5.

#[cfg(feature = "crate")]
use crate::bulk::Bulk;
use crate::call::Callee;
use crate::compiled::Module;
use crate::context::{AsContext, AsContextMut, StoreContext};
use crate::error::Error;
use crate::execute::{of_memory, of_table};
use crate::func::{Func, Host, TypedFunc};
use crate::handle::{Kept, Owner};
use crate::items::{Extern, Global, Memory, Table};
use crate::library::{self, ElementSegment, FuncType, RawRef, TypedRawRef, ValType};
use crate::module::{self, Import, Item, Mode};
use crate::store::{Entity, Inner, Items, Store};
use crate::values::WasmValues;
use std::sync::{Arc, Weak};

/// An instance of a module.
///
/// It is kept as long as a handle of it or of something that it exports is, or an instance that imports from it, and no
/// longer than its store. Then its memories and tables are freed, and no longer count towards the store's
/// [caps](crate::Caps). An instance whose functions others may have, through a table, a global or an argument, is kept
/// as long as its store.
#[derive(Clone, Debug)]
pub struct Instance {
    pub(crate) owner: Arc<Owner>,
}

/// What a module is given for an import.
pub(crate) enum Given<T> {
    Host(Host<T>),
    Item(Extern),
}

/// The memories, tables and globals of an instance, those that are imported first.
#[derive(Debug)]
pub struct Contents<'a> {
    /// The memories.
    pub memories: Vec<&'a library::Memory>,
    /// The tables.
    pub tables: Vec<&'a library::Table>,
    /// The globals.
    pub globals: Vec<&'a library::Global>,
}

impl Instance {
    /// Makes an instance, given its imports in order: memories, tables, globals, segments, and then the start function.
    ///
    /// The store needs fuel for active segments and for the start function alone ([what costs
    /// fuel](crate::Config::consume_fuel)): without them a store that has none will do.
    ///
    /// # Errors
    ///
    /// If an import is missing or has another type, if the store's [caps](crate::Caps) or the system don't allow a
    /// memory or a table, if a segment doesn't fit or there is no fuel for it, and if the start function stops.
    pub fn new(mut context: impl AsContextMut, module: &Module, imports: &[Extern]) -> Result<Instance, Error> {
        if imports.len() != module.inner.imports.len() {
            return Err(Error::Link(format!("the module has {} imports", module.inner.imports.len())));
        }
        let imports = imports.iter().cloned().map(Given::Item).collect();
        instantiate(context.as_context_mut().store, module, imports)
    }

    /// What it exports by this name.
    pub fn get_export(&self, context: impl AsContext, name: &str) -> Option<Extern> {
        let context = context.as_context();
        let (_, entity) = context.store.inner.instance(&self.owner);
        let item = entity.module.exports.get(name)?;
        Some(self.item(entity, *item))
    }

    /// What it exports, by name.
    pub fn exports(&self, context: impl AsContext) -> Vec<(String, Extern)> {
        let context = context.as_context();
        let (_, entity) = context.store.inner.instance(&self.owner);
        entity.module.exports.iter().map(|(name, item)| (name.clone(), self.item(entity, *item))).collect()
    }

    fn item(&self, entity: &Entity, item: Item) -> Extern {
        let owner = self.owner.clone();
        match item {
            Item::Function(function) => Func { owner, function }.into(),
            Item::Memory(it) => Memory { owner, number: entity.memories[it as usize] }.into(),
            Item::Table(it) => Table { owner, number: entity.tables[it as usize] }.into(),
            Item::Global(it) => Global { owner, number: entity.globals[it as usize] }.into(),
        }
    }

    /// An exported function.
    pub fn get_func(&self, context: impl AsContext, name: &str) -> Option<Func> {
        self.get_export(context, name)?.into_func()
    }

    /// An exported function of these types: of its parameters, and of its results.
    ///
    /// A type is `i32`, `u32`, `i64`, `u64`, `f32`, `f64` or [`V128`](crate::V128) ([`WasmTy`](crate::WasmTy)); none is
    /// `()`, and several are a tuple ([`WasmValues`]).
    ///
    /// # Errors
    ///
    /// If there is no such function, or it has other types.
    ///
    /// # Examples
    ///
    /// ```
    /// # use engine::{Engine, Linker, Module, Store};
    /// # let engine = Engine::default();
    /// # let module = Module::new(&engine, engine::guests::PLAIN)?;
    /// # let mut store = Store::new(&engine, ());
    /// # let instance = Linker::new(&engine).instantiate(&mut store, &module)?;
    /// let sum = instance.get_typed_func::<i32, i32>(&store, "sum")?;
    /// assert_eq!(sum.call(&mut store, 4)?, 10);
    /// # Ok::<(), engine::Error>(())
    /// ```
    pub fn get_typed_func<P, R>(&self, context: impl AsContext, name: &str) -> Result<TypedFunc<P, R>, Error>
    where
        P: WasmValues,
        R: WasmValues,
    {
        let missing = || Error::Misused(format!("there is no exported function {name}"));
        self.get_func(&context, name).ok_or_else(missing)?.typed(&context)
    }

    /// An exported memory.
    pub fn get_memory(&self, context: impl AsContext, name: &str) -> Option<Memory> {
        self.get_export(context, name)?.into_memory()
    }

    /// An exported table.
    pub fn get_table(&self, context: impl AsContext, name: &str) -> Option<Table> {
        self.get_export(context, name)?.into_table()
    }

    /// An exported global.
    pub fn get_global(&self, context: impl AsContext, name: &str) -> Option<Global> {
        self.get_export(context, name)?.into_global()
    }

    /// All memories, tables and globals, also those that aren't exported.
    pub fn contents<'a, T: 'a>(&self, context: impl Into<StoreContext<'a, T>>) -> Contents<'a> {
        let inner = &context.into().store.inner;
        let (_, entity) = inner.instance(&self.owner);
        Contents {
            memories: entity.memories.iter().map(|it| &inner.items.memories[*it]).collect(),
            tables: entity.tables.iter().map(|it| &inner.items.tables[*it]).collect(),
            globals: entity.globals.iter().map(|it| &inner.items.globals[*it]).collect(),
        }
    }

    /// A reference to a function of this instance, by its number in the module.
    pub fn function_reference(&self, mut context: impl AsContextMut, number: u32) -> Option<RawRef> {
        let inner = &mut context.as_context_mut().store.inner;
        let (_, entity) = inner.instance(&self.owner);
        let reference = ((number as usize) < entity.module.functions.len()).then(|| entity.first + number)?;
        inner.pin(&self.owner);
        Some(reference.into())
    }
}

/// Makes an instance. If there is none, what its memories and tables took of the caps is given back.
pub(crate) fn instantiate<T>(store: &mut Store<T>, module: &Module, given: Vec<Given<T>>) -> Result<Instance, Error> {
    if !module.engine.is_same(&store.inner.engine) {
        return Err(Error::misused("the module and the store are of two engines"));
    }
    store.collect();
    let made = make(store, &module.inner, given);
    store.collect();
    made
}

fn make<T>(store: &mut Store<T>, module: &Arc<module::Module>, given: Vec<Given<T>>) -> Result<Instance, Error> {
    let mut linked = Linked { callees: vec![], memories: vec![], tables: vec![], globals: vec![], providers: vec![] };
    for (import, given) in module.imports.iter().zip(given) {
        linked.link(store, module, import, given)?;
    }
    let Linked { callees, memories, tables, globals, providers } = linked;
    let owner = insert(store, module.clone(), callees, providers)?;
    let Kept::Instance(number) = owner.kept else { unreachable!("an instance") };
    let inner = &mut store.inner;
    let entity = &mut inner.instances[number];
    (entity.memories, entity.tables, entity.globals) = (memories, tables, globals);
    allocate(inner, number)?;
    if passes_functions(module) {
        inner.pin(&owner);
    }
    initialize(inner, number)?;
    if let Some(start) = module.start {
        store.call(&owner, start, |_| (), |_| ())?;
    }
    Ok(Instance { owner })
}

/// The imports of an instance.
struct Linked<T> {
    callees: Vec<Callee<T>>,
    memories: Vec<u32>,
    tables: Vec<u32>,
    globals: Vec<u32>,
    providers: Vec<Arc<Owner>>,
}

impl<T> Linked<T> {
    /// Takes what is given for an import, if it has the right type.
    fn link(
        &mut self,
        store: &Store<T>,
        module: &module::Module,
        import: &Import,
        given: Given<T>,
    ) -> Result<(), Error> {
        let items = &store.inner.items;
        let provider = match (import.item, given) {
            (Item::Function(function), Given::Host(host)) if host.ty == *module.type_of(function) => {
                self.callees.push(host.callee());
                return Ok(());
            }
            (Item::Function(function), Given::Item(Extern::Func(it))) if it.ty(store) == *module.type_of(function) => {
                let (instance, _) = store.inner.instance(&it.owner);
                self.callees.push(store.callee(instance, it.function));
                it.owner
            }
            (Item::Memory(memory), Given::Item(Extern::Memory(it)))
                if it.ty(store).is_subtype_of(&module.memories[memory as usize]) =>
            {
                self.memories.push(it.number);
                it.owner
            }
            (Item::Table(table), Given::Item(Extern::Table(it)))
                if it.ty(store).is_subtype_of(&module.tables[table as usize].0) =>
            {
                self.tables.push(it.number);
                it.owner
            }
            (Item::Global(global), Given::Item(Extern::Global(it)))
                if items.globals[it.number].ty() == module.globals[global as usize].0 =>
            {
                store.inner.check(&it.owner);
                self.globals.push(it.number);
                it.owner
            }
            _ => return Err(Error::Link(format!("{}.{}: the item has another type", import.module, import.name))),
        };
        self.providers.push(provider);
        Ok(())
    }
}

/// Puts an instance without memories, tables and globals into a store.
pub(crate) fn insert<T>(
    store: &mut Store<T>,
    module: Arc<module::Module>,
    callees: Vec<Callee<T>>,
    providers: Vec<Arc<Owner>>,
) -> Result<Arc<Owner>, Error> {
    let Inner { instances, references, recorder, .. } = &mut store.inner;
    let first = references.take(module.functions.len());
    let first = first.ok_or(Error::misused("the store has too many functions"))?;
    let (is_dropped, recorded) = (vec![false; module.data.len()], recorder.number(&module));
    let (memories, tables, globals, elements, owner) = (vec![], vec![], vec![], vec![], Weak::new());
    let entity = Entity { module, memories, tables, globals, elements, is_dropped, first, recorded, owner, providers };
    let number = instances.insert(entity);
    references.give(first, number);
    let owner = store.inner.owner(Kept::Instance(number));
    store.inner.instances[number].owner = Arc::downgrade(&owner);
    store.callees.resize_with(store.callees.len().max(number as usize + 1), Arc::default);
    store.callees[number as usize] = callees.into();
    Ok(owner)
}

/// Whether functions of an instance can come to others: by what it imports, or by a global that it exports.
fn passes_functions(module: &module::Module) -> bool {
    let has_functions = |ty: &FuncType| ty.params().iter().chain(ty.results()).any(|it| *it == ValType::FuncRef);
    let is_open = |item: &Item| match *item {
        Item::Function(it) => has_functions(module.type_of(it)),
        Item::Table(it) => module.tables[it as usize].0.element() == library::RefType::Func,
        Item::Global(it) => module.globals[it as usize].0.content() == ValType::FuncRef,
        Item::Memory(_) => false,
    };
    let is_open_global = |item: &Item| matches!(item, Item::Global(_)) && is_open(item);
    module.imports.iter().any(|it| is_open(&it.item)) || module.exports.values().any(is_open_global)
}

/// Makes the memories, tables, globals and segments of an instance.
fn allocate(inner: &mut Inner, number: u32) -> Result<(), Error> {
    let Inner { instances, items, limiter, .. } = inner;
    let Items { memories, tables, globals } = items;
    let entity = &mut instances[number];
    let (module, first) = (entity.module.clone(), entity.first);
    for (ty, init) in &module.globals[module.imported.globals..] {
        let init = init.value(first, &|it| *globals[entity.globals[it as usize]].get_raw());
        entity.globals.push(globals.insert(library::Global::new(init, *ty)));
    }
    let global = |it: u32| *globals[entity.globals[it as usize]].get_raw();
    for ty in &module.memories[module.imported.memories..] {
        let memory = library::Memory::new(*ty, &mut limiter.lent()).map_err(of_memory)?;
        entity.memories.push(memories.insert(memory));
    }
    for (ty, init) in &module.tables[module.imported.tables..] {
        let init = TypedRawRef::new(init.value(first, &global).into(), ty.element());
        let table = library::Table::new(*ty, init, &mut limiter.lent()).map_err(of_table)?;
        entity.tables.push(tables.insert(table));
    }
    for segment in &module.elements {
        let values = segment.items.iter().map(|item| item.value(first, &global).into());
        entity.elements.push(ElementSegment::new(segment.ty, values));
    }
    Ok(())
}

/// Writes the active segments.
fn initialize(inner: &mut Inner, number: u32) -> Result<(), Error> {
    let Inner { instances, items, fuel, .. } = inner;
    let Entity { module, memories, tables, globals, elements, is_dropped, first, .. } = &mut instances[number];
    let globals = |it: u32| *items.globals[globals[it as usize]].get_raw();
    for (segment, values) in module.elements.iter().zip(elements) {
        if let Mode::Active(table, offset) = &segment.mode {
            let (table, offset) = (&mut items.tables[tables[*table as usize]], offset.value(*first, &globals));
            table.init(values.as_ref(), offset.into(), 0, values.size(), Some(fuel)).map_err(of_table)?;
        }
        if !matches!(segment.mode, Mode::Passive) {
            values.drop_items();
        }
    }
    for (segment, is_dropped) in module.data.iter().zip(is_dropped) {
        if let Mode::Active(memory, offset) = &segment.mode {
            let (memory, offset) = (&mut items.memories[memories[*memory as usize]], offset.value(*first, &globals));
            memory.init(&segment.bytes, offset.into(), 0, segment.bytes.len() as u32, Some(fuel)).map_err(of_memory)?;
            *is_dropped = true;
        }
    }
    Ok(())
}
