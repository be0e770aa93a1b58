//! A linker: what modules may import, by name.

use crate::caller::Caller;
use crate::compiled::{ExternType, Module};
use crate::context::AsContextMut;
use crate::engine::Engine;
use crate::error::Error;
use crate::func::{Host, IntoFunc, untyped};
use crate::instance::{self, Given, Instance};
use crate::items::Extern;
use crate::library::FuncType;
use crate::module::Import;
use crate::values::Val;
use std::collections::hash_map::Entry;
use std::collections::{BTreeSet, HashMap};
use std::fmt;

/// What modules may import, by the name of a module and a name in it.
///
/// # Examples
///
/// A host that gives a guest a function of its own data:
///
/// ```
/// use engine::{Caller, Engine, Linker, Store};
///
/// let engine = Engine::default();
/// let mut linker = Linker::new(&engine);
/// linker.func_wrap("host", "add", |mut caller: Caller<'_, i64>, number: i32| {
///     *caller.data_mut() += i64::from(number);
/// })?;
/// let mut store = Store::new(&engine, 0);
/// # let _ = &mut store;
/// # Ok::<(), engine::Error>(())
/// ```
pub struct Linker<T> {
    engine: Engine,
    items: HashMap<String, HashMap<String, Definition<T>>>,
    shadows: bool,
}

enum Definition<T> {
    Host(Host<T>),
    Item(Extern),
}

impl<T> Clone for Definition<T> {
    fn clone(&self) -> Self {
        match self {
            Self::Host(Host { ty, call }) => Self::Host(Host { ty: ty.clone(), call: call.clone() }),
            Self::Item(item) => Self::Item(item.clone()),
        }
    }
}

impl<T> Clone for Linker<T> {
    fn clone(&self) -> Self {
        Self { engine: self.engine.clone(), items: self.items.clone(), shadows: self.shadows }
    }
}

impl<T> fmt::Debug for Linker<T> {
    fn fmt(&self, f: &mut fmt::Formatter<'_>) -> fmt::Result {
        let names = self.items.iter().flat_map(|(module, items)| items.keys().map(move |name| (module, name)));
        let names = names.collect::<BTreeSet<_>>();
        f.debug_struct("Linker").field("names", &names).finish_non_exhaustive()
    }
}

impl<T: 'static> Linker<T> {
    /// A linker that has nothing.
    pub fn new(engine: &Engine) -> Self {
        Self { engine: engine.clone(), items: HashMap::new(), shadows: false }
    }

    /// The engine.
    pub fn engine(&self) -> &Engine {
        &self.engine
    }

    /// Whether a name may be defined again. At first it may not.
    pub fn allow_shadowing(&mut self, shadows: bool) -> &mut Self {
        self.shadows = shadows;
        self
    }

    /// Defines a function of the host, made of a closure of up to twelve parameters.
    ///
    /// Parameters and results are `i32`, `u32`, `i64`, `u64`, `f32`, `f64` or `V128`; several results are a tuple. Before
    /// the parameters there may be a [`Caller`]. A closure that returns a [`Result`] stops the guest by an [`Error`].
    ///
    /// # Errors
    ///
    /// If the name is defined already.
    pub fn func_wrap<P, R>(
        &mut self,
        module: &str,
        name: &str,
        function: impl IntoFunc<T, P, R>,
    ) -> Result<&mut Self, Error> {
        let (ty, call) = function.into_func();
        self.insert(module, name, Definition::Host(Host { ty, call }))
    }

    /// Defines a function of the host of any type. The closure is given the arguments, and writes the results.
    ///
    /// # Errors
    ///
    /// If the name is defined already.
    pub fn func_new(
        &mut self,
        module: &str,
        name: &str,
        ty: FuncType,
        function: impl Fn(Caller<'_, T>, &[Val], &mut [Val]) -> Result<(), Error> + Send + Sync + 'static,
    ) -> Result<&mut Self, Error> {
        let call = untyped(ty.clone(), function);
        self.insert(module, name, Definition::Host(Host { ty, call }))
    }

    /// Defines an item of a store, in which alone instances can then be made.
    ///
    /// # Errors
    ///
    /// If the name is defined already.
    pub fn define(&mut self, module: &str, name: &str, item: impl Into<Extern>) -> Result<&mut Self, Error> {
        self.insert(module, name, Definition::Item(item.into()))
    }

    /// Defines all that an instance exports.
    ///
    /// # Errors
    ///
    /// If a name is defined already.
    pub fn instance(
        &mut self,
        context: impl AsContextMut<Data = T>,
        module: &str,
        instance: &Instance,
    ) -> Result<&mut Self, Error> {
        for (name, item) in instance.exports(context) {
            self.define(module, &name, item)?;
        }
        Ok(self)
    }

    /// Defines each function that a module imports and that isn't defined as one that traps when it is called, with its names
    /// in the message. Memories, tables and globals stay undefined.
    ///
    /// # Errors
    ///
    /// Those of [`Linker::func_new`], of which none can come.
    pub fn define_unknown_imports_as_traps(&mut self, module: &Module) -> Result<&mut Self, Error> {
        for import in module.imports() {
            let ExternType::Func(ty) = import.ty else { continue };
            if self.get(import.module, import.name).is_none() {
                let message = format!("{}.{} was called, which nobody has defined", import.module, import.name);
                self.func_new(import.module, import.name, ty, move |_, _, _| Err(Error::new(message.clone())))?;
            }
        }
        Ok(self)
    }

    /// Makes an instance of a module with what is defined, and runs its start function.
    ///
    /// # Errors
    ///
    /// If an import isn't defined or has another type, and for the reasons of [`Instance::new`].
    pub fn instantiate(&self, mut context: impl AsContextMut<Data = T>, module: &Module) -> Result<Instance, Error> {
        let given = module.inner.imports.iter().map(|it| self.given(it)).collect::<Result<_, _>>()?;
        instance::instantiate(context.as_context_mut().store, module, given)
    }

    fn given(&self, import: &Import) -> Result<Given<T>, Error> {
        match self.get(&import.module, &import.name).cloned() {
            Some(Definition::Host(host)) => Ok(Given::Host(host)),
            Some(Definition::Item(item)) => Ok(Given::Item(item)),
            None => Err(Error::Link(format!("{}.{}: the host has no such item", import.module, import.name))),
        }
    }

    fn get(&self, module: &str, name: &str) -> Option<&Definition<T>> {
        self.items.get(module)?.get(name)
    }

    fn insert(&mut self, module: &str, name: &str, item: Definition<T>) -> Result<&mut Self, Error> {
        let items = self.items.entry(module.to_owned()).or_default();
        match items.entry(name.to_owned()) {
            Entry::Occupied(_) if !self.shadows => {
                return Err(Error::Link(format!("{module}.{name} is defined already")));
            }
            Entry::Occupied(mut entry) => drop(entry.insert(item)),
            Entry::Vacant(entry) => drop(entry.insert(item)),
        }
        Ok(self)
    }
}
