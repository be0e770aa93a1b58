//! Modules as an embedder has them.

use crate::engine::Engine;
use crate::library::{FuncType, GlobalType, MemoryType, TableType};
use crate::module::{self, Item};
use crate::reader::Refusal;
use std::fmt;
use std::sync::Arc;

/// A module that was read, validated and translated for an engine. It can be instantiated any number of times, and a clone
/// is the same module.
#[derive(Clone)]
pub struct Module {
    pub(crate) engine: Engine,
    pub(crate) inner: Arc<module::Module>,
}

/// The type of what a module imports or exports.
#[derive(Clone, Debug, PartialEq, Eq)]
pub enum ExternType {
    /// Of a function.
    Func(FuncType),
    /// Of a memory.
    Memory(MemoryType),
    /// Of a table.
    Table(TableType),
    /// Of a global.
    Global(GlobalType),
}

/// What a module imports: the two names, and the type.
#[derive(Clone, Debug)]
pub struct ImportType<'m> {
    /// The name of the module that it is to come from.
    pub module: &'m str,
    /// Its name there.
    pub name: &'m str,
    /// What it has to be.
    pub ty: ExternType,
}

impl Module {
    /// Reads a module in the binary format. An instruction that computes with floats traps when it is executed, as
    /// [`FloatInstruction`](crate::FloatInstruction).
    ///
    /// # Errors
    ///
    /// What is wrong with the bytes, and where.
    pub fn new(engine: &Engine, bytes: &[u8]) -> Result<Module, Refusal> {
        Self::of(engine, module::Module::new(bytes, engine.config())?)
    }

    /// The same, but a module that has a type, a constant or an instruction of floats is refused.
    ///
    /// # Errors
    ///
    /// What is wrong with the bytes, and where.
    pub fn new_strict(engine: &Engine, bytes: &[u8]) -> Result<Module, Refusal> {
        Self::of(engine, module::Module::new_strict(bytes, engine.config())?)
    }

    fn of(engine: &Engine, inner: module::Module) -> Result<Module, Refusal> {
        Ok(Module { engine: engine.clone(), inner: Arc::new(inner) })
    }

    /// What it imports, in order.
    pub fn imports(&self) -> impl Iterator<Item = ImportType<'_>> {
        let imports = self.inner.imports.iter();
        imports.map(|it| ImportType { module: &it.module, name: &it.name, ty: self.ty(it.item) })
    }

    /// What it exports, by name.
    pub fn exports(&self) -> impl Iterator<Item = (&str, ExternType)> {
        self.inner.exports.iter().map(|(name, item)| (name.as_str(), self.ty(*item)))
    }

    /// The type of what it exports by this name.
    pub fn get_export(&self, name: &str) -> Option<ExternType> {
        Some(self.ty(*self.inner.exports.get(name)?))
    }

    fn ty(&self, item: Item) -> ExternType {
        match item {
            Item::Function(it) => ExternType::Func(self.inner.type_of(it).clone()),
            Item::Memory(it) => ExternType::Memory(self.inner.memories[it as usize]),
            Item::Table(it) => ExternType::Table(self.inner.tables[it as usize].0),
            Item::Global(it) => ExternType::Global(self.inner.globals[it as usize].0),
        }
    }
}

impl fmt::Debug for Module {
    fn fmt(&self, f: &mut fmt::Formatter<'_>) -> fmt::Result {
        let (functions, exports) = (self.inner.functions.len(), &self.inner.exports);
        f.debug_struct("Module").field("functions", &functions).field("exports", exports).finish_non_exhaustive()
    }
}
