//! A WebAssembly engine of integers, vectors, memories and tables over the proved library, or over the Rust crate.
//!
//! An [`Engine`] translates [`Module`]s. A [`Store`] has what one tenant has, of those whose modules a host runs: fuel,
//! caps on memory, data of the host, and its [`Instance`]s. A [`Linker`] has what modules may import: closures of the
//! host, and what other instances export. A closure is given a [`Caller`], by which it reaches the host's data and the
//! memory of the guest that calls it. An [`Error`] says why a guest has stopped. The types of values, memories and
//! traps are those of the [`library`] below the engine.
//!
//! | To | see |
//! |---|---|
//! | meter a guest, and know what a call has used | [`Config::consume_fuel`], [`Store::set_fuel`], [`Store::get_fuel`] |
//! | limit memories, tables and the stack | [`Caps`], [`Store::set_caps`], [`Store::set_stack_limits`] |
//! | go on with a call after a refill | [`TypedFunc::call_resumable`] |
//! | know why a guest has stopped, and where | [`Error::as_trap_code`], [`Store::backtrace`] |
//! | make memories, tables, globals and functions of the host | [`Memory::new`], [`Table::new`], [`Global::new`], [`Func::wrap`] |
//! | call functions of any type | [`Func::call`], [`Linker::func_new`], [`Val`] |
//! | ask a module what it imports and exports | [`Module::imports`], [`Module::exports`] |
//! | know where fuel goes | [`Config::profile`], [`Store::profile`] |
//!
//! # Examples
//!
//! A guest is given a string, and gives one back. It traps, and is out of fuel; the host goes on.
//!
//! ```
//! use engine::{Caller, Config, Engine, Error, Linker, Module, Store, TrapCode};
//!
//! # let wasm = engine::guests::GREET;
//! let engine = Engine::new(Config::default().consume_fuel(true));
//! // The bytes of a file, such as `include_bytes!("greet.wasm")`.
//! let module = Module::new(&engine, wasm)?;
//! let mut linker = Linker::new(&engine);
//! linker.func_wrap("host", "log", |mut caller: Caller<'_, Vec<String>>, pointer: u32, len: u32| -> Result<(), Error> {
//!     // The guest pays for what the host does for it, and stops here if it can't.
//!     caller.charge_bytes(len.into())?;
//!     let memory = caller.get_memory("memory").ok_or(Error::new("the guest has no memory"))?;
//!     let mut bytes = vec![0; len as usize];
//!     memory.read(&caller, pointer as usize, &mut bytes)?;
//!     caller.data_mut().push(String::from_utf8_lossy(&bytes).into_owned());
//!     Ok(())
//! })?;
//!
//! let mut store = Store::new(&engine, vec![]);
//! // An active segment of 64 bytes or more takes fuel already when the module is instantiated.
//! store.set_fuel(10_000)?;
//! let instance = linker.instantiate(&mut store, &module)?;
//! let allocate = instance.get_typed_func::<u32, u32>(&store, "allocate")?;
//! let greet = instance.get_typed_func::<(u32, u32), u64>(&store, "greet")?;
//! let memory = instance.get_memory(&store, "memory").ok_or(Error::new("the guest has no memory"))?;
//!
//! let pointer = allocate.call(&mut store, 3)?;
//! memory.write(&mut store, pointer as usize, b"Ada")?;
//! // The guest gives a pointer to its answer and, above it, the length.
//! let answer = greet.call(&mut store, (pointer, 3))?;
//! let mut bytes = vec![0; (answer >> 32) as usize];
//! memory.read(&store, answer as u32 as usize, &mut bytes)?;
//! assert_eq!(bytes, b"Hello, Ada!");
//! assert_eq!(store.data(), &["Ada"]);
//! println!("fuel used: {}", 10_000 - store.get_fuel()?);
//!
//! // The guest traps for an empty name. The store can be used after that.
//! let trap = greet.call(&mut store, (pointer, 0)).unwrap_err();
//! assert_eq!(trap.as_trap_code(), Some(TrapCode::UnreachableCodeReached));
//!
//! // It runs without end until its fuel doesn't suffice for what comes next.
//! let spin = instance.get_typed_func::<(), ()>(&store, "spin")?;
//! let stopped = spin.call(&mut store, ()).unwrap_err();
//! assert_eq!(stopped.as_trap_code(), Some(TrapCode::OutOfFuel));
//! store.set_fuel(10_000)?;
//! assert!(greet.call(&mut store, (pointer, 3)).is_ok());
//! # Ok::<(), engine::Error>(())
//! ```
//!
//! This is the guest, in C. In the package's folder `cargo run --example greet` runs the whole program,
//! `examples/greet.rs`.
#![doc = concat!("```c\n", include_str!("../examples/greet.c"), "```")]
#![forbid(unsafe_code)]
#![warn(missing_docs)]

// The feature `crate` says which library the engine stands on.
#[cfg(feature = "crate")]
pub use wasmi_core as library;
#[cfg(not(feature = "crate"))]
pub use wasmi_core_proved as library;

#[cfg(feature = "crate")]
#[path = "../crate/bulk.rs"]
mod bulk;
mod call;
mod caller;
mod compiled;
mod context;
mod engine;
mod error;
mod execute;
mod floats;
mod func;
mod handle;
mod instance;
mod instructions;
mod items;
mod linker;
mod lower;
mod module;
mod names;
mod operands;
mod profile;
mod proposals;
mod reader;
mod references;
mod resume;
mod stack;
mod store;
mod trace;
mod translate;
mod values;

pub use caller::Caller;
pub use compiled::{ExternType, ImportType, Module};
pub use context::{AsContext, AsContextMut, StoreContext, StoreContextMut};
pub use engine::{Config, Engine};
pub use error::Error;
#[cfg(feature = "handlers")]
#[doc(hidden)]
pub use execute::taking_stack;
pub use floats::FloatInstruction;
pub use func::{Func, IntoFunc, TypedFunc};
pub use instance::{Contents, Instance};
pub use items::{Extern, Global, Memory, Table};
pub use linker::Linker;
pub use profile::{Profile, ProfiledFunction};
pub use reader::{Refusal, RefusalKind};
pub use resume::{OutOfFuel, ResumableCall};
pub use stack::StackLimits;
pub use store::{Caps, Store};
pub use trace::TraceFrame;
pub use values::{HostResults, Val, WasmTy, WasmValues};

// The library's types that signatures have. Their pages are the library's, where the links of contracts lead somewhere.
#[doc(no_inline)]
pub use library::{
    F32, F64, FuncType, FuncTypeError, GlobalType, HostError, IndexType, MemoryError, MemoryType, MemoryTypeBuilder,
    Mutability, RawRef, RawVal, RefType, TableType, Trap, TrapCode, TypedRawVal, V128, ValType,
};

/// The modules of the examples in the documentation.
#[doc(hidden)]
pub mod guests {
    pub const GREET: &[u8] = include_bytes!("../examples/greet.wasm");
    pub const PLAIN: &[u8] = include_bytes!("../tests/hosts/plain.wasm");
}

/// Bounds on what a module may have. WebAssembly core specification, A.2 (implementation limitations).
///
/// With them no module of n bytes takes more than fifteen times as long to read as plain code of n bytes
/// (`tests/modules.rs`): an instruction takes at most 1,000 operands, the library's bound on parameters and results, and
/// `operands` handles them as slices. The rest is a constant for each byte, and for a name or a constant of the module a
/// look-up.
///
/// A function's slots are numbered by 16 bits: [`LOCALS`], [`CONSTANTS`] and [`OPERANDS`] together have fewer than 2^16.
mod limits {
    /// Of a module.
    pub(crate) const TYPES: usize = 1_000_000;
    pub(crate) const FUNCTIONS: usize = 1_000_000;
    pub(crate) const ELEMENTS: usize = 10_000_000;
    pub(crate) const MEMORIES: usize = 1_000;
    pub(crate) const TABLES: usize = 1_000;

    /// Of a function: the bytes of its body, its locals with its parameters, its different constants, the operands that are
    /// on the stack at once, and the blocks that are open at once.
    pub(crate) const BODY: usize = 8_000_000;
    pub(crate) const LOCALS: usize = 16_000;
    pub(crate) const CONSTANTS: usize = 16_000;
    pub(crate) const OPERANDS: usize = 16_000;
    pub(crate) const BLOCKS: usize = 16_000;
    /// Of one `br_table`, as V8 has it.
    pub(crate) const LABELS: usize = 65_520;

    /// Of a store: the values in the frames of all calls, and the calls that are open at once.
    pub(crate) const VALUES: usize = 1 << 17;
    pub(crate) const CALLS: usize = 1 << 15;
    /// The calls of the host that are open at once, each in a function of the host that a guest has called.
    pub(crate) const NESTED: usize = 100;

    /// The functions of a backtrace.
    pub(crate) const TRACE: usize = 100;

    /// Of an engine: the stacks that are kept for later calls.
    pub(crate) const STACKS: usize = 16;
}
