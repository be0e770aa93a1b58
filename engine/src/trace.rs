//! Which functions were open when a call ended early.

use crate::call::Calls;
use crate::compiled::Module;
use crate::limits;
use crate::module;
use crate::stack::{Frame, Lent};
use crate::store::{Inner, Store};
use std::sync::Arc;

/// A function that was open: its module, and its number in the module, to which [`Module::function_names`] may have a
/// name.
#[derive(Clone, Debug)]
pub struct TraceFrame {
    /// The module.
    pub module: Module,
    /// The number, in which imported functions come first.
    pub function: u32,
}

/// The functions that were open, the innermost one first.
#[derive(Default)]
pub(crate) struct Trace {
    frames: Vec<(Arc<module::Module>, u32)>,
}

impl Trace {
    /// A function of the host has returned, or a call begins.
    #[inline]
    pub fn clear(&mut self) {
        if !self.frames.is_empty() {
            self.frames.clear();
        }
    }
}

impl Inner {
    /// Calls end early. Those that were ended before by the same error are there already.
    #[cold]
    pub fn record(&mut self, calls: &Calls) {
        let Self { instances, trace, stack, .. } = self;
        let Some(stack) = stack else { return };
        let Lent { frames, away, .. } = stack.lend();
        let mut last = frames.len();
        for at in std::iter::once(&calls.at).chain(away[calls.away..].iter().rev()) {
            let module = &instances[at.instance].module;
            let before = frames.get(at.floor..last).unwrap_or_default().iter().rev();
            let left = limits::TRACE - trace.frames.len().min(limits::TRACE);
            let functions = std::iter::once(&at.frame).chain(before).take(left);
            trace.frames.extend(functions.map(|Frame { function, .. }| (module.clone(), *function as u32)));
            last = at.floor;
        }
    }
}

impl<T> Store<T> {
    /// The functions that were open when the last call of the host ended early, the innermost one first, and at most
    /// 100 of them. There are none after a call that returned.
    ///
    /// # Examples
    ///
    /// Functions have names where the module has a section of names ([`Module::function_names`]):
    ///
    /// ```
    /// # use engine::{Engine, Linker, Module, Store};
    /// # let engine = Engine::default();
    /// # let module = Module::new(&engine, engine::guests::PLAIN)?;
    /// # let mut store = Store::new(&engine, ());
    /// # let instance = Linker::new(&engine).instantiate(&mut store, &module)?;
    /// let zero = instance.get_typed_func::<i32, i32>(&store, "zero")?;
    /// assert!(zero.call(&mut store, 0).is_err());
    /// for frame in store.backtrace() {
    ///     match frame.module.function_names().get(&frame.function) {
    ///         Some(name) => println!("in {name}"),
    ///         None => println!("in function {}", frame.function),
    ///     }
    /// }
    /// # assert_eq!(store.backtrace().len(), 1);
    /// # Ok::<(), engine::Error>(())
    /// ```
    pub fn backtrace(&self) -> Vec<TraceFrame> {
        let module = |inner: &Arc<module::Module>| Module { engine: self.engine().clone(), inner: inner.clone() };
        let frames = self.inner.trace.frames.iter();
        frames.map(|(inner, function)| TraceFrame { module: module(inner), function: *function }).collect()
    }
}
