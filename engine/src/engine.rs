//! What tenants share: how modules are translated, and the stacks that calls run on.

use crate::limits;
use crate::stack::Stack;
use std::fmt;
use std::sync::{Arc, Mutex, PoisonError};

/// How an [`Engine`] translates and runs modules.
#[derive(Clone, Copy, Debug, Default)]
pub struct Config {
    is_metered: bool,
    is_profiled: bool,
}

impl Config {
    pub(crate) fn is_metered(self) -> bool {
        self.is_metered
    }

    pub(crate) fn is_profiled(self) -> bool {
        self.is_profiled
    }

    /// Whether code takes fuel. If not, which is so at first, a store has no meter.
    ///
    /// # What costs fuel
    ///
    /// - An instruction costs a unit, with the exceptions that the section *Fuel* of the package's README has.
    /// - What fills, copies, initializes or grows a memory or a table costs besides a unit for each 64 bytes, rounded
    ///   down. A page of 65,536 bytes thus costs 1,024 units, and an element of a table counts as 4 bytes.
    /// - The active segments of a module cost that when it is instantiated, and its start function what it executes.
    /// - The host's own reads, writes and growths cost nothing, and its functions what they charge
    ///   ([`Caller::charge_bytes`](crate::Caller::charge_bytes)).
    ///
    /// Fuel is taken for a piece of code that is executed as a whole, before it is begun.
    pub fn consume_fuel(&mut self, is_metered: bool) -> &mut Self {
        self.is_metered = is_metered;
        self
    }

    /// Whether code takes fuel and counts what it executes, for [`Store::profile`](crate::Store::profile). If not,
    /// which is so at first, nothing is counted.
    pub fn profile(&mut self, is_profiled: bool) -> &mut Self {
        self.is_metered |= is_profiled;
        self.is_profiled = is_profiled;
        self
    }
}

/// An engine: modules are made for it, and stores run them. A clone is the same engine.
#[derive(Clone, Default)]
pub struct Engine {
    shared: Arc<Shared>,
}

#[derive(Default)]
struct Shared {
    config: Config,
    /// The stacks that no call runs on.
    stacks: Mutex<Vec<Stack>>,
}

impl Engine {
    /// An engine with this configuration.
    pub fn new(config: &Config) -> Self {
        Self { shared: Arc::new(Shared { config: *config, stacks: Mutex::default() }) }
    }

    /// Whether its modules take fuel.
    pub fn is_metered(&self) -> bool {
        self.shared.config.is_metered
    }

    pub(crate) fn config(&self) -> Config {
        self.shared.config
    }

    pub(crate) fn is_same(&self, other: &Self) -> bool {
        Arc::ptr_eq(&self.shared, &other.shared)
    }

    /// A stack that no call runs on.
    pub(crate) fn stack(&self) -> Stack {
        let stack = self.shared.stacks.lock().unwrap_or_else(PoisonError::into_inner).pop();
        stack.unwrap_or_default()
    }

    /// Takes a stack back.
    pub(crate) fn keep(&self, stack: Stack) {
        let mut stacks = self.shared.stacks.lock().unwrap_or_else(PoisonError::into_inner);
        if stacks.len() < limits::STACKS {
            stacks.push(stack);
        }
    }
}

impl fmt::Debug for Engine {
    fn fmt(&self, f: &mut fmt::Formatter<'_>) -> fmt::Result {
        f.debug_struct("Engine").field("config", &self.shared.config).finish_non_exhaustive()
    }
}
