//! Handles: who needs an item of a store, and which items nobody needs any more.
//!
//! A handle owns a share of an [`Owner`]. When the last share goes, the owner tells its store, which frees the items and
//! gives back what they took of the caps the next time it is used. An instance has a share of each owner that it imports
//! from.

use std::sync::atomic::{AtomicBool, Ordering};
use std::sync::{Arc, Mutex, PoisonError};

/// What the shares of an owner keep.
#[derive(Clone, Copy, Debug)]
pub(crate) enum Kept {
    Instance(u32),
    Memory(u32),
    Table(u32),
    Global(u32),
}

/// The items that nobody needs any more. A store is known by its list.
#[derive(Debug, Default)]
pub(crate) struct Dropped {
    items: Mutex<Vec<Kept>>,
    has_some: AtomicBool,
}

impl Dropped {
    /// One of them, which isn't in the list any more.
    pub fn next(&self) -> Option<Kept> {
        if !self.has_some.load(Ordering::Acquire) {
            return None;
        }
        let mut items = self.items.lock().unwrap_or_else(PoisonError::into_inner);
        let item = items.pop();
        self.has_some.store(!items.is_empty(), Ordering::Release);
        item
    }
}

/// What an instance or an item of the host is kept by.
#[derive(Debug)]
pub(crate) struct Owner {
    pub store: Arc<Dropped>,
    pub kept: Kept,
}

impl Drop for Owner {
    fn drop(&mut self) {
        let mut items = self.store.items.lock().unwrap_or_else(PoisonError::into_inner);
        items.push(self.kept);
        self.store.has_some.store(true, Ordering::Release);
    }
}
