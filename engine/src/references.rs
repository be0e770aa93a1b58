//! References of functions: numbers that tell apart all functions of a store.
//!
//! The functions of an instance have numbers in a row, of which the first one is above 0, which is null.

use std::collections::{BTreeMap, HashMap};

/// Which references belong to which instance.
#[derive(Default)]
pub(crate) struct References {
    /// By their first references, the instances.
    instances: BTreeMap<u32, u32>,
    /// The first reference of each row that was given back, by its length.
    free: HashMap<u32, Vec<u32>>,
    /// How many references there are, or were.
    count: u32,
}

impl References {
    /// A row of references for the functions of an instance, and its first one, unless there are too many functions.
    pub fn take(&mut self, functions: usize) -> Option<u32> {
        let len = u32::try_from(functions.max(1)).ok()?;
        if let Some(first) = self.free.get_mut(&len).and_then(Vec::pop) {
            return Some(first);
        }
        let last = self.count.checked_add(len)?;
        Some(std::mem::replace(&mut self.count, last) + 1)
    }

    /// The row that begins at this reference is that of an instance.
    pub fn give(&mut self, first: u32, instance: u32) {
        self.instances.insert(first, instance);
    }

    pub fn give_back(&mut self, first: u32, functions: usize) {
        self.instances.remove(&first);
        self.free.entry(functions.max(1) as u32).or_default().push(first);
    }

    /// The instance whose function this may be, and the number of the function in it.
    pub fn find(&self, reference: u32) -> Option<(u32, u32)> {
        let (first, instance) = self.instances.range(..=reference).next_back()?;
        Some((*instance, reference - first))
    }
}
