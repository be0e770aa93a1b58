//! The names of functions, which a custom section has. WebAssembly core specification, appendix (name section).

use crate::compiled::Module;
use crate::reader::Reader;
use std::collections::BTreeMap;

/// The name of the custom section.
pub(crate) const SECTION: &str = "name";

/// The part of it that names functions.
const FUNCTIONS: u8 = 1;

impl Module {
    /// The names of functions by their numbers, in which imported functions come first. A module may have names for none or
    /// for some; a section of names that isn't well-formed is read as far as it is.
    pub fn function_names(&self) -> BTreeMap<u32, &str> {
        let mut reader = Reader::new(&self.inner.names, false);
        let mut names = BTreeMap::new();
        while let (Ok(id), Ok(mut part)) = (reader.byte(), reader.part()) {
            if id != FUNCTIONS {
                continue;
            }
            let _ = part.list(|it| {
                let function = it.u32()?;
                names.insert(function, it.name()?);
                Ok(())
            });
        }
        names
    }
}
