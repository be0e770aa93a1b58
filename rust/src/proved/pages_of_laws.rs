//! What holds of all values, memories, runs and scripts, beyond what the contract of one function says.
//!
//! Each function here does nothing and isn't there for a caller: its contract states a law, which is proved of the Rattle
//! source. They are pages of this reference alone.

pub use crate::proved::laws::*;
// The traits of lanes and bytes that laws name.
pub use crate::proved::accesses::access::LittleEndianConvert;
pub use crate::proved::accesses::laws as accesses;
pub use crate::proved::budget::laws as pool;
#[cfg(feature = "std")]
pub use crate::proved::grammar::laws as grammar;
pub use crate::proved::lanes::Lanes;
pub use crate::proved::lanes::laws as lanes;
pub use crate::proved::machine::laws as machine;
pub use crate::proved::raw::laws as raw;
#[cfg(feature = "std")]
pub use crate::proved::script::laws as script;
pub use crate::proved::store::laws as store;
pub use crate::proved::widening::laws as widening;
