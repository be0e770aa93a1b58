//! What `tools/rust` writes: the calls for C, as a plain library (`c`), and the functions that are exported (`c_lib`).

pub mod c;
pub mod c_lib;
