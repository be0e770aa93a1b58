//! The types of the root, each method beside a plain model of what the documentation of `wasmi_core` says of it: with
//! arguments, fuel, limiters and contents that all differ, up to each refusal and each error.

mod accesses;
mod limits;
mod memories;
mod model;
mod regions;
mod tables;
mod types;
mod values;
