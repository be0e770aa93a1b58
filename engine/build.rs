//! Says whether handlers may call each other without end: where the compiler makes a jump of a call that comes last. Over
//! the Rust crate it does so only if it optimises both together, as the release profile of the package in `crate/` says.
//! In several codegen units handlers that have variables in memory aren't jumps, and a long run would overflow the stack.
//! How a program that depends on the engine is compiled is unknown here, so there such handlers return to a loop, unless
//! the feature `jumps` says that it is in one unit.

use std::env;

fn main() {
    let is = |name: &str, values: &[&str]| env::var(name).is_ok_and(|it| values.contains(&it.as_str()));
    let is_one_unit = option_env!("CARGO_PRIMARY_PACKAGE").is_some() || env::var_os("CARGO_FEATURE_JUMPS").is_some();
    let makes_jumps = is("OPT_LEVEL", &["2", "3"])
        && is("CARGO_CFG_TARGET_ARCH", &["x86_64", "aarch64"])
        && !is("CARGO_CFG_TARGET_OS", &["windows"])
        && (env::var_os("CARGO_FEATURE_CRATE").is_none() || is("PROFILE", &["release"]))
        && env::var_os("CARGO_FEATURE_PORTABLE").is_none();
    // Where a script names nothing, a change of any file of the package makes all of it compile again.
    println!("cargo::rerun-if-env-changed=OPT_LEVEL");
    println!("cargo::rustc-check-cfg=cfg(jumps, one_unit)");
    if makes_jumps {
        println!("cargo::rustc-cfg=jumps");
    }
    if makes_jumps && is_one_unit {
        println!("cargo::rustc-cfg=one_unit");
    }
}
