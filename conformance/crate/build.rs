//! Writes the functions of instructions, by the names of include/numbers.tsv. With the feature `library` it links the static library of C,
//! which is in crates/*/out, or else in the folder that WASMI_ARCHIVES names, as that of a release. It links anew if the variable
//! WASMI_LIBRARY has another text.
use std::env::var;
use std::fmt::Write;
use std::{fs, path};

/// The kinds of the rows that are instructions; others are statuses, kinds of calls, types, answers and functions.
const INSTRUCTIONS: [&str; 9] =
    ["unary", "binary", "ternary", "extract_lane", "replace_lane", "load", "store", "load_lane", "store_lane"];

/// Names of instructions that the Rust crate has no function for.
const LACKING: &[&str] = &[
    // A line for each.
];

fn main() {
    let numbers = "../../include/numbers.tsv";
    println!("cargo:rerun-if-changed={numbers}");
    let rows = fs::read_to_string(numbers).expect("the numbers of instructions");
    let folder = var("OUT_DIR").expect("a folder");
    let [functions, types] = tables(&rows);
    fs::write(path::Path::new(&folder).join("functions.rs"), functions).expect("a file");
    fs::write(path::Path::new(&folder).join("types.rs"), types).expect("a file");
    if var("CARGO_FEATURE_LIBRARY").is_ok() {
        link();
    }
}

/// The functions on operands, for each library; and the types of the functions of both libraries, also of those that take an address.
fn tables(rows: &str) -> [String; 2] {
    let (mut functions, mut types) = (String::from("vec![\n"), String::from("vec![\n"));
    for row in rows.lines() {
        let [kind, number, name] = row.split('\t').collect::<Vec<_>>()[..] else { continue };
        if !INSTRUCTIONS.contains(&kind) || LACKING.contains(&name) {
            continue;
        }
        let is_scalar = ["i32_", "i64_", "load_", "store"].iter().any(|front| name.starts_with(front));
        let function = format!("{}::{name}", if is_scalar { "wasm" } else { "simd" });
        let shape = if name.ends_with("128") { "binary_128" } else { kind };
        let has_address = kind.starts_with("load") || kind.starts_with("store");
        let at = if has_address { format!("{function}_at, ") } else { String::new() };
        let row = format!("kind: \"{kind}\", number: {number}, name: \"{name}\"");
        writeln!(functions, "Row {{ {row}, function: |it| {shape}({function}, {at}it) }},").expect("text");
        for (name, end) in [(name.into(), ""), (format!("{name}_at"), "_at")].iter().take(1 + usize::from(has_address))
        {
            let [theirs, here] = ["theirs", "here"].map(|library| format!("{shape}{end}({library}::{function}{end})"));
            writeln!(types, "(\"{name}\", {theirs}, {here}),").expect("text");
        }
    }
    [functions + "]", types + "]"]
}

fn link() {
    let archives = var("WASMI_ARCHIVES").unwrap_or_else(|_| "../../crates/wasmi_c_lib/out".into());
    println!("cargo:rustc-link-search=native={}", fs::canonicalize(archives).expect("a folder").display());
    println!("cargo:rustc-link-lib=static=wasmi_core");
    for name in ["WASMI_ARCHIVES", "WASMI_LIBRARY"] {
        println!("cargo:rerun-if-env-changed={name}");
    }
}
