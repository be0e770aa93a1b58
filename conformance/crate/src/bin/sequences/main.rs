//! Compares the Rust crate and the proved one: the types of the functions of instructions, and what random sequences of
//! calls on memories, tables and meters give under a limiter of random answers.
//!
//! usage: sequences [COUNT]: how many sequences are tried, 2,000 if there is no number. It prints what differs. The exit status is 0 if
//! nothing does, 1 if something does, and 2 if nothing was compared.
use std::any::type_name;
use std::env;
use std::process::ExitCode;
use wasmi_core as theirs;
use wasmi_core_proved as here;

/// Each function of an instruction, and its type in both crates.
fn rows() -> Vec<(&'static str, String, String)> {
    include!(concat!(env!("OUT_DIR"), "/types.rs"))
}

mod calls_of_theirs {
    use wasmi_core as library;
    include!("sequence.rs");
}

mod calls_of_here {
    use wasmi_core_proved as library;
    include!("sequence.rs");
}

/// The name of a type without the modules that it stands in.
fn named<T>() -> String {
    let path = type_name::<T>();
    let is_part_of_name = |c: char| c.is_alphanumeric() || c == '_' || c == ':';
    let mut text = String::new();
    for word in path.split_inclusive(|c| !is_part_of_name(c)) {
        text += word.rsplit("::").next().unwrap_or(word);
    }
    text
}

fn unary<A, R>(_: fn(A) -> R) -> String {
    format!("({}) -> {}", named::<A>(), named::<R>())
}

fn binary<A, B, R>(_: fn(A, B) -> R) -> String {
    format!("({}, {}) -> {}", named::<A>(), named::<B>(), named::<R>())
}

fn ternary<A, B, C, R>(_: fn(A, B, C) -> R) -> String {
    format!("({}, {}, {}) -> {}", named::<A>(), named::<B>(), named::<C>(), named::<R>())
}

fn binary_128<R>(_: fn(i64, i64, i64, i64) -> R) -> String {
    named::<R>()
}

fn extract_lane<A, L, R>(f: fn(A, L) -> R) -> String {
    binary(f)
}

fn replace_lane<A, L, I, R>(f: fn(A, L, I) -> R) -> String {
    ternary(f)
}

fn load<R>(_: fn(&[u8], u64, u64) -> R) -> String {
    named::<R>()
}

fn load_at<R>(_: fn(&[u8], usize) -> R) -> String {
    named::<R>()
}

fn store<A, R>(_: fn(&mut [u8], u64, u64, A) -> R) -> String {
    format!("{} -> {}", named::<A>(), named::<R>())
}

fn store_at<A, R>(_: fn(&mut [u8], usize, A) -> R) -> String {
    format!("{} -> {}", named::<A>(), named::<R>())
}

fn load_lane<A, L, R>(_: fn(&[u8], u64, u64, A, L) -> R) -> String {
    format!("{}, {} -> {}", named::<A>(), named::<L>(), named::<R>())
}

fn load_lane_at<A, L, R>(_: fn(&[u8], usize, A, L) -> R) -> String {
    format!("{}, {} -> {}", named::<A>(), named::<L>(), named::<R>())
}

fn store_lane<A, L, R>(_: fn(&mut [u8], u64, u64, A, L) -> R) -> String {
    format!("{}, {} -> {}", named::<A>(), named::<L>(), named::<R>())
}

fn store_lane_at<A, L, R>(_: fn(&mut [u8], usize, A, L) -> R) -> String {
    format!("{}, {} -> {}", named::<A>(), named::<L>(), named::<R>())
}

/// How many sequences differ, of so many. The first lines that differ are printed.
fn differing_sequences(count: u64) -> u64 {
    let mut differing = 0;
    for seed in 1..=count {
        let seed = seed.wrapping_mul(0x9e37_79b9_7f4a_7c15);
        let (theirs, here) = (calls_of_theirs::lines(seed, 40), calls_of_here::lines(seed, 40));
        if theirs != here {
            let place = theirs.iter().zip(&here).position(|(theirs, here)| theirs != here).unwrap_or(0);
            println!("seed {seed}: {:?} in the Rust crate, {:?} here", theirs.get(place), here.get(place));
            differing += 1;
        }
    }
    differing
}

fn main() -> ExitCode {
    let count = env::args().nth(1).map_or(Ok(2000), |word| word.parse::<u64>());
    let Some(count) = count.ok().filter(|count| *count > 0) else {
        eprintln!("The argument is how many sequences are tried, a number above 0.");
        return ExitCode::from(2);
    };
    let rows = rows();
    let mut differing = 0;
    for (name, theirs, here) in rows.iter().filter(|(_, theirs, here)| theirs != here) {
        println!("{name}: {theirs} in the Rust crate, {here} here");
        differing += 1;
    }
    println!("{} functions, {differing} differ", rows.len());
    let sequences = differing_sequences(count);
    println!("{count} sequences, {sequences} differ");
    ExitCode::from(u8::from(differing != 0 || sequences != 0))
}
