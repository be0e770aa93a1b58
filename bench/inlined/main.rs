//! Times the loops of rows.c, in which the calls for C are inlined, beside the same loops over the Rust crate.
//! usage: inlined [ROUNDS]: for each row ns over the crate on pairs of words, ns in C, and their quotient.
use std::hint::black_box;
use wasmi_core::{V128, simd, wasm};

type Row = unsafe extern "C" fn(*mut u8, usize, u64) -> u64;
type Words = [u64; 2];
const COUNT: u64 = 1 << 24;

fn place(i: u64) -> u64 {
    i.wrapping_mul(40_503) & 0xfff8
}

#[inline(never)]
fn load64(memory: &mut [u8], n: u64) -> u64 {
    let (mut sum, mut traps) = (0u64, 0);
    for i in 0..n {
        match wasm::load_u64(memory, place(i), 0) {
            Ok(value) => sum = sum.wrapping_add(value),
            Err(_) => traps += 1,
        }
    }
    sum ^ traps
}

#[inline(never)]
fn i64_load8_s(memory: &mut [u8], n: u64) -> u64 {
    let (mut sum, mut traps) = (0i64, 0);
    for i in 0..n {
        match wasm::i64_load8_s(memory, place(i), 3) {
            Ok(value) => sum = sum.wrapping_add(value),
            Err(_) => traps += 1,
        }
    }
    sum as u64 ^ traps
}

#[inline(never)]
fn store64(memory: &mut [u8], n: u64) -> u64 {
    let mut traps = 0;
    for i in 0..n {
        traps += u64::from(wasm::store64(memory, place(i), 0, i).is_err());
    }
    traps ^ u64::from(memory[8])
}

#[inline(never)]
fn i64_add_rotl(_memory: &mut [u8], n: u64) -> u64 {
    (0..n as i64).fold(0, |sum, i| wasm::i64_rotl(wasm::i64_add(sum, i), 5)) as u64
}

fn vector(words: Words) -> V128 {
    V128::from(u128::from(words[0]) | u128::from(words[1]) << 64)
}

fn words(vector: V128) -> Words {
    let number = vector.as_u128();
    [number as u64, (number >> 64) as u64]
}

fn pairs(memory: &[u8]) -> Vec<Words> {
    let word = |bytes: &[u8]| u64::from_le_bytes(bytes.try_into().unwrap());
    memory[..16384].chunks(16).map(|it| [word(&it[..8]), word(&it[8..])]).collect()
}

macro_rules! rows {
    ($($scalar:ident)*; $($vector:ident)*) => {
        mod in_c {
            unsafe extern "C" {
                $(pub fn $scalar(memory: *mut u8, len: usize, n: u64) -> u64;)*
                $(pub fn $vector(memory: *mut u8, len: usize, n: u64) -> u64;)*
            }
        }
        $(#[inline(never)]
        fn $vector(memory: &mut [u8], n: u64) -> u64 {
            let (a, b, mut out) = (pairs(memory), pairs(&memory[16384..]), pairs(memory));
            for _ in 0..n / 1024 {
                for ((a, b), out) in a.iter().zip(&b).zip(&mut out) {
                    *out = words(simd::$vector(vector(*a), vector(*b)));
                }
                black_box(&mut out);
            }
            out.iter().fold(0, |sum, it| sum ^ it[0])
        })*
        const ROWS: &[(&str, fn(&mut [u8], u64) -> u64, Row)] = &[
            $((stringify!($scalar), $scalar, in_c::$scalar),)*
            $((stringify!($vector), $vector, in_c::$vector),)*
        ];
    };
}
rows! {
    load64 i64_load8_s store64 i64_add_rotl;
    i8x16_add i8x16_min_s i8x16_add_sat_u i8x16_eq i8x16_swizzle i32x4_mul
}

/// Nanoseconds of processor time of this thread, by the C library's clock of that number.
fn now() -> i64 {
    unsafe extern "C" {
        fn clock_gettime(clock: i32, time: &mut [i64; 2]) -> i32;
    }
    const THREAD: i32 = 3;
    let mut time = [0; 2];
    assert!(unsafe { clock_gettime(THREAD, &mut time) } == 0);
    time[0] * 1_000_000_000 + time[1]
}

fn memory() -> Vec<u8> {
    let mut x = 1u64;
    let step = |_| {
        x = x.wrapping_mul(6364136223846793005).wrapping_add(1442695040888963407);
        (x >> 56) as u8
    };
    (0..1 << 16).map(step).collect()
}

/// The time of a call for each of its turns, and what it gave and left.
fn timed(run: impl Fn(&mut [u8]) -> u64) -> (f64, u64, Vec<u8>) {
    let mut memory = memory();
    let start = now();
    let given = run(black_box(&mut memory));
    ((now() - start) as f64 / COUNT as f64, given, memory)
}

fn main() {
    let rounds = std::env::args().nth(1).map_or(21, |it| it.parse().expect("ROUNDS is a number"));
    println!("row\tcrate\tin C\tquotient");
    for (name, over_crate, in_c) in ROWS {
        let (mut theirs, mut here) = (f64::MAX, f64::MAX);
        for _ in 0..rounds {
            let (ns, given, left) = timed(|memory| over_crate(memory, COUNT));
            theirs = theirs.min(ns);
            let (ns, given_in_c, left_in_c) = timed(|memory| unsafe { in_c(memory.as_mut_ptr(), memory.len(), COUNT) });
            here = here.min(ns);
            assert!(given == given_in_c && left == left_in_c, "{name}: results differ");
        }
        println!("{name}\t{theirs:.2}\t{here:.2}\t{:.2}", here / theirs);
    }
}
