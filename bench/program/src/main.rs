//! Times of the Rust crate wasmi_core and of the same things here, in turns, in one program. What is here are libraries that
//! Rattle compiled, or, with the feature `rust`, the Rust crate of this repository.
//!
//! usage: bench [WORD]: the rows with WORD in their names. A line has a kind, a name and times in nanoseconds, the last time
//! that of here; DIFFERS stands where an answer is not the crate's.

#[cfg(not(feature = "rust"))]
#[link(name = "bench_lanewise", kind = "static")]
#[link(name = "bench_widening", kind = "static")]
#[link(name = "bench_accesses", kind = "static")]
#[link(name = "bench_numbers", kind = "static")]
#[link(name = "bench_works", kind = "static")]
#[link(name = "bench_machine", kind = "static")]
#[link(name = "libc_c", kind = "static")]
unsafe extern "C" {}

mod machine;
mod vectors;

use std::hint::black_box;
use std::time::Instant;

fn main() {
    let asked = std::env::args().nth(1).unwrap_or_default();
    vectors::report(&asked);
    report_works(&asked);
    machine::report(&asked);
    machine::report_single_calls(&asked);
}

const TURNS: usize = 31;
const LEAST_MICROSECONDS: u128 = 300;

/// The least time of each of some runs that take turns, so that a busy machine is busy for all: nanoseconds an item, of `TURNS` turns of each run.
pub fn least<const K: usize>(items: usize, mut runs: [&mut dyn FnMut(); K]) -> [f64; K] {
    let repeats = runs.each_mut().map(|run| {
        let mut repeats = 1_u32;
        while nanoseconds(run, repeats) < 1000 * LEAST_MICROSECONDS {
            repeats *= 2;
        }
        repeats
    });
    let mut least = [f64::MAX; K];
    for _ in 0..TURNS {
        for ((run, &repeats), least) in runs.iter_mut().zip(&repeats).zip(&mut least) {
            let one = nanoseconds(run, repeats) as f64 / f64::from(repeats);
            *least = least.min(one / items as f64);
        }
    }
    least
}

fn nanoseconds(run: &mut dyn FnMut(), repeats: u32) -> u128 {
    let start = Instant::now();
    for _ in 0..repeats {
        run();
    }
    start.elapsed().as_nanos()
}

// ---- memories, tables, the meter and numbers: each function does a thing so many times, and answers a checksum

type Work = unsafe extern "C" fn(u64) -> u64;

macro_rules! works {
    ($($name:ident $turns:literal $items:literal)*) => {
        #[cfg(not(feature = "rust"))]
        mod here {
            unsafe extern "C" { $(pub fn $name(turns: u64) -> u64;)* }
        }
        const WORKS: &[(&str, Work, Work, u64, usize)] = &[$((stringify!($name), the_crate::$name, here::$name, $turns, $items)),*];
    };
}

// The name, how often it is done in a call, and how many times are timed in each.
works! {
    table_fill_1000 2000 1 table_copy_1000 2000 1 table_copy_within_10 20000 1 table_copy_within_1000 2000 1
    table_copy_within_100000 100 1 table_get_set 20000 1 table_grow_16 50 16
    memory_grow_page 50 16 memory_write_64 20000 1 memory_write_4096 2000 1 memory_read_64 20000 1 fuel_consume 20000 1
    fuel_consume_unchecked 20000 1 vector_load_store 20000 1 i64_div_s 20000 1 i64_mul_wide_u 20000 1
}

mod the_crate {
    use wasmi_core as library;
    include!("turns.rs");
}

#[cfg(feature = "rust")]
mod here {
    use wasmi_core_proved as library;
    include!("turns.rs");
}

/// Prints a line for each work: nanoseconds a time of the crate, and here.
fn report_works(asked: &str) {
    for &(name, theirs, here, turns, items) in WORKS.iter().filter(|work| work.0.contains(asked)) {
        let run = |of: Work| unsafe { black_box(of)(black_box(turns)) };
        let same = run(theirs) == run(here);
        let [theirs, here] = least(turns as usize * items, [&mut || _ = run(theirs), &mut || _ = run(here)]);
        println!("work {name} {theirs} {here}{}", if same { "" } else { " DIFFERS" });
    }
}
