//! Times of the public functions of the Rust crate wasmi_core, and of the same functions of the crate in rust/, in turns.
//!
//! usage: api time [WORD]: of the rows with WORD in their names, a line with the name and the nanoseconds of both crates, each
//! the least of `ROUNDS` rounds. api count [WORD]: the names alone; each row calls `mark` around `COUNTED` turns of each crate,
//! for a program that counts instructions. The status is 1, with the names, if the crates' answers differ.

mod answer;

use std::any::type_name;
use std::hint::black_box;
use std::time::{Duration, Instant};

use answer::{Answer, mix};

/// So often are the turns of a row timed, in slices of at least `SLICE`, the crates one after another.
const ROUNDS: usize = 201;
const SLICE: Duration = Duration::from_micros(40);
const COUNTED: u64 = 500;
const COMPARED: u64 = 300;

/// A function and what it is called with.
struct Row {
    name: &'static str,
    /// The time of so many turns, between two calls of `mark`.
    time: Box<dyn Fn(u64) -> Duration>,
    /// What the turns answer, as one number.
    answers: Box<dyn Fn(u64) -> u64>,
}

/// A row: what is made before the turns, and a turn, which gets it and the number of the turn. The compiler knows neither.
fn row<S: 'static, R: Answer>(name: &'static str, made: fn() -> S, turn: impl Fn(&mut S, u64) -> R + Copy + 'static) -> Row {
    let time = move |turns| {
        let mut state = made();
        mark();
        let start = Instant::now();
        for i in 0..turns {
            black_box(&turn(black_box(&mut state), black_box(i)));
        }
        let time = start.elapsed();
        mark();
        time
    };
    let answers = move |turns| {
        let mut state = made();
        (0..turns).fold(0, |sum, i| mix(sum, turn(&mut state, i).answer()))
    };
    Row { name, time: Box::new(time), answers: Box::new(answers) }
}

/// Where what is counted begins, and where it ends.
#[inline(never)]
fn mark() {
    black_box(());
}

/// The Rust crate.
mod theirs {
    use wasmi_core as library;
    include!("rows.rs");
}

/// The crate in rust/.
mod here {
    use wasmi_core_proved as library;
    include!("rows.rs");
}

/// How many turns take a slice.
fn turns_of(row: &Row) -> u64 {
    let mut turns = 8;
    while (row.time)(turns) < SLICE {
        turns *= 2;
    }
    turns
}

/// The least nanoseconds of a turn of both.
fn least(rows: [&Row; 2]) -> [f64; 2] {
    let turns = rows.map(turns_of).into_iter().max().unwrap_or(1);
    let mut least = [f64::MAX; 2];
    for _ in 0..ROUNDS {
        for (row, least) in rows.iter().zip(&mut least) {
            *least = least.min((row.time)(turns).as_nanos() as f64 / turns as f64);
        }
    }
    least
}

fn main() {
    let mut arguments = std::env::args().skip(1);
    let (form, word) = (arguments.next().unwrap_or_default(), arguments.next().unwrap_or_default());
    assert!(["time", "count"].contains(&form.as_str()), "usage: api time|count [WORD]");
    let name = type_name::<wasmi_core::Memory>();
    assert!(name.starts_with("wasmi_core::"), "{name} is no type of the Rust crate");
    let mut differ = Vec::new();
    for (theirs, here) in theirs::rows().iter().zip(&here::rows()) {
        if !theirs.name.contains(&word) {
            continue;
        }
        if (theirs.answers)(COMPARED) != (here.answers)(COMPARED) {
            differ.push(theirs.name);
        } else if form == "time" {
            let [theirs_takes, here_takes] = least([theirs, here]);
            println!("{} {theirs_takes:.3} {here_takes:.3}", theirs.name);
        } else {
            println!("{}", theirs.name);
            (theirs.time)(COUNTED);
            (here.time)(COUNTED);
        }
    }
    assert!(differ.is_empty(), "answers differ: {}", differ.join(" "));
}
