//! Runs of lists of calls: the machine of here, and one of the same calls over the crate's memories, tables, globals and meter.
use std::hint::black_box;
use std::time::Instant;

mod the_crate {
    use conformance::calls::{Call, LOAD, Load, Reply, STORE, Store, find};
    use conformance::machine::{Machine, run};
    use wasmi_core::*;
    include!("runs.rs");

    fn load(name: &str) -> Load {
        find(LOAD, name.as_bytes()).unwrap()
    }

    fn store(name: &str) -> Store {
        find(STORE, name.as_bytes()).unwrap()
    }

    fn new_machine(fuel: Fuel) -> Machine {
        Machine::new(fuel, None)
    }
}

#[cfg(feature = "rust")]
mod here {
    use wasmi_core_proved::machine::{self, Call, NoLimits, Replies, Reply, ResourceLimiterRef};
    use wasmi_core_proved::ops::{LOADS, LoadOp, STORES, StoreOp};
    use wasmi_core_proved::{
        CustomFuelCosts, Fuel, FuelCostsProvider, GlobalType, MemoryType, Mutability, RawRef, RawVal, RefType, TableType, TypedRawRef,
        TypedRawVal, ValType,
    };
    include!("runs.rs");

    type Machine = machine::Machine<'static>;

    fn load(name: &str) -> LoadOp {
        LOADS.iter().find(|(known, _)| *known == name).unwrap().1
    }

    fn store(name: &str) -> StoreOp {
        STORES.iter().find(|(known, _)| *known == name).unwrap().1
    }

    fn new_machine(fuel: Fuel) -> Machine {
        Machine::new(fuel)
    }

    fn nobody() -> ResourceLimiterRef<'static, NoLimits> {
        ResourceLimiterRef::default()
    }

    fn run(machine: &mut Machine, calls: &[Call]) -> impl std::ops::Deref<Target = [Reply]> {
        machine::run(machine, calls, &mut nobody()).unwrap()
    }

    /// Makes `count` calls of one kind, and answers them `runs` times, one by one. The replies of the last time are summed up.
    fn single_calls(kind: u64, count: u64, runs: u64, mut answer: impl FnMut(&mut Machine, &[Call]) -> u64) -> u64 {
        let (mut machine, calls) = machine_and_calls(kind, count);
        let mut sum = 0;
        for _ in 0..runs {
            sum = black_box(&calls).chunks(1).fold(0_u64, |sum, one| sum.wrapping_mul(31).wrapping_add(answer(&mut machine, one)));
        }
        sum
    }

    pub unsafe extern "C" fn machine_steps(kind: u64, count: u64, runs: u64) -> u64 {
        single_calls(kind, count, runs, |machine, one| number_of(&machine.step(&one[0], &mut nobody())))
    }

    pub unsafe extern "C" fn machine_runs_of_one(kind: u64, count: u64, runs: u64) -> u64 {
        single_calls(kind, count, runs, |machine, one| number_of(&run(machine, one)[0]))
    }

    pub unsafe extern "C" fn machine_runs_into_of_one(kind: u64, count: u64, runs: u64) -> u64 {
        let mut replies = Replies::with_capacity(1).unwrap();
        single_calls(kind, count, runs, |machine, one| {
            machine::run_into(machine, one, &mut nobody(), &mut replies).unwrap();
            number_of(&replies.as_slice()[0])
        })
    }
}

#[cfg(not(feature = "rust"))]
mod here {
    unsafe extern "C" {
        pub fn machine_runs(kind: u64, count: u64, runs: u64) -> u64;
        pub fn machine_steps(kind: u64, count: u64, runs: u64) -> u64;
        pub fn machine_runs_of_one(kind: u64, count: u64, runs: u64) -> u64;
        pub fn machine_runs_into_of_one(kind: u64, count: u64, runs: u64) -> u64;
    }
}

/// What glibc's allocator can be told.
mod allocator {
    pub const TRIM_THRESHOLD: i32 = -1;
    pub const MMAP_MAX: i32 = -4;

    unsafe extern "C" {
        pub fn mallopt(parameter: i32, value: i32) -> i32;
    }
}

/// The kinds of calls, by their numbers; the last is one of each other in turn.
const KINDS: [&str; 16] = [
    "load_u64", "i32_load8_s", "store32", "i64_store16", "write_64", "read_64", "grow_memory_0", "fuel", "get_element", "set_element", "fill_16",
    "copy_within_16", "grow_table_0", "set_global", "get_global", "mixed",
];
/// Has freed memory stay with the program. A list of replies would else be mapped anew, page by page, in some runs and not in others.
fn keep_freed_memory() {
    let told = unsafe { allocator::mallopt(allocator::MMAP_MAX, 0) & allocator::mallopt(allocator::TRIM_THRESHOLD, -1) };
    assert_eq!(told, 1);
}

/// Prints a line for each kind of calls and each length of a list: nanoseconds a call, with what the drop of its reply takes, of
/// the crate and here. It is the difference of some runs of the list and one run.
pub fn report(asked: &str) {
    keep_freed_memory();
    let lengths = |name| if name == "mixed" { &[1000, 10_000, 100_000, 1_000_000][..] } else { &[10_000][..] };
    for (kind, name) in (0..).zip(KINDS).filter(|(_, name)| name.contains(asked)) {
        for &count in lengths(name) {
            let more: u64 = (200_000 / count).max(4);
            let timed = |of: unsafe extern "C" fn(u64, u64, u64) -> u64, runs| {
                let start = Instant::now();
                black_box(unsafe { black_box(of)(kind, count, runs) });
                start.elapsed().as_nanos() as f64
            };
            let mut least = [f64::MAX; 4];
            for _ in 0..if count < 1_000_000 { 21 } else { 5 } {
                let times = [timed(the_crate::machine_runs, 1), timed(here::machine_runs, 1), timed(the_crate::machine_runs, 1 + more), timed(here::machine_runs, 1 + more)];
                least = std::array::from_fn(|i| least[i].min(times[i]));
            }
            let same = unsafe { the_crate::machine_runs(kind, count, 2) == here::machine_runs(kind, count, 2) };
            let [theirs, here] = [0, 1].map(|i| (least[i + 2] - least[i]) / (more * count) as f64);
            println!("run {name}:{count} {theirs} {here}{}", if same { "" } else { " DIFFERS" });
        }
    }
}

/// Prints two lines for each kind of calls: nanoseconds a call that is made alone, by a `run` of a list of one call and by `step`, and
/// by `run` and by `run_into`.
pub fn report_single_calls(asked: &str) {
    const COUNT: u64 = 10_000;
    let ways: [unsafe extern "C" fn(u64, u64, u64) -> u64; 3] = [here::machine_runs_of_one, here::machine_steps, here::machine_runs_into_of_one];
    for (kind, name) in (0..).zip(KINDS).filter(|(_, name)| name.contains(asked)) {
        let mut least = [[f64::MAX; 2]; 3];
        let timed = |of: unsafe extern "C" fn(u64, u64, u64) -> u64, runs| {
            let start = Instant::now();
            black_box(unsafe { black_box(of)(kind, COUNT, runs) });
            start.elapsed().as_nanos() as f64
        };
        for _ in 0..21 {
            for (least, way) in least.iter_mut().zip(ways) {
                *least = [least[0].min(timed(way, 1)), least[1].min(timed(way, 21))];
            }
        }
        let sums = ways.map(|way| unsafe { way(kind, COUNT, 2) });
        let differs = if sums.iter().all(|sum| *sum == sums[0]) { "" } else { " DIFFERS" };
        let [run, step, into] = least.map(|[one, more]| (more - one) / (20 * COUNT) as f64);
        println!("single {name} {run} {step}{differs}\ninto {name} {run} {into}{differs}");
    }
}
