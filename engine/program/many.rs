//! Measures many instances of a module: made, run and dropped one after another, then all at once in one store; as many
//! tenants, which have a store with fuel and caps of their own each; and a tenant on each of four threads. The bytes of a
//! guest's memories are also made alone, and the first write to each 4,096 of them is timed alone, since the system may take
//! longer for them than all else takes.
//!
//! usage: `cargo run --release --example many -- FILE FUNCTION ARGUMENT COUNT [BYTES MICROSECONDS]`. Times are those of the
//! processor, as Linux counts them; the bytes are those of the machine's memory that the process has more while all
//! instances are there. All tenants are made, run and dropped seven times. The first time the system gives the process
//! memory, and later there is that of the tenants before. If a tenant takes more bytes than BYTES in the first round, the
//! status is 1, and also if it takes more than MICROSECONDS: in the first round where the guest has no memory, else in the
//! fastest one.
#![forbid(unsafe_code)]

use engine::{Caps, Config, Engine, Instance, Linker, Module, Store, TypedFunc};
use std::error::Error;
use std::time::Duration;
use std::{env, fs, thread};

type Outcome<T> = Result<T, Box<dyn Error + Send + Sync>>;

/// A module, and a call of it.
#[derive(Clone)]
struct Guest {
    engine: Engine,
    module: Module,
    function: String,
    argument: i32,
}

/// The caps of a store.
const CAPS: Caps = Caps { bytes: 1 << 34, elements: 1 << 30 };

/// An instance, and the function of it that is called.
type Made = (Instance, TypedFunc<i32, i64>);

impl Guest {
    fn store(&self) -> Outcome<Store<()>> {
        let mut store = Store::new(&self.engine, ());
        store.set_fuel(u64::MAX)?;
        store.set_caps(CAPS);
        Ok(store)
    }

    fn instance(&self, store: &mut Store<()>) -> Outcome<Made> {
        let instance = Linker::new(&self.engine).instantiate(&mut *store, &self.module)?;
        let function = instance.get_typed_func(&*store, &self.function)?;
        Ok((instance, function))
    }

    fn memory_bytes(&self) -> Outcome<usize> {
        let mut store = self.store()?;
        Ok(self.instance(&mut store)?.0.contents(&store).memories.iter().map(|it| it.data_size()).sum())
    }

    fn run(&self, (_, function): &Made, store: &mut Store<()>) -> Outcome<()> {
        Ok(function.call(store, self.argument).map(drop)?)
    }
}

fn one_after_another(guest: &Guest, count: u32) -> Outcome<Duration> {
    let (mut store, begun) = (guest.store()?, processor_time()?);
    for _ in 0..count {
        let made = guest.instance(&mut store)?;
        guest.run(&made, &mut store)?;
    }
    Ok((processor_time()? - begun) / count)
}

/// Instances or tenants that are there at once: the times of making and of running each, and the bytes of each.
struct Measured<X> {
    all: Vec<X>,
    made: Duration,
    run: Duration,
    bytes: u64,
}

fn measured<X>(
    count: u32,
    make: impl FnMut(u32) -> Outcome<X>,
    run: impl FnMut(&mut X) -> Outcome<()>,
) -> Outcome<Measured<X>> {
    let (before, begun) = (resident()?, processor_time()?);
    let mut all = (0..count).map(make).collect::<Outcome<Vec<_>>>()?;
    let made = processor_time()?;
    all.iter_mut().try_for_each(run)?;
    let (ended, bytes) = (processor_time()?, resident()?.saturating_sub(before) / u64::from(count));
    Ok(Measured { all, made: (made - begun) / count, run: (ended - made) / count, bytes })
}

/// The time of the first write to each 4,096 of so many bytes, for which a system with pages of this size gives a page.
fn first_writes(bytes: usize, count: u32) -> Outcome<Duration> {
    let begun = processor_time()?;
    let mut all = vec![0_u8; bytes * count as usize];
    all.iter_mut().step_by(4096).for_each(|it| *it = 1);
    std::hint::black_box(&all);
    Ok((processor_time()? - begun) / count)
}

/// A tenant: a store with fuel and caps of its own, and an instance.
fn tenant(guest: &Guest) -> Outcome<(Store<()>, Made)> {
    let mut store = guest.store()?;
    let made = guest.instance(&mut store)?;
    Ok((store, made))
}

/// Drops the instance of a tenant, which gets back its caps.
fn evict((mut store, made): (Store<()>, Made)) -> Outcome<()> {
    drop(made);
    if store.caps() == CAPS { Ok(()) } else { Err("a tenant hasn't got back its caps".into()) }
}

const ROUNDS: usize = 7;

/// What making and running a tenant takes: its bytes and its time in the first round, and its time in the fastest one.
struct Tenant {
    bytes: u64,
    first: Duration,
    least: Duration,
}

/// Makes, runs and drops so many tenants in each round.
fn rounds(guest: &Guest, count: u32) -> Outcome<Tenant> {
    // Something above the memory of the tenants stays, so that the process keeps that memory when they are dropped.
    let (mut above, mut taken) = (vec![], Tenant { bytes: 0, first: Duration::ZERO, least: Duration::MAX });
    for round in 0..ROUNDS {
        let tenants = measured(count, |_| tenant(guest), |(store, made)| guest.run(made, store))?;
        above.push(tenant(guest)?);
        let time = tenants.made + tenants.run;
        let begun = processor_time()?;
        tenants.all.into_iter().try_for_each(evict)?;
        let dropped = (processor_time()? - begun) / count;
        if round == 0 {
            let Measured { made, run, bytes, .. } = tenants;
            (taken.bytes, taken.first) = (bytes, time);
            println!("tenants, first: {time:?} ({made:?} made, {run:?} run), {dropped:?} dropped, {bytes} bytes each");
        }
        taken.least = taken.least.min(time);
    }
    println!("tenants, least of {ROUNDS}: {:?}", taken.least);
    Ok(taken)
}

/// Calls an instance so often on each of so many threads. The time is the longest one of a thread.
fn on_threads(guest: &Guest, threads: u32, count: u32) -> Outcome<Duration> {
    let run = move |guest: Guest| -> Outcome<Duration> {
        let mut store = guest.store()?;
        let made = guest.instance(&mut store)?;
        let begun = processor_time()?;
        (0..count).try_for_each(|_| guest.run(&made, &mut store))?;
        Ok((processor_time()? - begun) / count)
    };
    let running: Vec<_> = (0..threads).map(|_| guest.clone()).map(|it| thread::spawn(move || run(it))).collect();
    let times = running.into_iter().map(|it| it.join().or(Err("a thread panicked"))?).collect::<Outcome<Vec<_>>>()?;
    Ok(times.into_iter().max().unwrap_or_default())
}

/// The processor time of this thread.
fn processor_time() -> Outcome<Duration> {
    // The system brings its count up to date when the thread lets others run.
    thread::yield_now();
    let line = fs::read_to_string("/proc/thread-self/schedstat")?;
    Ok(Duration::from_nanos(line.split(' ').next().unwrap_or("").parse()?))
}

/// The bytes of the machine's memory that the process has.
fn resident() -> Outcome<u64> {
    let status = fs::read_to_string("/proc/self/status")?;
    let line = status.lines().find_map(|it| it.strip_prefix("VmRSS:")).ok_or("the system doesn't tell its memory")?;
    Ok(line.trim().trim_end_matches(" kB").parse::<u64>()? * 1024)
}

/// Instances of one store that are there at once, in memory that the process has.
fn in_one_store(guest: &Guest, count: u32) -> Outcome<()> {
    let mut store = guest.store()?;
    let here = measured(count, |_| guest.instance(&mut store), |_| Ok(()))?;
    let begun = processor_time()?;
    drop(here.all);
    if store.caps() != CAPS {
        return Err("a store hasn't got back its caps".into());
    }
    let dropped = (processor_time()? - begun) / count;
    println!("instances: {:?} made, {dropped:?} dropped", here.made);
    Ok(())
}

/// The bytes of a guest's memories without the guest: in memory that the process has, and as the system gives it.
fn bytes_alone(size: usize, count: u32) -> Outcome<()> {
    let alone = measured(count, |it| Ok(vec![it as u8 | 1; size]), |_| Ok(()))?;
    println!("{size} bytes alone: {:?}", alone.made);
    println!("the first write to each 4096 of {size} bytes: {:?}", first_writes(size, count)?);
    Ok(())
}

fn main() -> Outcome<()> {
    let words: Vec<String> = env::args().skip(1).collect();
    let (file, function, argument, count, bounds) = match &words[..] {
        [file, function, argument, count] => (file, function, argument, count, None),
        [file, function, argument, count, bytes, time] => {
            (file, function, argument, count, Some((bytes.parse()?, Duration::from_micros(time.parse()?))))
        }
        _ => return Err("usage: many FILE FUNCTION ARGUMENT COUNT [BYTES MICROSECONDS]".into()),
    };
    let engine = Engine::new(Config::default().consume_fuel(true));
    let module = Module::new(&engine, &fs::read(file)?)?;
    let guest = Guest { engine, module, function: function.clone(), argument: argument.parse()? };
    let count: u32 = count.parse()?;
    let tenant = rounds(&guest, count)?;
    println!("one after another: {:?} each", one_after_another(&guest, count)?);
    in_one_store(&guest, count)?;
    let size = guest.memory_bytes()?;
    bytes_alone(size, count)?;
    println!("a thread: {:?} a call", on_threads(&guest, 1, count)?);
    println!("four threads: {:?} a call", on_threads(&guest, 4, count)?);
    let (bytes, time) = (tenant.bytes, if size == 0 { tenant.first } else { tenant.least });
    match bounds {
        Some((most, _)) if bytes > most => Err(format!("a tenant takes {bytes} bytes").into()),
        Some((_, most)) if time > most => Err(format!("a tenant takes {time:?}").into()),
        _ => Ok(()),
    }
}
