//! Does works of the Rust crate in the folder rust again and again, and refuses each of their requests for memory in turn.
//!
//! usage: refused SEED SCRIPTS
//!
//! SCRIPTS random scripts of each kind, and a list of other works. Up to the refusal a work has to give what it gives without one; the first thing that it gives
//! otherwise has to say that there was no memory. Nothing aborts the process. Not among the works is what can't be refused without an abort: a `Trap`, the
//! shared list of a `FuncType` of more than 21 entries, and the root's `ElementSegment::new`. The exit status is 1 where a work isn't as said, and where no request was refused.
use conformance::generator::{Generator, PROFILES};
use std::alloc::{GlobalAlloc, Layout, System};
use std::fmt::Debug;
use std::io::{Cursor, Write};
use std::panic::{AssertUnwindSafe, catch_unwind};
use std::process::exit;
use std::sync::atomic::{AtomicBool, AtomicUsize, Ordering::Relaxed};
use wasmi_core_proved::machine::{self, Call, Machine, NoLimits, Reply};
use wasmi_core_proved::pool::Pool;
use wasmi_core_proved::script::replay;
use wasmi_core_proved::*;

/// Whether requests are counted; how many there were; and the one that is refused.
static IS_COUNTING: AtomicBool = AtomicBool::new(false);
static REQUESTS: AtomicUsize = AtomicUsize::new(0);
static REFUSED: AtomicUsize = AtomicUsize::new(NONE);
const NONE: usize = usize::MAX;

struct Refusing;

/// Counts a request; whether it is the one to refuse.
fn is_refused() -> bool {
    IS_COUNTING.load(Relaxed) && REQUESTS.fetch_add(1, Relaxed) == REFUSED.load(Relaxed)
}

// SAFETY: what isn't refused is the system's.
unsafe impl GlobalAlloc for Refusing {
    unsafe fn alloc(&self, layout: Layout) -> *mut u8 {
        if is_refused() { std::ptr::null_mut() } else { unsafe { System.alloc(layout) } }
    }
    unsafe fn alloc_zeroed(&self, layout: Layout) -> *mut u8 {
        if is_refused() { std::ptr::null_mut() } else { unsafe { System.alloc_zeroed(layout) } }
    }
    unsafe fn realloc(&self, at: *mut u8, layout: Layout, size: usize) -> *mut u8 {
        if is_refused() { std::ptr::null_mut() } else { unsafe { System.realloc(at, layout, size) } }
    }
    unsafe fn dealloc(&self, at: *mut u8, layout: Layout) {
        unsafe { System.dealloc(at, layout) }
    }
}

#[global_allocator]
static ALLOCATOR: Refusing = Refusing;

/// Does something while requests are counted, and refuses one of them: what it gives, or none if it panics.
fn counted<T>(refused: usize, f: impl FnOnce() -> T) -> Option<T> {
    REFUSED.store(refused, Relaxed);
    IS_COUNTING.store(true, Relaxed);
    let given = catch_unwind(AssertUnwindSafe(f)).ok();
    IS_COUNTING.store(false, Relaxed);
    given
}

/// The requests that were counted since the last call.
fn requests() -> usize {
    REQUESTS.swap(0, Relaxed)
}

/// What a work gives, in lines.
type Given = Vec<String>;

/// A line of what a step gives, or that it panics.
fn line<T: Debug>(given: Option<T>) -> String {
    given.map_or("panics: out of memory".into(), |given| format!("{given:?}"))
}

/// A type of memories of so many pages and more.
fn memory_type(pages: u64) -> MemoryType {
    let mut builder = MemoryType::builder();
    builder.min(pages);
    builder.build().expect("a type")
}

fn memories(refused: usize) -> Given {
    let ty = memory_type(1);
    let mut none = ResourceLimiterRef::default();
    let mut sizes = counted(refused, || {
        let mut memory = Memory::new(ty, &mut none).map_err(Some)?;
        let grown = [memory.grow(1, None, &mut none), memory.grow(2, None, &mut none)];
        Ok::<_, Option<MemoryError>>((grown, memory.data_size()))
    });
    match sizes.take() {
        Some(Ok((grown, size))) => vec!["Ok".into(), format!("{:?}", grown[0]), format!("{:?} {size}", grown[1])],
        other => vec![format!("{other:?}")],
    }
}

fn tables(refused: usize) -> Given {
    let ty = TableType::new(RefType::Func, 10, Some(1000));
    let init = TypedRawRef::new(RawRef::from(3), RefType::Func);
    let mut none = ResourceLimiterRef::default();
    let sizes = counted(refused, || {
        let mut table = Table::new(ty, init, &mut none)?;
        let grown = [table.grow(100, init, None, &mut none), table.grow(200, init, None, &mut none)];
        Ok::<_, TableError>((grown, table.size()))
    });
    match sizes {
        Some(Ok((grown, size))) => vec!["Ok".into(), format!("{:?}", grown[0]), format!("{:?} {size}", grown[1])],
        other => vec![format!("{other:?}")],
    }
}

fn segments(refused: usize) -> Given {
    let items = (0..100).map(RawRef::from);
    let first = counted(refused, || machine::ElementSegment::new(RefType::Func, items.clone()).map(|it| it.size()));
    // As many items, of which the iterator doesn't say how many they are.
    let kept = items.filter(|_| true);
    let second = counted(refused, || machine::ElementSegment::new(RefType::Extern, kept).map(|it| it.size()));
    vec![line(first), line(second)]
}

fn function_types(refused: usize) -> Given {
    let types = |count| std::iter::repeat_n(ValType::I32, count);
    vec![line(counted(refused, || FuncType::new(types(11), types(10)).map(|ty| ty.clone().len_params())))]
}

/// Calls that take memory of all kinds.
fn calls() -> Vec<Call> {
    let func = |number| TypedRawRef::new(RawRef::from(number), RefType::Func);
    let global = GlobalType::new(ValType::I32, Mutability::Var);
    let items: Vec<RawRef> = (0..9).map(RawRef::from).collect();
    let mut calls = vec![
        Call::NewMemory(memory_type(1)),
        Call::GrowMemory { memory: 0, pages: 2 },
        Call::Write { memory: 0, offset: 7, bytes: vec![1, 2, 3].into() },
        Call::Read { memory: 0, offset: 6, len: 5 },
        Call::NewTable { ty: TableType::new(RefType::Func, 5, None), init: func(1) },
        Call::GrowTable { table: 0, delta: 90, init: func(2) },
        Call::NewSegment { ty: RefType::Func, items: items.into() },
        Call::InitTable { table: 0, segment: 0, dst: 1, src: 0, len: 9 },
        Call::NewData(vec![1, 2, 3].into()),
        Call::InitMemory { memory: 0, segment: 0, dst: 7, src: 0, len: 3 },
    ];
    calls.extend((0..9).map(|_| Call::NewGlobal { value: RawVal::from(4), ty: global }));
    calls.extend((0..9).map(|_| Call::NewMemory(memory_type(0))));
    calls
}

fn lines(replies: Option<&[Reply]>) -> Given {
    replies.map_or(vec!["AllocError".into()], |replies| replies.iter().map(|reply| format!("{reply:?}")).collect())
}

fn machines(refused: usize) -> Given {
    let calls = calls();
    let mut machine = Machine::new(Fuel::new(false, FuelCostsProvider::default()));
    let mut none = machine::ResourceLimiterRef::<NoLimits>::default();
    let first = counted(refused, || machine::run(&mut machine, &calls, &mut none)).expect("no panic");
    let mut given = lines(first.as_ref().map(|replies| &replies[..]).ok());
    // Memory is there again: the machine goes on.
    let second = machine::run(&mut machine, &calls[..1], &mut none).expect("memory");
    given.extend(lines(Some(&second)));
    given
}

fn pools(refused: usize) -> Given {
    let calls = calls();
    let mut pool = Pool::new(1 << 20, 1 << 10);
    let new = || Machine::new(Fuel::new(false, FuelCostsProvider::default()));
    let added = counted(refused, || (0..5).map(|_| pool.add(new()).map_err(|refusal| refusal.0).ok()).next_back());
    let replies = counted(refused, || pool.run(0, &calls)).expect("no panic");
    let mut given = vec![match added {
        Some(Some(Some(index))) => format!("{index}"),
        other => format!("{other:?}: OutOfMemory"),
    }];
    match replies {
        Ok(replies) => given.extend(lines(Some(&replies))),
        Err(error) => given.push(format!("{error:?}")),
    }
    given
}

/// The lines of a script's output, after its status.
fn script(text: &[u8], room: &mut [u8], refused: usize) -> Given {
    let mut output = Cursor::new(room);
    let status = counted(refused, || replay(&mut &text[..], &mut output)).expect("no panic");
    output.flush().expect("room");
    let len = output.position() as usize;
    let printed = String::from_utf8_lossy(&output.into_inner()[..len]).into_owned();
    printed.lines().map(String::from).chain([format!("status {}", status.code())]).collect()
}

/// What says that there was no memory.
const TOLD: &[&str] = &["memory", "Memory", "NoRoom", "no room", "AllocError"];
/// What says it where the limiter's answer to the notice of a failure is an error.
const DENIED: &str = "a resource limiter denied";

#[derive(Default)]
struct Tally {
    works: u64,
    refused: u64,
    wrong: u64,
}

impl Tally {
    /// Does a work without a refusal, and then with each of its requests refused, of which one of the words tells.
    fn try_all(&mut self, name: &str, words: &[&str], mut work: impl FnMut(usize) -> Given) {
        self.works += 1;
        requests();
        let whole = work(NONE);
        for number in 0..requests() {
            let given = work(number);
            requests();
            self.refused += 1;
            let first = given.iter().zip(&whole).position(|(here, there)| here != there);
            let is_told =
                first.map_or(given.len() < whole.len(), |at| words.iter().any(|word| given[at].contains(word)));
            if !is_told {
                self.wrong += 1;
                println!("WRONG {name}, request {number}: {:?}", first.map(|at| (&given[at], &whole[at])));
            }
        }
    }
}

fn main() {
    let words: Vec<u64> = std::env::args().skip(1).map(|word| word.parse().expect("a number")).collect();
    let [seed, scripts] = words[..] else {
        eprintln!("usage: refused SEED SCRIPTS");
        exit(2);
    };
    std::panic::set_hook(Box::new(|_| {}));
    let mut tally = Tally::default();
    let works: [(&str, fn(usize) -> Given); 6] = [
        ("memories", memories),
        ("tables", tables),
        ("segments", segments),
        ("function types", function_types),
        ("machines", machines),
        ("pools", pools),
    ];
    for (name, work) in works {
        tally.try_all(name, TOLD, work);
    }
    let mut room = vec![0; 1 << 22];
    for (index, name) in PROFILES.iter().enumerate() {
        for number in 0..scripts {
            let mut generator = Generator::new(seed.wrapping_mul(31).wrapping_add(number * 8 + index as u64));
            generator.write_script(name, number as usize);
            let complains = generator.text.windows(8).any(|word| word == b"complain");
            let words = if complains { &[TOLD, &[DENIED]].concat() } else { TOLD };
            if !Generator::asks_too_much(&generator.text) {
                tally.try_all(name, words, |refused| script(&generator.text, &mut room, refused));
            }
        }
    }
    println!("seed {seed}: {} works, {} requests refused, {} differ", tally.works, tally.refused, tally.wrong);
    exit((tally.wrong > 0 || tally.refused == 0).into());
}
