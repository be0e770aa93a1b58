//! Sets machines and pools of the crate in the folder rust up by random scripts, and makes the calls of these scripts that need no memory but what is reserved.
//!
//! usage: reserved SEED SCRIPTS
//!
//! SCRIPTS random scripts of each kind, with more lines that make something without items. The set-up makes the memories, tables and segments that take memory. It
//! reserves a slot for each other thing that the script makes, and the elements of each table that has a small maximum. Then the calls are made by `run_into`,
//! without those that may take memory by the law `reserved_suffices`: reads of bytes, and growths of what is neither in a region nor reserved. No request for memory
//! may be made, no reply may say out of memory, and the replies are those of a machine on which nothing is reserved. The exit status is 1 where it isn't so, and
//! where nothing was made.
use conformance::generator::{Generator, PROFILES};
use conformance::random::Random;
use std::alloc::{GlobalAlloc, Layout, System};
use std::process::exit;
use std::sync::atomic::{AtomicBool, AtomicU64, Ordering::Relaxed};
use wasmi_core_proved::grammar::{Header, LimiterLine, MeterLine, RegionLine, Script, parse};
use wasmi_core_proved::machine::{
    self, AnswerList, AnyLimiter, Call, Machine, Quota, Replies, Reply, SegmentError, SlotCounts, Table,
};
use wasmi_core_proved::pool::Pool;
use wasmi_core_proved::{CustomFuelCosts, Fuel, FuelCostsProvider, MemoryError, TableError};

static IS_SET_UP: AtomicBool = AtomicBool::new(false);
static REQUESTS: AtomicU64 = AtomicU64::new(0);

struct Counting;

fn count() {
    if IS_SET_UP.load(Relaxed) {
        REQUESTS.fetch_add(1, Relaxed);
    }
}

// SAFETY: what it gives is the system's.
unsafe impl GlobalAlloc for Counting {
    unsafe fn alloc(&self, layout: Layout) -> *mut u8 {
        count();
        unsafe { System.alloc(layout) }
    }
    unsafe fn alloc_zeroed(&self, layout: Layout) -> *mut u8 {
        count();
        unsafe { System.alloc_zeroed(layout) }
    }
    unsafe fn realloc(&self, at: *mut u8, layout: Layout, size: usize) -> *mut u8 {
        count();
        unsafe { System.realloc(at, layout, size) }
    }
    unsafe fn dealloc(&self, at: *mut u8, layout: Layout) {
        unsafe { System.dealloc(at, layout) }
    }
}

#[global_allocator]
static ALLOCATOR: Counting = Counting;

// ---- what runs calls

/// A machine under a limiter, which is tenant 0, or a pool.
trait Host {
    fn machine(&self, tenant: usize) -> &Machine<'_>;
    fn step(&mut self, tenant: usize, call: &Call) -> Reply;
    fn reserve(&mut self, tenant: usize, slots: SlotCounts) -> bool;
    fn reserve_elements(&mut self, tenant: usize, table: usize, elements: u64) -> Reply;
    fn run_into(&mut self, tenant: usize, calls: &[Call], replies: &mut Replies) -> bool;
}

struct Alone<'r> {
    machine: Machine<'r>,
    limiter: AnyLimiter,
}

impl Host for Alone<'_> {
    fn machine(&self, _: usize) -> &Machine<'_> {
        &self.machine
    }
    fn step(&mut self, _: usize, call: &Call) -> Reply {
        self.machine.step_lending(call, &mut self.limiter)
    }
    fn reserve(&mut self, _: usize, slots: SlotCounts) -> bool {
        self.machine.reserve(slots).is_ok()
    }
    fn reserve_elements(&mut self, _: usize, table: usize, elements: u64) -> Reply {
        self.machine.reserve_elements(table, elements)
    }
    fn run_into(&mut self, _: usize, calls: &[Call], replies: &mut Replies) -> bool {
        machine::run_into_lending(&mut self.machine, calls, &mut self.limiter, replies).is_ok()
    }
}

impl Host for Pool<'_> {
    fn machine(&self, tenant: usize) -> &Machine<'_> {
        self.machine(tenant).expect("a tenant")
    }
    fn step(&mut self, tenant: usize, call: &Call) -> Reply {
        self.step(tenant, call).expect("a tenant")
    }
    fn reserve(&mut self, tenant: usize, slots: SlotCounts) -> bool {
        self.reserve(tenant, slots).is_ok()
    }
    fn reserve_elements(&mut self, tenant: usize, table: usize, elements: u64) -> Reply {
        self.reserve_elements(tenant, table, elements).expect("a tenant")
    }
    fn run_into(&mut self, tenant: usize, calls: &[Call], replies: &mut Replies) -> bool {
        self.run_into(tenant, calls, replies).is_ok()
    }
}

fn fuel_of(header: &Header) -> Fuel {
    let Some(MeterLine::On(bytes_copied_per_fuel)) = header.meter else {
        return Fuel::new(false, FuelCostsProvider::default());
    };
    let costs = CustomFuelCosts { bytes_copied_per_fuel, fuel_per_bytes_translated: 7, fuel_per_bytes_validated: 2 };
    Fuel::new(true, FuelCostsProvider::custom(costs))
}

/// A new machine or pool as the header lines ask for it, but that nothing is reserved.
fn host<'r>(header: &Header, region: &'r mut [u8]) -> Box<dyn Host + 'r> {
    let limiter = match &header.limiter_line {
        Some(LimiterLine::Tenants(line)) => {
            let mut pool = Pool::new(line.caps.bytes, line.caps.elements);
            for _ in 0..line.count {
                assert!(pool.add(Machine::new(fuel_of(header))).is_ok());
            }
            return Box::new(pool);
        }
        Some(LimiterLine::Quota(caps)) => AnyLimiter::Quota(Quota::new(caps.bytes, caps.elements)),
        Some(LimiterLine::Answers(answers)) => {
            AnyLimiter::Answers(AnswerList::new(machine::Vec::from_slice(answers).expect("memory")))
        }
        _ => AnyLimiter::Unlimited,
    };
    let machine = match header.region {
        Some(_) => Machine::with_region(fuel_of(header), region),
        None => Machine::new(fuel_of(header)),
    };
    Box::new(Alone { machine, limiter })
}

// ---- which calls are made when

/// The most elements that are reserved of a table.
const MOST_ELEMENTS: u64 = 1000;

/// Whether the elements of a table are reserved, all up to its maximum.
fn is_reserved(table: &Table) -> bool {
    table.ty().maximum().is_some_and(|maximum| maximum <= MOST_ELEMENTS)
}

/// Whether a call makes what takes more memory than a slot.
fn makes_with_memory(call: &Call) -> bool {
    match call {
        Call::NewMemory(_) | Call::NewTable { .. } => true,
        Call::NewSegment { items, .. } => !items.is_empty(),
        Call::NewData(bytes) => !bytes.is_empty(),
        _ => false,
    }
}

/// Whether a call needs no memory but a slot, on a machine that is set up and has no memory in a region yet: `NeedsOnlySlot` of the law.
fn needs_only_slot(machine: &Machine<'_>, call: &Call) -> bool {
    match call {
        Call::Read { len, .. } => *len == 0,
        Call::GrowMemory { memory, .. } => machine.memory(*memory).is_none(),
        Call::GrowTable { table, delta, .. } => *delta == 0 || machine.table(*table).is_none_or(is_reserved),
        _ => !makes_with_memory(call),
    }
}

/// The parts of a script: whose calls they are, and the calls.
fn parts(script: &Script) -> impl Iterator<Item = (usize, &[Call])> {
    (0..script.parts.len()).filter_map(|index| script.parts.get(index))
}

/// Makes what takes memory. A memory that the script makes after the one in the region is left out, so that this one has its index.
fn set_up(host: &mut dyn Host, script: &Script) {
    let mut is_lent = false;
    for (tenant, calls) in parts(script) {
        for call in calls {
            is_lent |= script.header.region.is_some() && matches!(call, Call::NewLentMemory(_));
            if makes_with_memory(call) && !(is_lent && matches!(call, Call::NewMemory(_))) {
                host.step(tenant, call);
            }
        }
    }
}

/// The lists of calls that are made after the set-up.
fn runs<'s>(host: &dyn Host, script: &'s Script) -> Vec<(usize, &'s [Call])> {
    let split = |(tenant, calls): (usize, &'s [Call])| {
        let lists: Vec<_> = calls.split(|call| !needs_only_slot(host.machine(tenant), call)).collect();
        lists.into_iter().filter(|list| !list.is_empty()).map(move |list| (tenant, list))
    };
    parts(script).flat_map(split).collect()
}

/// Reserves the slots that the calls take, and the elements of tables.
fn reserve(host: &mut dyn Host, tenants: usize, runs: &[(usize, &[Call])]) {
    for tenant in 0..tenants {
        let calls = || runs.iter().filter(|run| run.0 == tenant).flat_map(|run| run.1);
        let counted = |is: fn(&Call) -> bool| calls().filter(|call| is(call)).count();
        let slots = SlotCounts {
            memories: counted(|call| matches!(call, Call::NewLentMemory(_))),
            tables: 0,
            segments: counted(|call| matches!(call, Call::NewSegment { .. })),
            data_segments: counted(|call| matches!(call, Call::NewData(_))),
            globals: counted(|call| matches!(call, Call::NewGlobal { .. })),
        };
        assert!(host.reserve(tenant, slots), "memory");
        let grown = calls().filter_map(|call| match call {
            Call::GrowTable { table, .. } => Some(*table),
            _ => None,
        });
        for table in grown {
            let maximum =
                host.machine(tenant).table(table).filter(|it| is_reserved(it)).and_then(|it| it.ty().maximum());
            if let Some(maximum) = maximum {
                assert_eq!(host.reserve_elements(tenant, table, maximum), Reply::Done);
            }
        }
    }
}

fn says_out_of_memory(reply: &Reply) -> bool {
    matches!(
        reply,
        Reply::NoRoom
            | Reply::Memory(MemoryError::OutOfSystemMemory)
            | Reply::Table(TableError::OutOfSystemMemory)
            | Reply::Segment(SegmentError::OutOfSystemMemory)
    )
}

// ---- scripts

/// Lines that make something without items, or use it.
const LINES: &[&str] = &[
    "global i32 var 4 0",
    "global funcref const 5 0",
    "gset 1 i32 9 0",
    "segment func",
    "segment extern",
    "init 0 0 0 0 0",
    "data",
    "minit 0 0 0 0 0",
    "lent 2 50 0 32",
    "grow 0 1",
    "tgrow 0 1 func 7",
];

/// A script with more lines, anywhere after the header lines.
fn lengthened(text: &[u8], random: &mut Random) -> Vec<u8> {
    const HEADERS: &[&[u8]] = &[b"meter", b"quota", b"answers", b"region", b"reserve", b"tenants"];
    let mut lines: Vec<&[u8]> = text.split(|byte| *byte == b'\n').collect();
    let is_header = |line: &&[u8]| HEADERS.iter().any(|word| line.trim_ascii_start().starts_with(word));
    let first = lines.iter().rposition(is_header).map_or(0, |last| last + 1);
    for _ in 0..random.index(40) {
        lines.insert(first + random.index(lines.len() - first + 1), random.pick(LINES).as_bytes());
    }
    lines.join(&b'\n')
}

/// False for a script that was spoiled such that it asks for much memory, or for more than there is.
fn is_small(name: &str, script: &Script, text: &[u8]) -> bool {
    let region = script.header.region.map_or(0, |region| region.len);
    name != "bad" || (region < 1 << 22 && !Generator::asks_too_much(text))
}

#[derive(Default)]
struct Tally {
    scripts: u64,
    calls: u64,
    made: u64,
    requests: u64,
    wrong: u64,
}

impl Tally {
    fn wrong(&mut self, what: &str, text: &[u8]) {
        self.wrong += 1;
        println!("WRONG: {what} in this script:\n{}", String::from_utf8_lossy(text));
    }

    /// Sets up twice, reserves once, and makes the calls on both.
    fn try_script(&mut self, script: &Script, text: &[u8]) {
        let RegionLine { len, byte } = script.header.region.unwrap_or(RegionLine { len: 0, byte: 0 });
        let [mut first, mut second] = [vec![byte; len], vec![byte; len]];
        let [mut reserved, mut plain] = [host(&script.header, &mut first), host(&script.header, &mut second)];
        set_up(&mut *reserved, script);
        set_up(&mut *plain, script);
        let runs = runs(&*reserved, script);
        reserve(&mut *reserved, script.header.tenants().max(1), &runs);
        let longest = runs.iter().map(|run| run.1.len()).max().unwrap_or(0);
        let mut replies = Replies::with_capacity(longest).expect("memory");
        self.scripts += 1;
        for (tenant, calls) in runs {
            IS_SET_UP.store(true, Relaxed);
            let is_accepted = reserved.run_into(tenant, calls, &mut replies);
            IS_SET_UP.store(false, Relaxed);
            let requests = REQUESTS.swap(0, Relaxed);
            self.requests += requests;
            self.calls += calls.len() as u64;
            self.made += replies.as_slice().iter().filter(|reply| matches!(reply, Reply::Made(_))).count() as u64;
            let wanted: Vec<Reply> = calls.iter().map(|call| plain.step(tenant, call)).collect();
            if requests > 0 {
                self.wrong(&format!("{requests} requests"), text);
            } else if !is_accepted || replies.as_slice() != wanted || wanted.iter().any(says_out_of_memory) {
                self.wrong("other replies", text);
            }
        }
    }
}

fn main() {
    let words: Vec<u64> = std::env::args().skip(1).map(|word| word.parse().expect("a number")).collect();
    let [seed, scripts] = words[..] else {
        eprintln!("usage: reserved SEED SCRIPTS");
        exit(2);
    };
    let mut tally = Tally::default();
    let mut random = Random::new(seed);
    for (index, name) in PROFILES.iter().enumerate() {
        for number in 0..scripts {
            let mut generator = Generator::new(seed.wrapping_mul(37).wrapping_add(number * 8 + index as u64));
            generator.write_script(name, number as usize);
            let text = lengthened(&generator.text, &mut random);
            if let Some(script) = parse(&text).ok().filter(|script| is_small(name, script, &text)) {
                tally.try_script(&script, &text);
            }
        }
    }
    let Tally { scripts, calls, made, requests, wrong } = tally;
    println!(
        "seed {seed}: {scripts} scripts, {calls} calls, {made} made in reserved slots, {requests} requests, {wrong} differ"
    );
    exit((wrong > 0 || made == 0).into());
}
