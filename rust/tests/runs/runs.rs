//! Runs with ample memory, runs that a quota watches, and calls on memories that aren't there.
use super::{
    MemoryCall, StaticCall, StaticReply, Step, func, memory_size, memory_type, metered, runs_to,
    runs_under, unmetered,
};
use wasmi_core_proved::machine::{Call, MemoryError, Quota, RawVal, Reply, run_lending};

const REFUSED: StaticReply = StaticReply::Memory(MemoryError::OutOfBoundsGrowth);

static METERED: [Step; 8] = [
    (StaticCall::SetFuel(2000), StaticReply::Done),
    (StaticCall::NewPages(1, Some(2)), StaticReply::Made(0)),
    (
        StaticCall::Memory(0, MemoryCall::Write(65535, &[44])),
        StaticReply::Done,
    ),
    (
        StaticCall::Memory(0, MemoryCall::Grow(1)),
        StaticReply::Number(1),
    ),
    (StaticCall::Memory(0, MemoryCall::Grow(1)), REFUSED),
    (
        StaticCall::Memory(0, MemoryCall::Read(65535, 2)),
        StaticReply::Bytes(&[44, 0]),
    ),
    (StaticCall::GetFuel, StaticReply::Number(976)),
    (
        StaticCall::Memory(1, MemoryCall::Read(0, 0)),
        StaticReply::NoSuch,
    ),
];

#[test]
fn ample_memory_runs() {
    let mut machine = metered();
    runs_to(&mut machine, &METERED);
    assert_eq!(machine.fuel().get_fuel(), Ok(976), "the fuel");
    assert_eq!(memory_size(&machine, 0), Some(2), "the size");
    assert_eq!(memory_size(&machine, 1), None, "one memory");
    drop(machine);
}

static UNMETERED: [Step; 6] = [
    (StaticCall::NewBytes(0), StaticReply::Made(0)),
    (
        StaticCall::Memory(0, MemoryCall::Grow(3)),
        StaticReply::Number(0),
    ),
    (
        StaticCall::Memory(0, MemoryCall::Read(2, 2)),
        StaticReply::Memory(MemoryError::OutOfBoundsAccess),
    ),
    (
        StaticCall::Memory(0, MemoryCall::Read(3, 0)),
        StaticReply::Bytes(&[]),
    ),
    (
        StaticCall::Memory(0, MemoryCall::Read(0, 3)),
        StaticReply::Bytes(&[0, 0, 0]),
    ),
    (StaticCall::SetFuel(5), StaticReply::NoMeter),
];

#[test]
fn ample_memory_reads() {
    let mut machine = unmetered();
    runs_to(&mut machine, &UNMETERED);
    drop(machine);
}

static WATCHED: [Step; 3] = [
    (StaticCall::NewPages(1, None), StaticReply::Made(0)),
    (
        StaticCall::NewPages(1, None),
        StaticReply::Memory(MemoryError::ResourceLimiterDeniedAllocation),
    ),
    (StaticCall::Memory(0, MemoryCall::Grow(1)), REFUSED),
];

#[test]
fn quota_watches_a_run() {
    let mut quota = Quota::new(131071, 0);
    let mut machine = unmetered();
    runs_under(&mut machine, &WATCHED, &mut quota);
    drop(machine);
    let held = (quota.held_bytes(), quota.held_elements());
    assert_eq!(held, (65536, 0), "what is held");
}

static MADE: [Step; 5] = [
    (StaticCall::NewTable(5), StaticReply::Made(0)),
    (StaticCall::NewSegment(&[1, 2]), StaticReply::Made(0)),
    (StaticCall::NewData(&[3, 1, 4]), StaticReply::Made(0)),
    (StaticCall::NewGlobal(7), StaticReply::Made(0)),
    (StaticCall::SetRegister(15, 8), StaticReply::Done),
];

#[test]
fn shows_what_calls_made() {
    let mut machine = unmetered();
    runs_to(&mut machine, &MADE);
    let first = machine.table(0).and_then(|table| table.get(4));
    assert_eq!(first, Some(func(0)), "an element");
    let items = machine.segment(0).map(|segment| segment.size());
    assert_eq!(items, Some(2), "two items");
    let data = machine
        .data_segment(0)
        .map(|segment| (segment.bytes(), segment.size()));
    assert_eq!(data, Some((&[3u8, 1, 4][..], 3)), "three bytes");
    assert!(machine.data_segment(1).is_none(), "one data segment");
    let global = machine.global(0).map(|global| u64::from(*global.get_raw()));
    assert_eq!(global, Some(7), "a global");
    let last = machine.register(15);
    assert_eq!(last, Some(RawVal::from(8u32)), "a register");
    assert_eq!(machine.register(16), None, "16 registers");
    drop(machine);
}

#[test]
fn a_run_under_a_quota() {
    let mut machine = unmetered();
    let mut quota = Quota::new(131072, 0);
    let calls = [
        Call::NewMemory(memory_type(1, None, 16)),
        Call::GrowMemory {
            memory: 0,
            pages: 2,
        },
    ];
    let replies = run_lending(&mut machine, &calls, &mut quota).expect("two replies");
    let expected = [
        Reply::Made(0),
        Reply::Memory(MemoryError::OutOfBoundsGrowth),
    ];
    assert_eq!(replies.as_slice(), expected.as_slice(), "the replies");
    assert_eq!(quota.held_bytes(), 65536, "the bytes");
    drop(machine);
}

#[cfg(feature = "simd")]
#[test]
fn a_vector_instruction_on_a_raw_value() {
    use wasmi_core_proved::machine::{ReadAs, simd};
    let bytes = RawVal::from(simd::i8x16_splat(127));
    let sum = simd::i8x16_add(bytes.read_as(), simd::i8x16_splat(1));
    let least = simd::i8x16_splat(-128);
    assert_eq!(RawVal::from(sum), RawVal::from(least), "the sum");
}

/// Each call that takes a memory's index, at an index that names none, and at a place in it.
fn absent_steps(memory: usize, place: usize) -> [Step; 5] {
    let ptr = place as u64;
    [
        (
            StaticCall::Memory(memory, MemoryCall::Grow(ptr)),
            StaticReply::NoSuch,
        ),
        (
            StaticCall::Memory(memory, MemoryCall::Read(place, 1)),
            StaticReply::NoSuch,
        ),
        (
            StaticCall::Memory(memory, MemoryCall::Write(place, &[7])),
            StaticReply::NoSuch,
        ),
        (
            StaticCall::Memory(memory, MemoryCall::Load(ptr)),
            StaticReply::NoSuch,
        ),
        (
            StaticCall::Memory(memory, MemoryCall::Store(ptr)),
            StaticReply::NoSuch,
        ),
    ]
}

static ABSENT: [Step; 2] = [
    (StaticCall::SetFuel(2000), StaticReply::Done),
    (StaticCall::NewBytes(3), StaticReply::Made(0)),
];

static UNCHANGED: [Step; 2] = [
    (
        StaticCall::Memory(0, MemoryCall::Read(0, 3)),
        StaticReply::Bytes(&[0, 0, 0]),
    ),
    (StaticCall::GetFuel, StaticReply::Number(2000)),
];

#[test]
fn calls_on_absent_memories_do_nothing() {
    let mut machine = metered();
    runs_to(&mut machine, &absent_steps(0, 1));
    let mut quota = Quota::new(100, 0);
    runs_under(&mut machine, &ABSENT, &mut quota);
    for (memory, place) in [(1, 1), (1, usize::MAX), (usize::MAX, 1)] {
        let steps = absent_steps(memory, place);
        runs_under(&mut machine, &steps, &mut quota);
    }
    runs_under(&mut machine, &UNCHANGED, &mut quota);
    assert_eq!(quota.held_bytes(), 3, "the bytes of one memory");
    drop(machine);
}
