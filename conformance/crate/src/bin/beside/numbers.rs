//! Each instruction by its number: the static library beside the Rust crate's functions of its name, at `ptr + offset` and at an address, and beside its
//! instructions as values. Replies and errors of the Rust crate by the numbers of include/wasmi_machine.h.
use crate::{Tally, calls};
use conformance::archives::{PlainReply, *};
use conformance::instructions::{Answer, Operands, Row, Words, here};
use conformance::random::Random;
use conformance::structs::NUMBERS;
use std::fmt::Debug;
use wasmi_core_proved::machine::{Reply, SegmentError};
use wasmi_core_proved::ops::*;
use wasmi_core_proved::{FuelError, GlobalError, MemoryError, RawVal, RefType, TableError, TrapCode, V128, simd};

const MEMORY: usize = 40;

fn operands(random: &mut Random) -> Operands<MEMORY> {
    let (ptr, offset) = calls::address(random, MEMORY as u64);
    Operands {
        words: std::array::from_fn(|_| calls::words(random)),
        lane: random.below(18) as u8,
        lanes: [0; 16],
        memory: std::array::from_fn(|_| random.next() as u8),
        ptr,
        offset,
    }
}

/// The instruction of a name in a list, if it is there.
fn listed<T: Copy>(list: &[(&str, T)], name: &str) -> Option<T> {
    list.iter().find(|(known, _)| *known == name).map(|(_, op)| *op)
}

/// The status, the value and the memory that a call of the static library leaves.
type Left = (u8, Words, [u8; MEMORY]);

fn in_library(kind: &str, number: u16, it: &Operands<MEMORY>) -> Left {
    let [a, b, c] = it.words;
    let (mut value, mut bytes) = (Words::default(), it.memory);
    let (memory, len) = (bytes.as_mut_ptr(), bytes.len());
    // SAFETY: the pointer and the length are those of one array.
    let status = unsafe {
        match kind {
            "unary" => wasmi_unary(number, a, &mut value),
            "binary" => wasmi_binary(number, a, b, &mut value),
            "ternary" => wasmi_ternary(number, a, b, c, &mut value),
            "extract_lane" => wasmi_extract_lane(number, it.lane, a, &mut value),
            "replace_lane" => wasmi_replace_lane(number, it.lane, a, b, &mut value),
            "load" => wasmi_load(number, memory, len, it.ptr, it.offset, &mut value),
            "store" => wasmi_store(number, memory, len, it.ptr, it.offset, a),
            "load_lane" => wasmi_load_lane(number, it.lane, memory, len, it.ptr, it.offset, a, &mut value),
            "store_lane" => wasmi_store_lane(number, it.lane, memory, len, it.ptr, it.offset, a),
            other => panic!("no such kind: {other}"),
        }
    };
    (status, value, bytes)
}

/// What the instruction as a value gives; none if there is no such lane.
fn by_value(kind: &str, name: &str, it: &mut Operands<MEMORY>) -> Option<Result<RawVal, TrapCode>> {
    let [a, b, c] = it.words.map(RawVal::from);
    let vectors = [a, b, c].map(V128::from);
    let lane = it.lane;
    Some(match kind {
        "unary" => Ok(unary(name, a, vectors[0])),
        "binary" => match (listed(&SCALAR_BINARIES, name), listed(&BINARIES, name)) {
            (Some(op), _) => op.apply(a, b),
            (None, Some(op)) => Ok(op.apply(vectors[0], vectors[1]).into()),
            (None, None) => Ok(listed(&SHIFTS, name)?.apply(vectors[0], it.words[1].lo as u32).into()),
        },
        "ternary" => Ok(listed(&TERNARIES, name)?.apply(vectors[0], vectors[1], vectors[2]).into()),
        "extract_lane" => Ok(listed(&EXTRACTIONS, name)?.on(lane)?.apply(vectors[0])),
        "replace_lane" => Ok(listed(&REPLACEMENTS, name)?.on(lane)?.apply(vectors[0], b).into()),
        "load" => match listed(&LOADS, name) {
            Some(op) => op.load(&it.memory, it.ptr, it.offset),
            None => listed(&VECTOR_LOADS, name)?.load(&it.memory, it.ptr, it.offset).map(RawVal::from),
        },
        "store" => match listed(&STORES, name) {
            Some(op) => op.store(&mut it.memory, it.ptr, it.offset, a),
            None => simd::v128_store(&mut it.memory, it.ptr, it.offset, vectors[0]),
        }
        .map(|()| RawVal::default()),
        "load_lane" => {
            let op = listed(&LANE_LOADS, name)?.on(lane)?;
            op.load(&it.memory, it.ptr, it.offset, vectors[0]).map(RawVal::from)
        }
        _ => {
            let op = listed(&LANE_STORES, name)?.on(lane)?;
            op.store(&mut it.memory, it.ptr, it.offset, vectors[0]).map(|()| RawVal::default())
        }
    })
}

fn unary(name: &str, a: RawVal, vector: V128) -> RawVal {
    if let Some(op) = listed(&SCALAR_UNARIES, name) {
        op.apply(a)
    } else if let Some(op) = listed(&UNARIES, name) {
        op.apply(vector).into()
    } else if let Some(op) = listed(&TESTS, name) {
        op.apply(vector)
    } else {
        listed(&MAKES, name).expect("an instruction").apply(a).into()
    }
}

/// Whether the library left what an answer of the crate and its memory are. A lane that there isn't has no answer: any status but 0 stands for that.
fn agree(left: &Left, answer: Option<Answer>, memory: &[u8; MEMORY]) -> bool {
    let (status, value, bytes) = left;
    bytes == memory
        && match answer {
            Some(Ok(answer)) => *status == 0 && answer == *value,
            Some(Err(trap)) => *status == trap,
            None => *status != 0,
        }
}

/// Tries each instruction on so many operands.
pub fn compare(seed: u64, count: u64) -> Tally {
    let mut random = Random::new(seed);
    let (mut tally, rows) = (Tally::default(), here::functions());
    for Row { kind, number, name, function } in &rows {
        for _ in 0..count {
            let operands = operands(&mut random);
            let (mut named, mut valued) = (operands.clone(), operands.clone());
            let left = in_library(kind, *number, &operands);
            let names = function(&mut named);
            let value = by_value(kind, name, &mut valued).map(|it| it.map(Words::from).map_err(u8::from));
            let [first, second] = names.map_or([None; 2], |both| both.map(Some));
            let same = agree(&left, first, &named.memory) && agree(&left, second, &named.memory);
            let same = same && agree(&left, value, &valued.memory);
            tally.add(same, || format!("{name} {operands:?}: {left:?}, here {names:?} and {value:?}"));
        }
    }
    println!("numbers, seed {seed}: {} instructions, {} trials, {} differ", rows.len(), tally.tried, tally.differ);
    tally
}

pub const NO_CALL: u8 = 17;

pub fn only(status: u8) -> PlainReply {
    with_number(status, 0)
}

pub fn with_number(status: u8, number: u64) -> PlainReply {
    PlainReply { status, number, ..PlainReply::default() }
}

pub fn of(reply: &Reply) -> PlainReply {
    match reply {
        Reply::Done => only(0),
        Reply::Made(index) => with_number(0, *index as u64),
        Reply::Value(value) => PlainReply { value: (*value).into(), ..only(0) },
        Reply::Number(number) => with_number(0, *number),
        Reply::Bytes(bytes) => with_number(0, bytes.as_slice().len() as u64),
        Reply::Reference(Some(it)) => {
            PlainReply { reference: it.raw().into(), ty: if it.ty() == RefType::Func { 5 } else { 6 }, ..only(0) }
        }
        Reply::Reference(None) => only(21),
        Reply::Memory(error) => of_memory(*error),
        Reply::Table(error) => of_table(*error),
        Reply::Fuel(error) => of_error(error),
        Reply::Global(GlobalError::ImmutableWrite) => only(72),
        Reply::Global(_) => only(73),
        Reply::Segment(SegmentError::TooManyItems) => only(80),
        Reply::Segment(SegmentError::OutOfSystemMemory) => only(81),
        Reply::Trap(code) => only((*code).into()),
        Reply::NoSuch => only(18),
        Reply::NoRegion => only(19),
        Reply::NoRoom => only(20),
        other => panic!("no such reply: {other:?}"),
    }
}

/// The status that the headers name after a word and the variant of an error without fields: `RegionTooShort` of memories
/// would be `MEMORY_REGION_TOO_SHORT`.
fn status_named(word: &str, error: &impl Debug) -> u8 {
    let mut name = format!("\t{word}");
    for letter in format!("{error:?}").chars() {
        if letter.is_ascii_uppercase() {
            name.push('_');
        }
        name.push(letter.to_ascii_uppercase());
    }
    let row = NUMBERS.lines().find(|row| row.contains("status\t") && row.ends_with(&name));
    let number = row.and_then(|row| row.split('\t').nth(1)?.parse().ok());
    number.unwrap_or_else(|| panic!("no status of the headers is named {}: {error:?}", name.trim()))
}

pub fn of_memory(error: MemoryError) -> PlainReply {
    match error {
        MemoryError::OutOfSystemMemory => only(32),
        MemoryError::OutOfBoundsGrowth => only(33),
        MemoryError::OutOfBoundsAccess => only(34),
        MemoryError::InvalidMemoryType => only(35),
        MemoryError::InvalidStaticBufferSize => only(36),
        MemoryError::ResourceLimiterDeniedAllocation => only(37),
        MemoryError::MinimumSizeOverflow => only(38),
        MemoryError::OutOfFuel { required_fuel } => with_number(40, required_fuel),
        other => only(status_named("MEMORY", &other)),
    }
}

pub fn of_table(error: TableError) -> PlainReply {
    match error {
        TableError::OutOfSystemMemory => only(48),
        TableError::MinimumSizeOverflow => only(49),
        TableError::MaximumSizeOverflow => only(50),
        TableError::ResourceLimiterDeniedAllocation => only(51),
        TableError::GrowOutOfBounds => only(52),
        TableError::InitOutOfBounds => only(53),
        TableError::FillOutOfBounds => only(54),
        TableError::SetOutOfBounds => only(55),
        TableError::CopyOutOfBounds => only(56),
        TableError::ElementTypeMismatch => only(57),
        TableError::OutOfFuel { required_fuel } => with_number(58, required_fuel),
        other => only(status_named("TABLE", &other)),
    }
}

pub fn of_error(error: &FuelError) -> PlainReply {
    match error {
        FuelError::FuelMeteringDisabled => only(64),
        FuelError::OutOfFuel { required_fuel } => with_number(65, *required_fuel),
    }
}

pub fn of_fuel(left: Result<u64, FuelError>) -> PlainReply {
    left.map_or_else(|error| of_error(&error), |left| with_number(0, left))
}
