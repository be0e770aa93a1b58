//! Buffers and memories on lent regions, what the lender finds there after the loan, and quotas that are lent for each call.
use super::creations::memory_size;
use super::growths::memory_outcome;
use super::limiters::{COMPLAINT, Failure, Recorder, memory_question, same_record};
use super::{func, grow, lent_memory, memory_type, metered, metered_at};
use wasmi_core_proved::machine::{
    Fuel, FuelCostsProvider, LimiterError, Memory, MemoryError, MemoryType, NoLimits, Quota,
    RawRef, RefType, ResourceLimiterRef, Table, TableError, TableType,
};

const DENIED: Failure = Failure::Memory(MemoryError::ResourceLimiterDeniedAllocation);

const TOO_SHORT: Failure = Failure::Memory(MemoryError::InvalidStaticBufferSize);

/// A memory on a lent region that is long enough, without limits.
fn ample_region<'r>(ty: MemoryType, region: &'r mut [u8]) -> Memory<'r> {
    lent_memory(ty, &mut NoLimits, region).expect("a memory")
}

/// A creation on a region of 4 bytes of 7, in pages of one byte, under a limiter with this answer
/// and this notice_answer: how it ends, what the limiter was told, and what the lender finds.
#[derive(Clone, Copy)]
struct Creation {
    what: &'static str,
    minimum: u64,
    answer: Result<bool, LimiterError>,
    notice_answer: Result<(), LimiterError>,
    outcome: Result<u64, Failure>,
    notice: Option<Failure>,
    found: [u8; 4],
}

const WITHIN: Creation = Creation {
    what: "within the region",
    minimum: 3,
    answer: Ok(true),
    notice_answer: Ok(()),
    outcome: Ok(3),
    notice: None,
    found: [0, 0, 0, 7],
};

const SHORT: Creation = Creation {
    what: "a short region",
    minimum: 5,
    outcome: Err(TOO_SHORT),
    notice: Some(TOO_SHORT),
    found: [7; 4],
    ..WITHIN
};

static CREATIONS: [Creation; 7] = [
    WITHIN,
    Creation {
        what: "the whole region",
        minimum: 4,
        outcome: Ok(4),
        found: [0; 4],
        ..WITHIN
    },
    Creation {
        what: "no page",
        minimum: 0,
        outcome: Ok(0),
        found: [7; 4],
        ..WITHIN
    },
    SHORT,
    Creation {
        what: "a short region, and the limiter accepts with an error",
        notice_answer: Err(COMPLAINT),
        outcome: Err(DENIED),
        ..SHORT
    },
    Creation {
        what: "a short region, and the limiter says no",
        answer: Ok(false),
        outcome: Err(DENIED),
        notice: None,
        ..SHORT
    },
    Creation {
        what: "the limiter answers an error",
        answer: Err(COMPLAINT),
        outcome: Err(DENIED),
        found: [7; 4],
        ..WITHIN
    },
];

/// Makes the memory, ends the loan, and compares.
fn compare_creation(row: &Creation) {
    let ty = memory_type(row.minimum, Some(9), 0, false);
    let mut recorder = Recorder::new(row.answer, row.notice_answer);
    let mut region = [7; 4];
    let outcome = memory_size(lent_memory(ty, &mut recorder, &mut region));
    assert_eq!((outcome, region), (row.outcome, row.found), "{}", row.what);
    let question = memory_question(0, row.minimum as usize, Some(9));
    same_record(row.what, &recorder, question, row.notice);
}

#[test]
fn records_creations() {
    for row in &CREATIONS {
        compare_creation(row);
    }
}

#[cfg(feature = "memory64")]
#[test]
fn a_minimum_of_all_bytes() {
    let mut recorder = Recorder::new(Ok(true), Ok(()));
    let ty = super::wide_type(1 << (usize::BITS - 16), None);
    let outcome = memory_size(lent_memory(ty, &mut recorder, &mut []));
    let expected = Err(Failure::Memory(MemoryError::MinimumSizeOverflow));
    assert_eq!(outcome, expected, "a minimum of all bytes");
    same_record("a minimum of all bytes", &recorder, None, None);
}

/// A growth of the bytes 1, 2, 3 on a region of 6 bytes, in pages of one byte that costs one fuel,
/// under a limiter with this answer and this notice_answer: how it ends, what the limiter was told,
/// the fuel that is left, and what the lender finds.
#[derive(Clone, Copy)]
struct Growth {
    what: &'static str,
    pages: u64,
    fuel: u64,
    answer: Result<bool, LimiterError>,
    notice_answer: Result<(), LimiterError>,
    outcome: Result<u64, Failure>,
    notice: Option<Failure>,
    left: u64,
    found: [u8; 6],
}

const UNCHANGED: [u8; 6] = [1, 2, 3, 7, 7, 7];

const BY_TWO: Growth = Growth {
    what: "within the region",
    pages: 2,
    fuel: 4,
    answer: Ok(true),
    notice_answer: Ok(()),
    outcome: Ok(3),
    notice: None,
    left: 2,
    found: [1, 2, 3, 0, 0, 7],
};

const BY_FOUR: Growth = Growth {
    what: "past the region",
    pages: 4,
    outcome: Err(TOO_SHORT),
    notice: Some(TOO_SHORT),
    left: 4,
    found: UNCHANGED,
    ..BY_TWO
};

const OUT_OF_FUEL: Failure = Failure::Memory(MemoryError::OutOfFuel { required_fuel: 3 });

static GROWTHS: [Growth; 7] = [
    BY_TWO,
    Growth {
        what: "to the end of the region",
        pages: 3,
        left: 1,
        found: [1, 2, 3, 0, 0, 0],
        ..BY_TWO
    },
    Growth {
        what: "want of fuel",
        pages: 3,
        fuel: 2,
        outcome: Err(OUT_OF_FUEL),
        notice: Some(OUT_OF_FUEL),
        found: UNCHANGED,
        ..BY_TWO
    },
    BY_FOUR,
    Growth {
        what: "past the region, with too little fuel",
        fuel: 3,
        left: 3,
        ..BY_FOUR
    },
    Growth {
        what: "past the region, and the limiter accepts with an error",
        notice_answer: Err(COMPLAINT),
        outcome: Err(DENIED),
        ..BY_FOUR
    },
    Growth {
        what: "past the region, and the limiter says no",
        answer: Ok(false),
        outcome: Err(Failure::Memory(MemoryError::OutOfBoundsGrowth)),
        notice: None,
        ..BY_FOUR
    },
];

/// Makes the memory, grows it, ends the loan, and compares.
fn compare_growth(row: &Growth) {
    let ty = memory_type(3, Some(8), 0, false);
    let mut region = [7; 6];
    let mut memory = ample_region(ty, &mut region);
    let written = memory.write(0, &[1, 2, 3]);
    let mut meter = metered_at(1, row.fuel);
    let mut recorder = Recorder::new(row.answer, row.notice_answer);
    let grown = grow(&mut memory, row.pages, Some(&mut meter), &mut recorder);
    drop(memory);
    let answer = (written, memory_outcome(grown), meter.get_fuel(), region);
    let expected = (Ok(()), row.outcome, Ok(row.left), row.found);
    assert_eq!(answer, expected, "{}", row.what);
    let desired = 3usize.saturating_add(row.pages as usize);
    let question = memory_question(3, desired, Some(8));
    same_record(row.what, &recorder, question, row.notice);
}

#[test]
fn records_growths() {
    for row in &GROWTHS {
        compare_growth(row);
    }
}

#[test]
fn a_lender_finds_what_was_written() {
    let mut region = [7; 6];
    let ty = memory_type(2, None, 0, false);
    let mut memory = ample_region(ty, &mut region);
    memory.data_mut().fill(1);
    let grown = grow(&mut memory, 2, None, &mut NoLimits);
    let answers = (grown, memory.write(3, &[2]), memory.write(4, &[3]));
    let expected = (Ok(2), Ok(()), Err(MemoryError::OutOfBoundsAccess));
    assert_eq!(answers, expected, "two more, a byte, past the end");
    drop(memory);
    assert_eq!(region, [1, 1, 0, 2, 7, 7], "the lender's bytes");
}

/// A memory of 64 pages of one byte that grows by as many, with fuel 1, under a quota of so many
/// bytes: its size; the size before the growth, if it was made; the bytes that the quota holds, and
/// the fuel that is left.
#[derive(Clone, Copy)]
struct MemoryLoan {
    what: &'static str,
    cap: u64,
    made: Result<u64, MemoryError>,
    grown: Option<Result<u64, MemoryError>>,
    held: u64,
    left: u64,
}

static MEMORY_LOANS: [MemoryLoan; 3] = [
    MemoryLoan {
        what: "a memory is made and grows",
        cap: 128,
        made: Ok(64),
        grown: Some(Ok(64)),
        held: 128,
        left: 0,
    },
    MemoryLoan {
        what: "the growth of a memory is denied",
        cap: 127,
        made: Ok(64),
        grown: Some(Err(MemoryError::OutOfBoundsGrowth)),
        held: 64,
        left: 1,
    },
    MemoryLoan {
        what: "a memory is denied",
        cap: 63,
        made: Err(MemoryError::ResourceLimiterDeniedAllocation),
        grown: None,
        held: 0,
        left: 1,
    },
];

/// Lets the memory grow, if it was made, and compares.
fn compare_memory(made: Result<Memory, MemoryError>, quota: &mut Quota, row: &MemoryLoan) {
    let mut fuel = metered(1);
    let (size, grown) = match made {
        Ok(mut memory) => {
            let size = memory.size();
            let grown = memory.grow_lending(64, &mut fuel, quota);
            (Ok(size), Some(grown))
        }
        Err(error) => (Err(error), None),
    };
    let answer = (size, grown, quota.held_bytes(), fuel.get_fuel());
    let expected = (row.made, row.grown, row.held, Ok(row.left));
    assert_eq!(answer, expected, "{}", row.what);
}

#[test]
fn lends_quotas_to_memories() {
    let ty = memory_type(64, None, 0, false);
    for row in &MEMORY_LOANS {
        let mut quota = Quota::new(row.cap, 0);
        let made = Memory::new_lending(ty, &mut quota);
        compare_memory(made, &mut quota, row);
        let mut quota = Quota::new(row.cap, 0);
        let mut region = [0xEEu8; 128];
        let mut lent = ResourceLimiterRef::from(&mut quota);
        let made = Memory::new_static(ty, &mut lent, &mut region);
        compare_memory(made, &mut quota, row);
    }
}

/// A table of two elements that grows by one, and by one again, under a quota of so many elements:
/// its size; the sizes before the growths, if it was made; and the elements that the quota holds.
#[derive(Clone, Copy)]
struct TableLoan {
    what: &'static str,
    cap: u64,
    made: Result<u64, TableError>,
    grown: Option<Result<u64, TableError>>,
    grown_raw: Option<Result<u64, TableError>>,
    held: u64,
}

static TABLE_LOANS: [TableLoan; 4] = [
    TableLoan {
        what: "a table is made and grows",
        cap: 4,
        made: Ok(2),
        grown: Some(Ok(2)),
        grown_raw: Some(Ok(3)),
        held: 4,
    },
    TableLoan {
        what: "the second growth of a table is denied",
        cap: 3,
        made: Ok(2),
        grown: Some(Ok(2)),
        grown_raw: Some(Err(TableError::GrowOutOfBounds)),
        held: 3,
    },
    TableLoan {
        what: "both growths of a table are denied",
        cap: 2,
        made: Ok(2),
        grown: Some(Err(TableError::GrowOutOfBounds)),
        grown_raw: Some(Err(TableError::GrowOutOfBounds)),
        held: 2,
    },
    TableLoan {
        what: "a table is denied",
        cap: 1,
        made: Err(TableError::ResourceLimiterDeniedAllocation),
        grown: None,
        grown_raw: None,
        held: 0,
    },
];

/// Makes the table, lets it grow if it was made, and compares.
fn compare_table(row: &TableLoan) {
    let ty = TableType::new(RefType::Func, 2, None);
    let mut quota = Quota::new(0, row.cap);
    let (size, grown, grown_raw) = match Table::new_lending(ty, func(1), &mut quota) {
        Ok(mut table) => {
            let size = table.size();
            let mut off = Fuel::new(false, FuelCostsProvider::default());
            let grown = table.grow_lending(1, func(2), &mut off, &mut quota);
            let mut lent = ResourceLimiterRef::from(&mut quota);
            let grown_raw = table.grow_raw(1, RawRef::from(3), Some(&mut off), &mut lent);
            (Ok(size), Some(grown), Some(grown_raw))
        }
        Err(error) => (Err(error), None, None),
    };
    let answer = (size, grown, grown_raw, quota.held_elements());
    let expected = (row.made, row.grown, row.grown_raw, row.held);
    assert_eq!(answer, expected, "{}", row.what);
}

#[test]
fn lends_quotas_to_tables() {
    for row in &TABLE_LOANS {
        compare_table(row);
    }
}
