//! Every way in which the growth of a memory or a table can end.
use super::creations::Subject;
use super::limiters::{COMPLAINT, Failure, Question, Recorder, same_record};
use super::{ample_memory, func, grow, memory_type, metered, table_of};
use wasmi_core_proved::machine::{
    Fuel, Kind, LimiterError, MemoryError, RefType, ResourceLimiterRef, Table, TableType,
};

/// A growth of a memory of one page or of a table of one function, with so much fuel, under a
/// limiter with this answer and this notice_answer: how it ends, what the limiter was asked and
/// told, and the fuel that is left.
#[derive(Clone, Copy)]
pub struct Growth {
    pub what: &'static str,
    pub subject: Subject,
    pub maximum: Option<u64>,
    pub delta: u64,
    pub fuel: u64,
    pub answer: Result<bool, LimiterError>,
    pub notice_answer: Result<(), LimiterError>,
    pub outcome: Result<u64, Failure>,
    pub question: Option<Question>,
    pub notice: Option<Failure>,
    pub left: u64,
}

/// What a growth ended with, and the size then.
type Grown = (Result<u64, Failure>, u64);

/// What the growth of a memory ended with.
pub fn memory_outcome(grown: Result<u64, MemoryError>) -> Result<u64, Failure> {
    match grown {
        Ok(size) => Ok(size),
        Err(error) => Err(Failure::Memory(error)),
    }
}

/// Makes a memory of one page, and grows it.
fn grow_memory(row: &Growth, memory64: bool, meter: &mut Fuel, recorder: &mut Recorder) -> Grown {
    let ty = memory_type(1, row.maximum, 16, memory64);
    let mut memory = ample_memory(ty);
    let grown = grow(&mut memory, row.delta, Some(meter), recorder);
    (memory_outcome(grown), memory.size())
}

/// A type of tables of functions with 64-bit indices.
fn table_type(maximum: Option<u64>) -> TableType {
    match maximum {
        Some(maximum) if maximum >= 1 => TableType::new64(RefType::Func, 1, Some(maximum)),
        _ => TableType::new64(RefType::Func, 1, None),
    }
}

/// Grows a table by null references under a limiter.
pub fn grow_raw(
    table: &mut Table,
    delta: u64,
    fuel: Option<&mut Fuel>,
    limiter: &mut Recorder,
) -> Result<u64, Failure> {
    let mut limiter = ResourceLimiterRef::from(limiter);
    match table.grow_raw(delta, func(0).raw(), fuel, &mut limiter) {
        Ok(size) => Ok(size),
        Err(error) => Err(Failure::Table(error)),
    }
}

/// Makes a table of one function, and grows it by null references.
fn grow_table(row: &Growth, meter: &mut Fuel, recorder: &mut Recorder) -> Grown {
    let mut table = table_of(table_type(row.maximum), func(1));
    let outcome = grow_raw(&mut table, row.delta, Some(meter), recorder);
    assert_eq!(table.get(0), Some(func(1)), "{}", row.what);
    (outcome, table.size())
}

/// Makes and grows what a row says, and compares.
fn compare_growth(row: &Growth) {
    let mut meter = metered(row.fuel);
    let mut recorder = Recorder::new(row.answer, row.notice_answer);
    let (outcome, size) = match row.subject {
        Subject::Memory32 => grow_memory(row, false, &mut meter, &mut recorder),
        Subject::Memory64 => grow_memory(row, true, &mut meter, &mut recorder),
        Subject::Table(_) => grow_table(row, &mut meter, &mut recorder),
    };
    let added = if row.outcome.is_ok() { row.delta } else { 0 };
    let answer = (outcome, meter.get_fuel(), Some(size));
    let expected = (row.outcome, Ok(row.left), 1u64.checked_add(added));
    assert_eq!(answer, expected, "{}", row.what);
    same_record(row.what, &recorder, row.question, row.notice);
}

/// Makes and grows what each row says, and compares.
pub fn compare_growths(rows: &[Growth]) {
    for row in rows.iter().filter(|row| row.subject.is_there()) {
        compare_growth(row);
    }
}

const DENIED: Failure = Failure::Memory(MemoryError::ResourceLimiterDeniedAllocation);

const OUT_OF_FUEL: Failure = Failure::Memory(MemoryError::OutOfFuel {
    required_fuel: 1024,
});

const PERMITTED: Growth = Growth {
    what: "by a page",
    maximum: Some(2),
    subject: Subject::Memory32,
    delta: 1,
    fuel: 1024,
    answer: Ok(true),
    notice_answer: Ok(()),
    outcome: Ok(1),
    question: Some(Question {
        kind: Kind::Bytes,
        current: 65536,
        desired: 131072,
        maximum: Some(131072),
    }),
    notice: None,
    left: 0,
};

const ABOVE_THE_MAXIMUM: Growth = Growth {
    what: "above the maximum",
    delta: 2,
    outcome: Err(Failure::Memory(MemoryError::OutOfBoundsGrowth)),
    question: None,
    left: 1024,
    ..PERMITTED
};

const WANT_OF_FUEL: Growth = Growth {
    what: "want of fuel",
    fuel: 1000,
    outcome: Err(OUT_OF_FUEL),
    notice: Some(OUT_OF_FUEL),
    left: 1000,
    ..PERMITTED
};

const WANT_OF_MEMORY: Growth = Growth {
    what: "want of memory",
    maximum: None,
    subject: Subject::Memory64,
    delta: (1 << (usize::BITS - 17)) - 1,
    fuel: u64::MAX,
    outcome: Err(Failure::Memory(MemoryError::OutOfSystemMemory)),
    question: Some(Question {
        kind: Kind::Bytes,
        current: 65536,
        desired: 1 << (usize::BITS - 1),
        maximum: None,
    }),
    notice: Some(Failure::Memory(MemoryError::OutOfSystemMemory)),
    left: u64::MAX - ((1 << (usize::BITS - 7)) - 1024),
    ..PERMITTED
};

static GROWTHS: [Growth; 10] = [
    Growth {
        what: "by no page",
        delta: 0,
        fuel: 1000,
        question: None,
        left: 1000,
        ..PERMITTED
    },
    PERMITTED,
    ABOVE_THE_MAXIMUM,
    Growth {
        what: "above all numbers of pages",
        maximum: None,
        subject: Subject::Memory64,
        delta: u64::MAX,
        ..ABOVE_THE_MAXIMUM
    },
    Growth {
        what: "the limiter says no",
        answer: Ok(false),
        outcome: Err(Failure::Memory(MemoryError::OutOfBoundsGrowth)),
        left: 1024,
        ..PERMITTED
    },
    Growth {
        what: "the limiter answers an error",
        answer: Err(COMPLAINT),
        outcome: Err(DENIED),
        left: 1024,
        ..PERMITTED
    },
    WANT_OF_FUEL,
    complained! { Growth, "want of fuel", WANT_OF_FUEL },
    WANT_OF_MEMORY,
    complained! { Growth, "want of memory", WANT_OF_MEMORY },
];

#[test]
fn records_growths() {
    compare_growths(&GROWTHS);
}

/// Every way in which the growth of a table can end.
mod tables {
    use super::super::creations::Subject;
    use super::super::limiters::{COMPLAINT, Failure, Question, Recorder, same_record};
    use super::super::{external, func, table_of};
    use super::{Growth, compare_growths};
    use wasmi_core_proved::machine::{
        Kind, NoLimits, RefType, ResourceLimiterRef, TableError, TableType,
    };

    const DENIED: Failure = Failure::Table(TableError::ResourceLimiterDeniedAllocation);

    const OUT_OF_FUEL: Failure = Failure::Table(TableError::OutOfFuel { required_fuel: 1 });

    const PERMITTED: Growth = Growth {
        what: "by 16",
        subject: Subject::Table(RefType::Func),
        maximum: Some(17),
        delta: 16,
        fuel: 3,
        answer: Ok(true),
        notice_answer: Ok(()),
        outcome: Ok(1),
        question: Some(Question {
            kind: Kind::Elements,
            current: 1,
            desired: 17,
            maximum: Some(17),
        }),
        notice: None,
        left: 2,
    };

    const ABOVE_THE_MAXIMUM: Growth = Growth {
        what: "above the maximum",
        maximum: Some(16),
        outcome: Err(Failure::Table(TableError::GrowOutOfBounds)),
        question: Some(Question {
            kind: Kind::Elements,
            current: 1,
            desired: 17,
            maximum: Some(16),
        }),
        notice: Some(Failure::Table(TableError::GrowOutOfBounds)),
        left: 3,
        ..PERMITTED
    };

    const WANT_OF_FUEL: Growth = Growth {
        what: "want of fuel",
        fuel: 0,
        outcome: Err(OUT_OF_FUEL),
        notice: Some(OUT_OF_FUEL),
        left: 0,
        ..PERMITTED
    };

    const WANT_OF_MEMORY: Growth = Growth {
        what: "want of memory",
        maximum: None,
        delta: 1 << (usize::BITS - 2),
        fuel: u64::MAX,
        outcome: Err(Failure::Table(TableError::OutOfSystemMemory)),
        question: Some(Question {
            kind: Kind::Elements,
            current: 1,
            desired: (1 << (usize::BITS - 2)) + 1,
            maximum: None,
        }),
        notice: Some(Failure::Table(TableError::OutOfSystemMemory)),
        left: u64::MAX - (1u64 << (usize::BITS - 2)).saturating_mul(4) / 64,
        ..PERMITTED
    };

    static GROWTHS: [Growth; 13] = [
        Growth {
            what: "by no element",
            delta: 0,
            question: None,
            left: 3,
            ..PERMITTED
        },
        PERMITTED,
        Growth {
            what: "by 15, for nothing",
            delta: 15,
            fuel: 0,
            question: Some(Question {
                kind: Kind::Elements,
                current: 1,
                desired: 16,
                maximum: Some(17),
            }),
            left: 0,
            ..PERMITTED
        },
        Growth {
            what: "above all numbers of elements",
            maximum: None,
            delta: u64::MAX,
            outcome: Err(Failure::Table(TableError::GrowOutOfBounds)),
            question: None,
            left: 3,
            ..PERMITTED
        },
        Growth {
            what: "the limiter says no",
            answer: Ok(false),
            outcome: Err(Failure::Table(TableError::GrowOutOfBounds)),
            left: 3,
            ..PERMITTED
        },
        Growth {
            what: "the limiter answers an error",
            answer: Err(COMPLAINT),
            outcome: Err(DENIED),
            left: 3,
            ..PERMITTED
        },
        ABOVE_THE_MAXIMUM,
        Growth {
            what: "by 2, one above the maximum",
            maximum: Some(2),
            delta: 2,
            question: Some(Question {
                kind: Kind::Elements,
                current: 1,
                desired: 3,
                maximum: Some(2),
            }),
            ..ABOVE_THE_MAXIMUM
        },
        WANT_OF_FUEL,
        WANT_OF_MEMORY,
        complained! { Growth, "above the maximum", ABOVE_THE_MAXIMUM },
        complained! { Growth, "want of fuel", WANT_OF_FUEL },
        complained! { Growth, "want of memory", WANT_OF_MEMORY },
    ];

    #[test]
    fn records_growths() {
        compare_growths(&GROWTHS);
    }

    #[test]
    fn tests_the_type_also_for_no_element() {
        let ty = TableType::new(RefType::Func, 1, Some(2));
        let mut table = table_of(ty, func(1));
        let mut recorder = Recorder::new(Ok(true), Ok(()));
        let mut limiter = ResourceLimiterRef::from(&mut recorder);
        let mismatch = Err(TableError::ElementTypeMismatch);
        let answers = [
            table.grow(0, external(0), None, &mut limiter),
            table.grow(0, func(0), None, &mut limiter),
            table.grow_raw(0, external(0).raw(), None, &mut limiter),
        ];
        let expected = [mismatch, Ok(1), Ok(1)];
        assert_eq!(answers, expected, "another, the no type");
        same_record("nobody is asked", &recorder, None, None);
    }

    #[test]
    fn grows_without_a_limiter_and_a_meter() {
        let ty = TableType::new(RefType::Func, 1, Some(2));
        let mut table = table_of(ty, func(1));
        let mut nobody = ResourceLimiterRef::<NoLimits>::default();
        let answers = [
            (table.grow(1, func(4), None, &mut nobody), table.get(1)),
            (table.grow(1, func(4), None, &mut nobody), table.get(1)),
        ];
        let refused = Err(TableError::GrowOutOfBounds);
        let expected = [(Ok(1), Some(func(4))), (refused, Some(func(4)))];
        assert_eq!(answers, expected, "by 1, above the maximum");
        let limits = (table.dynamic_ty().minimum(), table.ty().minimum());
        assert_eq!(limits, (2, 1), "the minimums");
    }
}
