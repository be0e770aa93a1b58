//! Every way in which the creation of a memory or a table can end.
use super::limiters::{COMPLAINT, Failure, Question, Recorder, same_record};
use super::{memory_type, new_memory};
use wasmi_core_proved::machine::{
    Kind, LimiterError, Memory, MemoryError, RawRef, RefType, ResourceLimiterRef, Table, TableType,
    TypedRawRef,
};

/// What is made or grows: a memory of pages of 64 KiB, or a table of functions with 64-bit indices.
#[derive(Clone, Copy)]
pub enum Subject {
    /// Under 32-bit addresses.
    Memory32,
    /// Under 64-bit addresses.
    Memory64,
    /// Made of references of this type.
    Table(RefType),
}

impl Subject {
    /// Whether the features of the crate have it.
    pub fn is_there(&self) -> bool {
        cfg!(feature = "memory64") || !matches!(self, Subject::Memory64)
    }
}

/// A creation under a limiter with this answer and this notice_answer: how it ends, and what the
/// limiter was asked and told.
#[derive(Clone, Copy)]
pub struct Creation {
    pub what: &'static str,
    pub subject: Subject,
    pub minimum: u64,
    pub maximum: Option<u64>,
    pub answer: Result<bool, LimiterError>,
    pub notice_answer: Result<(), LimiterError>,
    pub outcome: Result<u64, Failure>,
    pub question: Option<Question>,
    pub notice: Option<Failure>,
}

/// The size of what was made.
pub fn memory_size(made: Result<Memory, MemoryError>) -> Result<u64, Failure> {
    match made {
        Ok(memory) => Ok(memory.size()),
        Err(error) => Err(Failure::Memory(error)),
    }
}

/// Makes a table without a maximum, and tells its size.
fn make_table(minimum: u64, element: RefType, recorder: &mut Recorder) -> Result<u64, Failure> {
    let ty = TableType::new64(RefType::Func, minimum, None);
    let init = TypedRawRef::new(RawRef::from(7), element);
    match Table::new(ty, init, &mut ResourceLimiterRef::from(recorder)) {
        Ok(table) => Ok(table.size()),
        Err(error) => Err(Failure::Table(error)),
    }
}

/// Makes a memory, and tells its size.
fn make_memory(row: &Creation, memory64: bool, recorder: &mut Recorder) -> Result<u64, Failure> {
    let ty = memory_type(row.minimum, row.maximum, 16, memory64);
    memory_size(new_memory(ty, recorder))
}

/// Makes what a row says, and compares.
fn compare_creation(row: &Creation) {
    let mut recorder = Recorder::new(row.answer, row.notice_answer);
    let outcome = match row.subject {
        Subject::Memory32 => make_memory(row, false, &mut recorder),
        Subject::Memory64 => make_memory(row, true, &mut recorder),
        Subject::Table(element) => make_table(row.minimum, element, &mut recorder),
    };
    assert_eq!(outcome, row.outcome, "{}", row.what);
    same_record(row.what, &recorder, row.question, row.notice);
}

/// Makes what each row says, and compares.
pub fn compare_creations(rows: &[Creation]) {
    for row in rows.iter().filter(|row| row.subject.is_there()) {
        compare_creation(row);
    }
}

const DENIED: Failure = Failure::Memory(MemoryError::ResourceLimiterDeniedAllocation);

const PERMITTED: Creation = Creation {
    what: "a page",
    minimum: 1,
    maximum: Some(2),
    subject: Subject::Memory32,
    answer: Ok(true),
    notice_answer: Ok(()),
    outcome: Ok(1),
    question: Some(Question {
        kind: Kind::Bytes,
        current: 0,
        desired: 65536,
        maximum: Some(131072),
    }),
    notice: None,
};

const WANTING: Creation = Creation {
    what: "want of memory",
    minimum: 1 << (usize::BITS - 17),
    maximum: None,
    subject: Subject::Memory64,
    outcome: Err(Failure::Memory(MemoryError::OutOfSystemMemory)),
    question: Some(Question {
        kind: Kind::Bytes,
        current: 0,
        desired: 1 << (usize::BITS - 1),
        maximum: None,
    }),
    notice: Some(Failure::Memory(MemoryError::OutOfSystemMemory)),
    ..PERMITTED
};

static CREATIONS: [Creation; 7] = [
    PERMITTED,
    denied! { Creation, "the limiter says no", Ok(false), PERMITTED },
    denied! { Creation, "the limiter answers an error", Err(COMPLAINT), PERMITTED },
    Creation {
        what: "a maximum of all bytes",
        minimum: 0,
        maximum: Some(1 << 48),
        subject: Subject::Memory64,
        outcome: Ok(0),
        question: Some(Question {
            kind: Kind::Bytes,
            current: 0,
            desired: 0,
            maximum: Some(usize::MAX),
        }),
        ..PERMITTED
    },
    Creation {
        what: "a minimum of all bytes",
        minimum: 1 << (usize::BITS - 16),
        maximum: None,
        subject: Subject::Memory64,
        outcome: Err(Failure::Memory(MemoryError::MinimumSizeOverflow)),
        question: None,
        ..PERMITTED
    },
    WANTING,
    complained! { Creation, "want of memory", WANTING },
];

#[test]
fn records_creations() {
    compare_creations(&CREATIONS);
}

/// Every way in which the creation of a table can end.
mod tables {
    use super::super::limiters::{COMPLAINT, Failure, Question};
    use super::super::{external, table_of};
    use super::{Creation, Subject, compare_creations};
    use wasmi_core_proved::machine::{Kind, RefType, TableError, TableType, TypedRawRef};

    const DENIED: Failure = Failure::Table(TableError::ResourceLimiterDeniedAllocation);

    const PERMITTED: Creation = Creation {
        what: "two elements",
        subject: Subject::Table(RefType::Func),
        minimum: 2,
        maximum: None,
        answer: Ok(true),
        notice_answer: Ok(()),
        outcome: Ok(2),
        question: Some(Question {
            kind: Kind::Elements,
            current: 0,
            desired: 2,
            maximum: None,
        }),
        notice: None,
    };

    const WANTING: Creation = Creation {
        what: "want of memory",
        minimum: usize::MAX as u64,
        outcome: Err(Failure::Table(TableError::OutOfSystemMemory)),
        question: Some(Question {
            kind: Kind::Elements,
            current: 0,
            desired: usize::MAX,
            maximum: None,
        }),
        notice: Some(Failure::Table(TableError::OutOfSystemMemory)),
        ..PERMITTED
    };

    static CREATIONS: [Creation; 7] = [
        PERMITTED,
        Creation {
            what: "a reference of another type",
            subject: Subject::Table(RefType::Extern),
            outcome: Err(Failure::Table(TableError::ElementTypeMismatch)),
            question: None,
            ..PERMITTED
        },
        denied! { Creation, "the limiter says no", Ok(false), PERMITTED },
        denied! { Creation, "the limiter answers an error", Err(COMPLAINT), PERMITTED },
        Creation {
            what: "no element",
            minimum: 0,
            outcome: Ok(0),
            question: Some(Question {
                kind: Kind::Elements,
                current: 0,
                desired: 0,
                maximum: None,
            }),
            ..PERMITTED
        },
        WANTING,
        complained! { Creation, "want of memory", WANTING },
    ];

    #[test]
    fn records_creations() {
        compare_creations(&CREATIONS);
    }

    #[test]
    fn holds_the_first_reference_everywhere() {
        let ty = TableType::new(RefType::Extern, 2, Some(4));
        let table = table_of(ty, external(7));
        let first = table.get(0);
        let elements = [first, table.get(1), table.get(2)];
        let expected = [Some(external(7)), Some(external(7)), None];
        assert_eq!(elements, expected, "the elements");
        let null = TypedRawRef::null(RefType::Extern);
        let answers = (table.ty(), table.dynamic_ty(), first == Some(null));
        assert_eq!(answers, (ty, ty, false), "the types, and no null");
    }
}
