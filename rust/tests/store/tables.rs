//! Reading and writing the elements of tables.
use super::{five_functions, func, metered, metered_at, same_elements, segment_of};
use wasmi_core_proved::machine::{Fuel, RawRef, RefType, Table, TableError, TypedRawRef};

const MISMATCH: Result<(), TableError> = Err(TableError::ElementTypeMismatch);

/// What is written over a part of a table.
#[derive(Clone, Copy)]
enum Write {
    /// A part of the table itself.
    Within { to: u64, from: u64, len: u64 },
    /// A part of another table, of the functions 1 to 5.
    Copy { to: u64, from: u64, len: u64 },
    /// A part of an element segment of this type, 6 to 8.
    Init {
        ty: RefType,
        to: u64,
        from: u32,
        len: u32,
    },
    /// A reference of this type, 8.
    Fill { ty: RefType, to: u64, len: u64 },
    /// A reference without a type.
    Raw { bits: u32, to: u64, len: u64 },
    /// One reference of this type.
    Set { ty: RefType, bits: u32, to: u64 },
    /// One null reference without a type.
    SetNull { to: u64 },
}

/// A write on a table that the steps before it left, with a meter or without: how it ends, and the
/// fuel and the elements then.
#[derive(Clone, Copy)]
struct Step {
    what: &'static str,
    write: Write,
    metered: bool,
    outcome: Result<(), TableError>,
    left: u64,
    elements: [u32; 5],
}

/// Initializes a part of a table from a segment of three items.
fn initialize(
    table: &mut Table,
    ty: RefType,
    places: (u64, u32, u32),
    fuel: Option<&mut Fuel>,
) -> Result<(), TableError> {
    let (to, from, len) = places;
    let items = [func(6).raw(), func(7).raw(), func(8).raw()];
    let segment = segment_of(ty, items);
    table.init(segment.as_ref(), to, from, len, fuel)
}

fn reference(ty: RefType, bits: u32) -> TypedRawRef {
    TypedRawRef::new(RawRef::from(bits), ty)
}

/// Writes over a part of a table.
fn perform(table: &mut Table, write: Write, fuel: Option<&mut Fuel>) -> Result<(), TableError> {
    match write {
        Write::Within { to, from, len } => table.copy_within(to, from, len, fuel),
        Write::Copy { to, from, len } => Table::copy(table, to, &five_functions(), from, len, fuel),
        Write::Init { ty, to, from, len } => initialize(table, ty, (to, from, len), fuel),
        Write::Fill { ty, to, len } => table.fill(to, reference(ty, 8), len, fuel),
        Write::Raw { bits, to, len } => table.fill_raw(to, RawRef::from(bits), len, fuel),
        Write::Set { ty, bits, to } => table.set(to, reference(ty, bits)),
        Write::SetNull { to } => table.set_raw(to, RawRef::null()),
    }
}

/// Writes step by step on a table of the functions 1 to 5, and compares after each step.
fn compare_steps(mut meter: Fuel, steps: &[Step]) {
    let mut table = five_functions();
    for step in steps {
        let fuel = if step.metered { Some(&mut meter) } else { None };
        let outcome = perform(&mut table, step.write, fuel);
        let answer = (outcome, meter.get_fuel());
        assert_eq!(answer, (step.outcome, Ok(step.left)), "{}", step.what);
        same_elements(step.what, &table, step.elements);
    }
}

const SET: Step = Step {
    what: "set",
    write: Write::Set {
        ty: RefType::Func,
        bits: 9,
        to: 4,
    },
    metered: true,
    outcome: Ok(()),
    left: 0,
    elements: [1, 2, 3, 4, 9],
};

const SET_TO_NULL: Step = Step {
    what: "set raw",
    write: Write::SetNull { to: 0 },
    elements: [0, 2, 3, 4, 9],
    ..SET
};

static SETS: [Step; 5] = [
    SET,
    Step {
        what: "another type",
        write: Write::Set {
            ty: RefType::Extern,
            bits: 1,
            to: 9,
        },
        outcome: MISMATCH,
        ..SET
    },
    Step {
        what: "past the end",
        write: Write::Set {
            ty: RefType::Func,
            bits: 1,
            to: 5,
        },
        outcome: Err(TableError::SetOutOfBounds),
        ..SET
    },
    SET_TO_NULL,
    Step {
        what: "far past the end",
        write: Write::SetNull { to: u64::MAX },
        outcome: Err(TableError::SetOutOfBounds),
        ..SET_TO_NULL
    },
];

#[test]
fn gets_and_sets() {
    let table = five_functions();
    let past_the_end = [table.get(5), table.get(u64::MAX)];
    assert_eq!(past_the_end, [None; 2], "past the end");
    compare_steps(metered_at(1, 0), &SETS);
}

const COPIED: Step = Step {
    what: "up",
    write: Write::Within {
        to: 1,
        from: 0,
        len: 3,
    },
    metered: false,
    outcome: Ok(()),
    left: 0,
    elements: [1, 1, 2, 3, 5],
};

/// Copies without a meter, each on a table of its own.
static COPIES_WITHIN: [Step; 3] = [
    COPIED,
    Step {
        what: "down",
        write: Write::Within {
            to: 0,
            from: 2,
            len: 3,
        },
        elements: [3, 4, 5, 4, 5],
        ..COPIED
    },
    Step {
        what: "in place",
        write: Write::Within {
            to: 0,
            from: 0,
            len: 5,
        },
        elements: [1, 2, 3, 4, 5],
        ..COPIED
    },
];

#[test]
fn copies_within() {
    for step in &COPIES_WITHIN {
        compare_steps(metered_at(1, 0), &[*step]);
    }
}

const REFUSED: Step = Step {
    what: "a fill",
    write: Write::Raw {
        bits: 9,
        to: 4,
        len: 2,
    },
    metered: true,
    outcome: Err(TableError::FillOutOfBounds),
    left: 100,
    elements: [1, 2, 3, 4, 5],
};

static FILLS_PAST_THE_TABLE: [Step; 3] = [
    REFUSED,
    Step {
        what: "a fill from the greatest number",
        write: Write::Raw {
            bits: 9,
            to: u64::MAX,
            len: 1,
        },
        ..REFUSED
    },
    Step {
        what: "a fill of the greatest number",
        write: Write::Raw {
            bits: 9,
            to: 1,
            len: u64::MAX,
        },
        ..REFUSED
    },
];

#[test]
fn refuses_a_fill_past_the_table() {
    compare_steps(metered_at(1, 100), &FILLS_PAST_THE_TABLE);
}

const PAST_THE_COPY: Step = Step {
    outcome: Err(TableError::CopyOutOfBounds),
    ..REFUSED
};

static COPIES_PAST_THE_TABLE: [Step; 5] = [
    Step {
        what: "to the greatest number",
        write: Write::Within {
            to: u64::MAX,
            from: 0,
            len: 1,
        },
        ..PAST_THE_COPY
    },
    Step {
        what: "from the greatest number",
        write: Write::Within {
            to: 0,
            from: u64::MAX,
            len: 1,
        },
        ..PAST_THE_COPY
    },
    Step {
        what: "the greatest number",
        write: Write::Within {
            to: 0,
            from: 0,
            len: u64::MAX,
        },
        ..PAST_THE_COPY
    },
    Step {
        what: "to past the end",
        write: Write::Within {
            to: 3,
            from: 0,
            len: 3,
        },
        ..PAST_THE_COPY
    },
    Step {
        what: "from past the end",
        write: Write::Within {
            to: 0,
            from: 3,
            len: 3,
        },
        ..PAST_THE_COPY
    },
];

#[test]
fn refuses_a_copy_past_the_table() {
    compare_steps(metered_at(1, 100), &COPIES_PAST_THE_TABLE);
}

const EIGHT_BYTES: Step = Step {
    what: "two",
    write: Write::Copy {
        to: 3,
        from: 0,
        len: 2,
    },
    metered: true,
    outcome: Ok(()),
    left: 12,
    elements: [1, 2, 3, 1, 2],
};

static COPIES: [Step; 4] = [
    EIGHT_BYTES,
    Step {
        what: "past the table",
        write: Write::Copy {
            to: 4,
            from: 0,
            len: 2,
        },
        outcome: Err(TableError::CopyOutOfBounds),
        ..EIGHT_BYTES
    },
    Step {
        what: "past the source",
        write: Write::Copy {
            to: 0,
            from: 4,
            len: 2,
        },
        outcome: Err(TableError::CopyOutOfBounds),
        ..EIGHT_BYTES
    },
    Step {
        what: "want of fuel",
        write: Write::Copy {
            to: 0,
            from: 0,
            len: 4,
        },
        outcome: Err(TableError::OutOfFuel { required_fuel: 16 }),
        ..EIGHT_BYTES
    },
];

#[test]
fn copies_from_another_table() {
    compare_steps(metered_at(1, 20), &COPIES);
}

const FILLED: Step = Step {
    what: "two",
    write: Write::Fill {
        ty: RefType::Func,
        to: 1,
        len: 2,
    },
    metered: true,
    outcome: Ok(()),
    left: 0,
    elements: [1, 8, 8, 4, 5],
};

static FILLS: [Step; 3] = [
    FILLED,
    Step {
        what: "another type",
        write: Write::Fill {
            ty: RefType::Extern,
            to: 9,
            len: 1,
        },
        metered: false,
        outcome: MISMATCH,
        ..FILLED
    },
    Step {
        what: "none, at the end",
        write: Write::Fill {
            ty: RefType::Func,
            to: 5,
            len: 0,
        },
        metered: false,
        ..FILLED
    },
];

#[test]
fn fills() {
    compare_steps(metered_at(4, 2), &FILLS);
}

const INITIALIZED: Step = Step {
    what: "two",
    write: Write::Init {
        ty: RefType::Func,
        to: 3,
        from: 1,
        len: 2,
    },
    metered: true,
    outcome: Ok(()),
    left: 10,
    elements: [1, 2, 3, 7, 8],
};

static INITIALIZATIONS: [Step; 4] = [
    INITIALIZED,
    Step {
        what: "past the table",
        write: Write::Init {
            ty: RefType::Func,
            to: 4,
            from: 0,
            len: 2,
        },
        outcome: Err(TableError::InitOutOfBounds),
        ..INITIALIZED
    },
    Step {
        what: "past the segment",
        write: Write::Init {
            ty: RefType::Func,
            to: 0,
            from: 2,
            len: 2,
        },
        outcome: Err(TableError::InitOutOfBounds),
        ..INITIALIZED
    },
    Step {
        what: "another type",
        write: Write::Init {
            ty: RefType::Extern,
            to: 9,
            from: 0,
            len: 1,
        },
        outcome: MISMATCH,
        ..INITIALIZED
    },
];

#[test]
fn initializes_from_a_segment() {
    compare_steps(metered(10), &INITIALIZATIONS);
}

const FREE: Step = Step {
    what: "an initialization is free",
    write: Write::Init {
        ty: RefType::Func,
        to: 5,
        from: 3,
        len: 0,
    },
    metered: true,
    outcome: Ok(()),
    left: 10,
    elements: [1, 2, 3, 4, 5],
};

const DEAREST: Step = Step {
    outcome: Err(TableError::OutOfFuel {
        required_fuel: u64::MAX,
    }),
    ..FREE
};

static OF_NO_ELEMENT: [Step; 4] = [
    FREE,
    Step {
        what: "a copy within",
        write: Write::Within {
            to: 5,
            from: 0,
            len: 0,
        },
        ..DEAREST
    },
    Step {
        what: "a fill",
        write: Write::Raw {
            bits: 0,
            to: 5,
            len: 0,
        },
        ..DEAREST
    },
    Step {
        what: "a copy",
        write: Write::Copy {
            to: 0,
            from: 0,
            len: 0,
        },
        ..DEAREST
    },
];

#[test]
fn charges_for_no_element() {
    compare_steps(metered_at(0, 10), &OF_NO_ELEMENT);
}
