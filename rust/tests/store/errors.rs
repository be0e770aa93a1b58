//! Types and what is shown of them, costs and meters, the texts of errors and conversions between them.
use super::{ample_memory, build_type, func, grow, memory_type, metered, page_type, segment_of};
use wasmi_core_proved::machine::{
    CustomFuelCosts, Fuel, FuelCosts, FuelCostsProvider, FuelError, IndexType, LimiterError,
    MemoryError, MemoryType, NoLimits, RawRef, RefType, SegmentError, TableError, TableType,
};

#[test]
fn builds_what_is_valid() {
    let all_pages = build_type(65536, Some(65536), 16, false);
    let invalid = [
        build_type(65537, None, 16, false),
        build_type(0, Some(65537), 16, false),
        build_type(2, Some(1), 16, false),
        build_type(0, None, 1, false),
    ];
    let refused = [Err(MemoryError::InvalidMemoryType); 4];
    let what = "great minimum, maximum; maximum below minimum; pages of two";
    assert_eq!(invalid, refused, "{}", what);
    let ty = all_pages.expect("all pages");
    let limits = (ty.is_64(), ty.minimum(), ty.maximum());
    assert_eq!(limits, (false, 65536, Some(65536)), "all pages");
    let page = (ty.page_size(), ty.page_size_log2());
    assert_eq!(page, (65536, 16), "a page");
    let default = MemoryType::builder().build();
    assert_eq!(default, Ok(page_type(0, None)), "the default");
}

/// Types of memories with 64-bit addresses need the feature, and no others do.
#[test]
fn builds_wide_types_with_the_feature() {
    for page_size_log2 in [0, 16] {
        let narrow = build_type(3, Some(4), page_size_log2, false).expect("a type");
        assert!(!narrow.is_64(), "narrow addresses");
        let built = build_type(1 << 48, None, page_size_log2, true);
        let limits = built.map(|ty| (ty.is_64(), ty.minimum(), ty.maximum()));
        let expected = if cfg!(feature = "memory64") {
            Ok((true, 1 << 48, None))
        } else {
            Err(MemoryError::InvalidMemoryType)
        };
        assert_eq!(limits, expected, "wide addresses");
    }
}

#[test]
fn tells_its_limits() {
    let narrow = TableType::new(RefType::Extern, 1, Some(u32::MAX));
    let wide = TableType::new64(RefType::Func, u64::MAX, None);
    let limits = [
        (narrow.minimum(), narrow.maximum()),
        (wide.minimum(), wide.maximum()),
    ];
    let expected = [(1, Some(4294967295)), (u64::MAX, None)];
    assert_eq!(limits, expected, "narrow and wide limits");
    let kinds = [
        (narrow.index_ty(), narrow.is_64(), narrow.element()),
        (wide.index_ty(), wide.is_64(), wide.element()),
    ];
    let expected = [
        (IndexType::I32, false, RefType::Extern),
        (IndexType::I64, true, RefType::Func),
    ];
    assert_eq!(kinds, expected, "narrow and wide");
}

#[test]
fn ample_memory_grows() {
    let mut memory = ample_memory(page_type(1, Some(2)));
    let mut meter = metered(1024);
    let grown = grow(&mut memory, 1, Some(&mut meter), &mut NoLimits);
    let sizes = (grown, meter.get_fuel(), memory.size(), memory.data_size());
    let expected = (Ok(1), Ok(0), 2, 131072);
    assert_eq!(sizes, expected, "the old size, fuel, pages, bytes");
    let types = (memory.ty(), memory.dynamic_ty());
    let expected = (page_type(1, Some(2)), page_type(2, Some(2)));
    assert_eq!(types, expected, "the first type and the present one");
    let mut read = [0; 3];
    let answers = [
        memory.write(131070, &[1, 2]),
        memory.read(131070, &mut read),
        memory.read(131069, &mut read),
    ];
    let expected = [Ok(()), Err(MemoryError::OutOfBoundsAccess), Ok(())];
    assert_eq!(answers, expected, "a write, past the end, to it");
    assert_eq!(read, [0, 1, 2], "the last bytes");
}

#[test]
fn drops_its_items_and_keeps_its_type() {
    let items = [func(1).raw(), func(2).raw(), func(3).raw()];
    let mut segment = segment_of(RefType::Func, items);
    let shared = segment.as_ref();
    let kept = (shared.ty(), shared.size());
    assert_eq!(shared.items(), items.as_slice(), "the items");
    segment.drop_items();
    let kinds = [kept, (segment.ty(), segment.size())];
    let expected = [(RefType::Func, 3), (RefType::Func, 0)];
    assert_eq!(kinds, expected, "the type and size, before and after");
    let empty: [RawRef; 0] = [];
    assert_eq!(segment.items(), empty.as_slice(), "no items");
}

#[test]
fn other_types_are_no_subtypes() {
    let narrow = page_type(0, None);
    let small = memory_type(0, None, 0, false);
    assert!(!narrow.is_subtype_of(&small), "another page size");
    #[cfg(feature = "memory64")]
    assert!(
        !narrow.is_subtype_of(&super::wide_type(0, None)),
        "another address type"
    );
    let functions = TableType::new(RefType::Func, 0, Some(1));
    let tables = [
        functions.is_subtype_of(&TableType::new(RefType::Extern, 0, Some(1))),
        functions.is_subtype_of(&TableType::new64(RefType::Func, 0, Some(1))),
    ];
    assert_eq!(tables, [false; 2], "another type, wide indices");
}

const CUSTOM: CustomFuelCosts = CustomFuelCosts {
    bytes_copied_per_fuel: 0,
    fuel_per_bytes_translated: 2,
    fuel_per_bytes_validated: 5,
};

/// What it costs to copy, to translate and to validate so many bytes.
fn costs(provider: &FuelCostsProvider, number: u64) -> [u64; 3] {
    [
        provider.fuel_for_copying_values::<u8>(number),
        provider.fuel_for_translating_bytes(number),
        provider.fuel_for_validating_bytes(number),
    ]
}

fn out_of_fuel<T>(required_fuel: u64) -> Result<T, FuelError> {
    Err(FuelError::OutOfFuel { required_fuel })
}

#[test]
fn costs_are_cut_at_the_greatest_number() {
    const MAX: u64 = 18446744073709551615;
    let default = FuelCostsProvider::default();
    let custom = FuelCostsProvider::custom(CUSTOM).clone();
    let rows = [
        (0, [0, 0, 0], [MAX, 0, 0]),
        (1, [0, 7, 2], [MAX, 2, 5]),
        (63, [0, 441, 126], [MAX, 126, 315]),
        (64, [1, 448, 128], [MAX, 128, 320]),
        (
            9223372036854775807,
            [144115188075855871, MAX, MAX - 1],
            [MAX, MAX - 1, MAX],
        ),
        (
            9223372036854775808,
            [144115188075855872, MAX, MAX],
            [MAX, MAX, MAX],
        ),
        (MAX, [288230376151711743, MAX, MAX], [MAX, MAX, MAX]),
    ];
    for (number, by_default, by_custom) in rows {
        let row = (number, costs(&default, number), costs(&custom, number));
        let expected = (number, by_default, by_custom);
        assert_eq!(row, expected, "default and custom costs");
    }
}

#[test]
fn custom_costs_are_what_was_chosen() {
    let costs = [
        CUSTOM.bytes_copied_per_fuel(),
        CUSTOM.fuel_per_bytes_translated(),
        CUSTOM.fuel_per_bytes_validated(),
    ];
    assert_eq!(costs, [0, 2, 5], "copying, translating, validating");
}

/// Takes so much fuel; the closure sets `called` to `mark` when it is called.
fn take(fuel: &mut Fuel, units: u64, mark: u8, called: &mut u8) -> Result<u64, FuelError> {
    fuel.consume_fuel(|_| {
        *called = mark;
        units
    })
}

/// The if the meter is on.
fn take_if_on(fuel: &mut Fuel, units: u64, mark: u8, called: &mut u8) -> Result<(), FuelError> {
    fuel.consume_fuel_if(|_| {
        *called = mark;
        units
    })
}

#[test]
fn a_meter_that_is_on_counts_down() {
    let mut fuel = Fuel::new(true, FuelCostsProvider::custom(CUSTOM));
    let mut called = 0;
    let at_first = fuel.get_fuel();
    let set = fuel.set_fuel(10);
    let answers = [
        at_first,
        fuel.consume_fuel_unchecked(3),
        fuel.consume_fuel(|costs| costs.fuel_for_translating_bytes(2)),
        take(&mut fuel, 4, 1, &mut called),
    ];
    let expected = [Ok(0), Ok(7), Ok(3), out_of_fuel(4)];
    assert_eq!(answers, expected, "a new meter, 3, 4, 4 of 3");
    let answers = [
        set,
        take_if_on(&mut fuel, 4, 2, &mut called),
        take_if_on(&mut fuel, 3, 3, &mut called),
    ];
    let expected = [Ok(()), out_of_fuel(4), Ok(())];
    assert_eq!(answers, expected, "setting 10, 4 and 3 of 3 if on");
    assert_eq!(fuel.get_fuel(), Ok(0), "all is taken");
}

static MEMORY_TEXTS: [(MemoryError, &str); 9] = [
    (
        MemoryError::OutOfSystemMemory,
        "tried to allocate more virtual memory than available on the system",
    ),
    (
        MemoryError::OutOfBoundsGrowth,
        "out of bounds memory growth",
    ),
    (
        MemoryError::OutOfBoundsAccess,
        "out of bounds memory access",
    ),
    (
        MemoryError::InvalidMemoryType,
        "tried to create an invalid linear memory type",
    ),
    (
        MemoryError::InvalidStaticBufferSize,
        "tried to use too small static buffer",
    ),
    (
        MemoryError::ResourceLimiterDeniedAllocation,
        "a resource limiter denied to allocate or grow the linear memory",
    ),
    (
        MemoryError::MinimumSizeOverflow,
        "the minimum size of the memory type overflows the system index type",
    ),
    (
        MemoryError::MaximumSizeOverflow,
        "the maximum size of the memory type overflows the system index type",
    ),
    (
        MemoryError::OutOfFuel {
            required_fuel: 1024,
        },
        "not enough fuel. required=1024",
    ),
];

#[test]
fn memory_errors_have_their_texts() {
    for (error, text) in &MEMORY_TEXTS {
        assert_eq!(error.to_string(), *text);
    }
}

static TABLE_TEXTS: [(TableError, &str); 11] = [
    (
        TableError::OutOfSystemMemory,
        "tried to allocate more virtual memory than available on the system",
    ),
    (
        TableError::MinimumSizeOverflow,
        "the minimum table size overflows the system bounds",
    ),
    (
        TableError::MaximumSizeOverflow,
        "the maximum table size overflows the system bounds",
    ),
    (
        TableError::ResourceLimiterDeniedAllocation,
        "a resource limiter denied to allocate or grow the table",
    ),
    (
        TableError::GrowOutOfBounds,
        "out of bounds table access: `table.growth`",
    ),
    (
        TableError::InitOutOfBounds,
        "out of bounds table access: `table.init`",
    ),
    (
        TableError::FillOutOfBounds,
        "out of bounds table access: `table.fill`",
    ),
    (
        TableError::CopyOutOfBounds,
        "out of bounds table access: `table.copy`",
    ),
    (
        TableError::SetOutOfBounds,
        "out of bounds table access: `table.set`",
    ),
    (
        TableError::ElementTypeMismatch,
        "encountered mismatching table element type",
    ),
    (
        TableError::OutOfFuel {
            required_fuel: u64::MAX,
        },
        "not enough fuel: required=18446744073709551615",
    ),
];

#[test]
fn table_errors_have_their_texts() {
    for (error, text) in &TABLE_TEXTS {
        assert_eq!(error.to_string(), *text);
    }
}

#[test]
fn fuel_and_limiter_errors_have_their_texts() {
    let limiter = LimiterError::ResourceLimiterDeniedAllocation;
    let disabled = FuelError::fuel_metering_disabled();
    let out = FuelError::out_of_fuel(7);
    assert_eq!(limiter.to_string(), "resource limiter denied allocation");
    assert_eq!(disabled.to_string(), "fuel metering is disabled");
    assert_eq!(out.to_string(), "ouf of fuel. required=7");
    let answers = [out.clone(), disabled];
    let expected = [
        FuelError::OutOfFuel { required_fuel: 7 },
        FuelError::FuelMeteringDisabled,
    ];
    assert_eq!(answers, expected, "a clone, metering is off");
}

#[test]
fn a_limiter_error_becomes_a_denial() {
    let error = LimiterError::ResourceLimiterDeniedAllocation;
    let denials = (error.into(), error.into());
    let of_memory = MemoryError::ResourceLimiterDeniedAllocation;
    let of_table = TableError::ResourceLimiterDeniedAllocation;
    assert_eq!(denials, (of_memory, of_table), "of a memory, a table");
}

#[test]
fn segment_errors_have_their_texts() {
    let many = SegmentError::TooManyItems;
    let text = "too many items in an element segment";
    assert_eq!(many.to_string(), text);
    let memory = SegmentError::OutOfSystemMemory;
    assert_eq!(memory.to_string(), "out of memory");
}
