//! The worked rows of the specification, by the calls of the crate's root. Its rows of scripts are among the tests of scripts.
use wasmi_core_proved::machine::{self, ByteBuffer, Quota};
use wasmi_core_proved::{
    CustomFuelCosts, ElementSegment, Fuel, FuelCostsProvider, FuelError, FuncType, FuncTypeError,
    IntoShiftAmount, LimiterError, Memory, MemoryError, MemoryType, RawRef, RawVal, RefType,
    ResourceLimiter, ResourceLimiterRef, Table, TableError, TableType, TrapCode, TypedRawRef, V128,
    ValType, WriteAs, wasm,
};

const PAGE: usize = 65_536;

/// A question that a limiter is asked.
type Question = (usize, usize, Option<usize>);

/// A limiter that gives one answer to each question and one to each notice, and writes down what it is asked and told.
struct Recorder {
    answer: Result<bool, LimiterError>,
    notice: Result<(), LimiterError>,
    asked: Vec<Question>,
    memory_errors: Vec<MemoryError>,
    table_errors: Vec<TableError>,
}

const DENIED: LimiterError = LimiterError::ResourceLimiterDeniedAllocation;

impl Recorder {
    fn new(answer: Result<bool, LimiterError>) -> Self {
        Self {
            answer,
            notice: Ok(()),
            asked: vec![],
            memory_errors: vec![],
            table_errors: vec![],
        }
    }

    fn lent(&mut self) -> ResourceLimiterRef<'_> {
        (self as &mut dyn ResourceLimiter).into()
    }
}

impl ResourceLimiter for Recorder {
    fn memory_growing(
        &mut self,
        from: usize,
        to: usize,
        most: Option<usize>,
    ) -> Result<bool, LimiterError> {
        self.asked.push((from, to, most));
        self.answer
    }

    fn table_growing(
        &mut self,
        from: usize,
        to: usize,
        most: Option<usize>,
    ) -> Result<bool, LimiterError> {
        self.asked.push((from, to, most));
        self.answer
    }

    fn memory_grow_failed(&mut self, error: &MemoryError) -> Result<(), LimiterError> {
        self.memory_errors.push(*error);
        self.notice
    }

    fn table_grow_failed(&mut self, error: &TableError) -> Result<(), LimiterError> {
        self.table_errors.push(*error);
        self.notice
    }

    fn instances(&self) -> usize {
        1
    }

    fn tables(&self) -> usize {
        1
    }

    fn memories(&self) -> usize {
        1
    }
}

fn nobody() -> ResourceLimiterRef<'static> {
    ResourceLimiterRef::default()
}

fn pages(minimum: u64, maximum: Option<u64>) -> MemoryType {
    let mut builder = MemoryType::builder();
    builder.min(minimum).max(maximum);
    builder.build().unwrap()
}

#[cfg(feature = "memory64")]
fn pages_by_64_bits(minimum: u64, maximum: Option<u64>) -> MemoryType {
    let mut builder = MemoryType::builder();
    builder.min(minimum).max(maximum).memory64(true);
    builder.build().unwrap()
}

/// A meter by which so many bytes are copied for a unit of fuel.
fn fuel(bytes_copied_per_fuel: u32, amount: u64) -> Fuel {
    let costs = CustomFuelCosts {
        bytes_copied_per_fuel,
        fuel_per_bytes_translated: 7,
        fuel_per_bytes_validated: 2,
    };
    let mut fuel = Fuel::new(true, FuelCostsProvider::custom(costs));
    fuel.set_fuel(amount).unwrap();
    fuel
}

fn function(number: u32) -> TypedRawRef {
    TypedRawRef::new(RawRef::from(number), RefType::Func)
}

fn counted(count: u32) -> Table {
    let mut table = Table::new(
        TableType::new(RefType::Func, count, None),
        function(0),
        &mut nobody(),
    )
    .unwrap();
    (0..count).for_each(|index| table.set(index.into(), function(index + 1)).unwrap());
    table
}

fn elements(table: &Table) -> Vec<u32> {
    (0..table.size())
        .map(|index| table.get(index).unwrap().raw().into())
        .collect()
}

#[test]
fn row_5() {
    assert_eq!(
        wasm::i32_div_s(i32::MIN, -1),
        Err(TrapCode::IntegerOverflow)
    );
    assert_eq!(wasm::i32_rem_s(i32::MIN, -1), Ok(0));
    assert_eq!(wasm::i32_div_u(1, 0), Err(TrapCode::IntegerDivisionByZero));
}

#[test]
fn row_6() {
    assert_eq!(wasm::i64_mul_wide_u(-1, -1), (1, -2));
    assert_eq!(wasm::i64_add128(-1, 0, 1, 0), (0, 1));
}

#[cfg(feature = "simd")]
mod vectors {
    use wasmi_core_proved::simd;

    #[test]
    fn row_7() {
        let least = simd::i16x8_splat(-32_768);
        assert_eq!(
            simd::i16x8_q15mulr_sat_s(least, least),
            simd::i16x8_splat(32_767)
        );
        let bytes = simd::i8x16_splat(-128);
        assert_eq!(
            simd::i16x8_relaxed_dot_i8x16_i7x16_s(bytes, bytes),
            simd::i16x8_splat(-32_768)
        );
        let dot = simd::i32x4_dot_i16x8_s(simd::i16x8_splat(16_383), simd::i16x8_splat(16_384));
        assert_eq!(dot, simd::i32x4_splat(536_838_144));
    }

    #[test]
    fn row_8() {
        let narrow = simd::i8x16_narrow_i16x8_u(simd::i16x8_splat(-1), simd::i16x8_splat(300));
        assert_eq!(
            narrow.as_u128().to_le_bytes(),
            [
                0, 0, 0, 0, 0, 0, 0, 0, 255, 255, 255, 255, 255, 255, 255, 255
            ]
        );
        let wide = simd::i16x8_splat(128);
        assert_eq!(
            simd::i8x16_narrow_i16x8_s(wide, wide),
            simd::i8x16_splat(127)
        );
    }

    #[test]
    fn rows_9_and_10() {
        assert_eq!(
            simd::i8x16_add(simd::i16x8_splat(255), simd::i16x8_splat(1)),
            simd::i8x16_splat(0)
        );
        assert_eq!(
            simd::i8x16_sub(simd::i16x8_splat(256), simd::i16x8_splat(1)),
            simd::i16x8_splat(511)
        );
        assert_eq!(
            simd::i8x16_eq(simd::i16x8_splat(256), simd::i16x8_splat(0)),
            simd::i16x8_splat(255)
        );
    }

    #[test]
    fn row_11() {
        assert_eq!(
            simd::i16x8_shl(simd::i16x8_splat(-32_767), 17),
            simd::i16x8_splat(2)
        );
        assert_eq!(simd::i16x8_bitmask(simd::i32x4_splat(i32::MIN)), 170);
        assert_eq!(simd::i8x16_bitmask(simd::i8x16_splat(-1)), 65_535);
    }
}

#[test]
fn row_12() {
    let mut raw = RawVal::from(V128::from(u128::MAX));
    raw.write_as(0_u32);
    assert_eq!(V128::from(raw).as_u128(), u128::from(u64::MAX) << 64);
    assert_ne!(raw, RawVal::from(0_u32));
}

#[test]
fn row_13() {
    let mut memory = Memory::new(pages(1, None), &mut nobody()).unwrap();
    assert_eq!(wasm::load_u64(memory.data(), 65_528, 0), Ok(0));
    assert_eq!(
        wasm::load_u64(memory.data(), 65_529, 0),
        Err(TrapCode::MemoryOutOfBounds)
    );
    assert_eq!(
        wasm::load_u64(memory.data(), u64::MAX, 1),
        Err(TrapCode::MemoryOutOfBounds)
    );
    assert_eq!(wasm::i32_store8(memory.data_mut(), 0, 0, 300), Ok(()));
    assert_eq!(wasm::i32_load8_u(memory.data(), 0, 0), Ok(44));
    assert_eq!(wasm::store32(memory.data_mut(), 4, 0, 305_419_896), Ok(()));
    assert_eq!(memory.data()[4..8], [0x78, 0x56, 0x34, 0x12]);
}

#[test]
fn row_14() {
    let mut quota = Quota::new(131_072, 0);
    let mut memory = machine::Memory::new(pages(1, Some(2)), &mut (&mut quota).into()).unwrap();
    let mut fuel = fuel(64, 1_000);
    let refused = memory.grow(1, Some(&mut fuel), &mut (&mut quota).into());
    assert_eq!(
        refused,
        Err(MemoryError::OutOfFuel {
            required_fuel: 1_024
        })
    );
    assert_eq!((quota.held_bytes(), fuel.get_fuel()), (65_536, Ok(1_000)));
    fuel.set_fuel(1_024).unwrap();
    assert_eq!(
        memory.grow(1, Some(&mut fuel), &mut (&mut quota).into()),
        Ok(1)
    );
    assert_eq!((quota.held_bytes(), fuel.get_fuel()), (131_072, Ok(0)));
    let refused = memory.grow(1, Some(&mut fuel), &mut (&mut quota).into());
    assert_eq!(
        (refused, quota.held_bytes()),
        (Err(MemoryError::OutOfBoundsGrowth), 131_072)
    );
}

#[test]
fn row_15() {
    let mut limiter = Recorder::new(Ok(true));
    let region = vec![7; PAGE].leak();
    let mut memory = Memory::new_static(pages(0, Some(2)), &mut limiter.lent(), region).unwrap();
    let mut fuel = fuel(64, 2_048);
    assert_eq!(memory.grow(1, Some(&mut fuel), &mut limiter.lent()), Ok(0));
    assert!(memory.data().iter().all(|&byte| byte == 0) && memory.data_size() == PAGE);
    assert_eq!(fuel.get_fuel(), Ok(1_024));
    let refused = memory.grow(1, Some(&mut fuel), &mut limiter.lent());
    assert_eq!(refused, Err(MemoryError::InvalidStaticBufferSize));
    assert_eq!(
        limiter.memory_errors,
        [MemoryError::InvalidStaticBufferSize]
    );
    assert_eq!(fuel.get_fuel(), Ok(1_024));
}

#[test]
fn row_16() {
    let mut region = [7; 10];
    let mut buffer = ByteBuffer::new_static(&mut region, 5).unwrap();
    for len in [5, 8, 10] {
        buffer.grow(len).unwrap();
        assert_eq!(buffer.data(), vec![0; len]);
    }
    let mut region = [7; 5];
    let mut buffer = ByteBuffer::new_static(&mut region, 5).unwrap();
    assert_eq!(buffer.grow(10), Err(MemoryError::InvalidStaticBufferSize));
}

#[test]
fn only_a_shorter_region_has_no_room() {
    let mut region = [7; 10];
    let lent = ByteBuffer::new_static(&mut region, 5).unwrap();
    let owned = ByteBuffer::new(5).unwrap();
    let sizes = [0, 5, 10, 11, usize::MAX];
    let rooms = sizes.map(|size| (lent.has_room(size), owned.has_room(size)));
    assert_eq!(rooms.map(|it| it.0), sizes.map(|size| size <= 10));
    assert_eq!(rooms.map(|it| it.1), [true; 5]);
}

#[test]
fn row_17() {
    let mut limiter = Recorder::new(Ok(true));
    let mut table = Table::new(
        TableType::new(RefType::Func, 1, Some(2)),
        function(0),
        &mut nobody(),
    )
    .unwrap();
    let mut fuel = fuel(64, 10);
    let null = RawRef::null();
    let refused = table.grow_raw(2, null, Some(&mut fuel), &mut limiter.lent());
    assert_eq!(
        (refused, fuel.get_fuel()),
        (Err(TableError::GrowOutOfBounds), Ok(10))
    );
    assert_eq!(limiter.asked, [(1, 3, Some(2))]);
    assert_eq!(limiter.table_errors, [TableError::GrowOutOfBounds]);
    let host = TypedRawRef::null(RefType::Extern);
    assert_eq!(
        table.grow(0, host, None, &mut limiter.lent()),
        Err(TableError::ElementTypeMismatch)
    );
    assert_eq!(table.grow_raw(0, null, None, &mut limiter.lent()), Ok(1));
    assert_eq!(limiter.asked.len(), 1);
}

#[test]
fn row_18() {
    let mut limiter = Recorder::new(Ok(false));
    let mut table = counted(1);
    let mut grow = |delta| table.grow_raw(delta, RawRef::null(), None, &mut limiter.lent());
    assert_eq!(grow(4_294_967_295), Err(TableError::GrowOutOfBounds));
    assert_eq!(grow(4_294_967_294), Err(TableError::GrowOutOfBounds));
    assert_eq!(limiter.asked, [(1, 4_294_967_295, None)]);
    assert!(limiter.table_errors.is_empty());
}

#[test]
fn row_19() {
    let mut table = counted(5);
    assert_eq!(table.copy_within(1, 0, 3, None), Ok(()));
    assert_eq!(elements(&table), [1, 1, 2, 3, 5]);
    assert_eq!(
        table.fill_raw(4, RawRef::from(9), 2, None),
        Err(TableError::FillOutOfBounds)
    );
    assert_eq!(elements(&table), [1, 1, 2, 3, 5]);
}

#[test]
fn row_20() {
    let mut table = counted(1);
    let mut fuel = fuel(0, 10);
    let segment = ElementSegment::new(RefType::Func, []);
    assert_eq!(
        table.init(segment.as_ref(), 1, 0, 0, Some(&mut fuel)),
        Ok(())
    );
    assert_eq!(fuel.get_fuel(), Ok(10));
    let required_fuel = u64::MAX;
    assert_eq!(
        table.copy_within(0, 0, 0, Some(&mut fuel)),
        Err(TableError::OutOfFuel { required_fuel })
    );
    let usual = FuelCostsProvider::default();
    let prices = [15, 16].map(|count| usual.fuel_for_copying_values::<RawRef>(count));
    assert_eq!(prices, [0, 1]);
}

#[cfg(feature = "memory64")]
#[test]
fn row_21_of_64_bits() {
    let mut limiter = Recorder::new(Ok(true));
    let mut memory = Memory::new(pages_by_64_bits(0, Some(1 << 48)), &mut limiter.lent()).unwrap();
    assert_eq!(limiter.asked, [(0, 0, Some(usize::MAX))]);
    assert_eq!(
        memory.grow(1 << 48, None, &mut limiter.lent()),
        Err(MemoryError::OutOfBoundsGrowth)
    );
    let refused = Memory::new(pages_by_64_bits(1 << 48, None), &mut limiter.lent());
    assert_eq!(refused.map(|_| ()), Err(MemoryError::MinimumSizeOverflow));
}

#[test]
fn row_21() {
    let built = [65_536, 65_537].map(|minimum| {
        let mut builder = MemoryType::builder();
        builder.min(minimum);
        builder.build().map(|_| ())
    });
    assert_eq!(built, [Ok(()), Err(MemoryError::InvalidMemoryType)]);
}

#[test]
fn row_22() {
    let denied = Err(MemoryError::ResourceLimiterDeniedAllocation);
    for (answer, grown) in [
        (Ok(false), Err(MemoryError::OutOfBoundsGrowth)),
        (Err(DENIED), denied),
    ] {
        let mut limiter = Recorder::new(answer);
        assert_eq!(
            Memory::new(pages(0, None), &mut limiter.lent()).map(|_| 0),
            denied
        );
        let mut memory = Memory::new(pages(0, None), &mut nobody()).unwrap();
        assert_eq!(memory.grow(1, None, &mut limiter.lent()), grown);
    }
    let mut limiter = Recorder {
        notice: Err(DENIED),
        ..Recorder::new(Ok(true))
    };
    let mut memory = Memory::new(pages(0, None), &mut nobody()).unwrap();
    assert_eq!(
        memory.grow(1, Some(&mut fuel(64, 0)), &mut limiter.lent()),
        denied
    );
    assert_eq!(
        limiter.memory_errors,
        [MemoryError::OutOfFuel {
            required_fuel: 1_024
        }]
    );
}

#[test]
fn row_22_of_tables() {
    let denied = Err(TableError::ResourceLimiterDeniedAllocation);
    for (answer, grown) in [
        (Ok(false), Err(TableError::GrowOutOfBounds)),
        (Err(DENIED), denied),
    ] {
        let mut limiter = Recorder::new(answer);
        assert_eq!(
            counted(1).grow_raw(1, RawRef::null(), None, &mut limiter.lent()),
            grown
        );
        let made = Table::new(
            TableType::new(RefType::Func, 1, None),
            function(0),
            &mut limiter.lent(),
        );
        assert_eq!(made.map(|_| 0), denied);
    }
}

#[test]
fn row_23() {
    let mut fuel = Fuel::new(false, FuelCostsProvider::default());
    assert_eq!(fuel.set_fuel(5), Err(FuelError::FuelMeteringDisabled));
    assert_eq!(fuel.consume_fuel_unchecked(0), Ok(0));
    assert_eq!(
        fuel.consume_fuel_unchecked(1),
        Err(FuelError::OutOfFuel { required_fuel: 1 })
    );
    assert_eq!(
        fuel.consume_fuel_if(|_| panic!("the closure isn't called")),
        Ok(())
    );
}

#[test]
fn row_24() {
    let long = FuncType::new([ValType::I32; 1_001], [ValType::I32; 1_001]);
    assert!(matches!(long, Err(FuncTypeError::TooManyFunctionParams)));
    let ty = |params: &[ValType]| FuncType::new(params.iter().copied(), []).unwrap();
    assert!(ty(&[ValType::V128; 21]) < ty(&[ValType::I32; 22]));
    assert!(ty(&[]).params_results() == (&[], &[]));
}

#[test]
fn row_25() {
    // The row has no amount for 32; the Rust crate's function has one of 0.
    let amounts = [32, 33, -1]
        .map(|amount| <i32 as IntoShiftAmount>::into_shift_amount(amount).map_or(0, u8::from));
    assert_eq!(amounts, [0, 1, 31]);
    for number in [0, 13, 255] {
        assert!(TrapCode::try_from(number).is_err());
    }
    assert!(matches!(
        TrapCode::try_from(12),
        Ok(TrapCode::OutOfSystemMemory)
    ));
}
