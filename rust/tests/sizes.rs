//! Sizes, indices and addresses of 2^32 and more, whose low 32 bits would be allowed: where `usize` has 32 bits they are refused,
//! or a maximum counts as the greatest, and nowhere are they cut.
#![cfg(feature = "memory64")]
use wasmi_core_proved::machine::{
    ElementSegment, LimiterError, Memory, MemoryError, MemoryType, NoLimits, RawRef, RefType,
    ResourceLimiter, ResourceLimiterRef, Table, TableError, TableType, TrapCode, TypedRawRef,
};
use wasmi_core_proved::{Fuel, FuelCostsProvider, region, wasm};

/// A page, in bytes.
const PAGE: usize = 65_536;

/// 2^32, and as many pages as have it and one page more.
const ALL: u64 = 1 << 32;
const MANY_PAGES: u64 = ALL / PAGE as u64 + 1;

/// Denies everything, and writes down what it is asked.
#[derive(Default)]
struct Denying {
    asked: Vec<(usize, usize, Option<usize>)>,
}

impl Denying {
    fn deny(&mut self, from: usize, to: usize, most: Option<usize>) -> Result<bool, LimiterError> {
        self.asked.push((from, to, most));
        Ok(false)
    }
}

impl ResourceLimiter for Denying {
    fn memory_growing(
        &mut self,
        from: usize,
        to: usize,
        most: Option<usize>,
    ) -> Result<bool, LimiterError> {
        self.deny(from, to, most)
    }

    fn table_growing(
        &mut self,
        from: usize,
        to: usize,
        most: Option<usize>,
    ) -> Result<bool, LimiterError> {
        self.deny(from, to, most)
    }

    fn memory_grow_failed(&mut self, _: &MemoryError) -> Result<(), LimiterError> {
        unreachable!("nothing is permitted")
    }

    fn table_grow_failed(&mut self, _: &TableError) -> Result<(), LimiterError> {
        unreachable!("nothing is permitted")
    }

    fn instances(&self) -> usize {
        0
    }

    fn tables(&self) -> usize {
        0
    }

    fn memories(&self) -> usize {
        0
    }
}

/// What is asked about a growth to so many bytes or elements: nothing, if a `usize` doesn't count them.
fn asked(from: usize, to: u64) -> Vec<(usize, usize, Option<usize>)> {
    let to = usize::try_from(to).ok();
    to.map(|to| (from, to, None)).into_iter().collect()
}

/// Of two errors, the first where a `usize` counts 2^32 and more, else the second.
fn by_width<E>(wide: E, narrow: E) -> E {
    if usize::BITS > 32 { wide } else { narrow }
}

fn nobody() -> ResourceLimiterRef<'static, NoLimits> {
    ResourceLimiterRef::default()
}

fn unmetered() -> Fuel {
    Fuel::new(false, FuelCostsProvider::default())
}

fn pages(minimum: u64, maximum: Option<u64>) -> MemoryType {
    let mut builder = MemoryType::builder();
    builder.min(minimum).max(maximum).memory64(true);
    builder.build().unwrap()
}

fn memory() -> Memory<'static> {
    Memory::new(pages(1, None), &mut nobody()).unwrap()
}

fn elements(minimum: u64, maximum: Option<u64>) -> TableType {
    TableType::new64(RefType::Func, minimum, maximum)
}

fn function(number: u32) -> TypedRawRef {
    TypedRawRef::new(RawRef::from(number), RefType::Func)
}

/// A table of the references 7 and 7.
fn table() -> Table {
    Table::new(elements(2, None), function(7), &mut nobody()).unwrap()
}

#[test]
fn a_memory_is_not_made_smaller() {
    let denied = MemoryError::ResourceLimiterDeniedAllocation;
    let expected = by_width(denied, MemoryError::MinimumSizeOverflow);
    let mut limiter = Denying::default();
    let refused = Memory::new(pages(MANY_PAGES, None), &mut (&mut limiter).into()).err();
    assert_eq!(refused, Some(expected));
    let mut bytes = [1; PAGE];
    let refused = Memory::new_static(
        pages(MANY_PAGES, None),
        &mut (&mut limiter).into(),
        &mut bytes,
    )
    .err();
    assert_eq!(refused, Some(expected));
    let question = asked(0, ALL + PAGE as u64);
    assert_eq!(limiter.asked, [question.clone(), question].concat());
    assert_eq!(bytes, [1; PAGE]);
}

#[test]
fn a_memory_does_not_grow_to_less() {
    let mut limiter = Denying::default();
    let mut memory = memory();
    let refused = memory.grow(MANY_PAGES - 1, None, &mut (&mut limiter).into());
    assert_eq!(refused, Err(MemoryError::OutOfBoundsGrowth));
    assert_eq!(limiter.asked, asked(PAGE, ALL + PAGE as u64));
    assert_eq!(memory.size(), 1);
}

#[test]
fn a_table_is_not_made_smaller() {
    let denied = TableError::ResourceLimiterDeniedAllocation;
    let mut limiter = Denying::default();
    let refused = Table::new(
        elements(ALL + 1, None),
        function(0),
        &mut (&mut limiter).into(),
    )
    .err();
    assert_eq!(
        refused,
        Some(by_width(denied, TableError::MinimumSizeOverflow))
    );
    assert_eq!(limiter.asked, asked(0, ALL + 1));
}

#[test]
fn a_table_does_not_grow_to_less() {
    let mut limiter = Denying::default();
    let mut table = table();
    let refused = table.grow(ALL + 1, function(0), None, &mut (&mut limiter).into());
    assert_eq!(refused, Err(TableError::GrowOutOfBounds));
    assert_eq!(limiter.asked, asked(2, ALL + 3));
    assert_eq!(table.size(), 2);
}

#[test]
fn a_maximum_that_a_usize_lacks_is_the_greatest() {
    let most = |maximum: u64| Some(usize::try_from(maximum).unwrap_or(usize::MAX));
    let mut limiter = Denying::default();
    let _ = Memory::new(pages(0, Some(MANY_PAGES)), &mut (&mut limiter).into());
    let _ = Table::new(
        elements(0, Some(ALL + 1)),
        function(0),
        &mut (&mut limiter).into(),
    );
    let expected = [(0, 0, most(ALL + PAGE as u64)), (0, 0, most(ALL + 1))];
    assert_eq!(limiter.asked, expected);
    let table = Table::new(elements(2, Some(ALL + 1)), function(7), &mut nobody()).unwrap();
    assert_eq!(table.ty().maximum(), Some(ALL + 1));
}

#[test]
fn an_index_is_past_the_end() {
    let mut table = table();
    let outside = Err(TableError::SetOutOfBounds);
    assert_eq!(table.get(ALL), None);
    assert_eq!(table.set(ALL, function(9)), outside);
    assert_eq!(table.set_raw(ALL + 1, RawRef::from(9)), outside);
    assert_eq!(
        [table.get(0), table.get(1)],
        [Some(function(7)), Some(function(7))]
    );
}

#[test]
fn a_range_of_a_table_is_past_the_end() {
    let (mut table, source) = (table(), table());
    let segment = ElementSegment::new(RefType::Func, [RawRef::from(9)]).unwrap();
    for (dst, src, len) in [(ALL, 0, 1), (0, ALL, 1), (0, 0, ALL), (0, 0, ALL + 1)] {
        let outside = Err(TableError::CopyOutOfBounds);
        assert_eq!(
            Table::copy(&mut table, dst, &source, src, len, None),
            outside
        );
        assert_eq!(table.copy_within(dst, src, len, None), outside);
    }
    for (dst, len) in [(ALL, 1), (0, ALL), (0, ALL + 1)] {
        let outside = Err(TableError::FillOutOfBounds);
        assert_eq!(table.fill(dst, function(9), len, None), outside);
    }
    let outside = Err(TableError::InitOutOfBounds);
    assert_eq!(table.init(segment.as_ref(), ALL, 0, 1, None), outside);
    assert_eq!(
        [table.get(0), table.get(1)],
        [Some(function(7)), Some(function(7))]
    );
}

#[test]
fn a_range_of_a_memory_is_past_the_end() {
    let (mut memory, source) = (memory(), memory());
    let outside = Err(MemoryError::OutOfBoundsAccess);
    for (dst, src, len) in [(ALL, 0, 1), (0, ALL, 1), (0, 0, ALL), (0, 0, ALL + 1)] {
        assert_eq!(
            Memory::copy(&mut memory, dst, &source, src, len, None),
            outside
        );
        assert_eq!(memory.copy_within(dst, src, len, None), outside);
    }
    for (dst, len) in [(ALL, 1), (0, ALL), (0, ALL + 1)] {
        assert_eq!(memory.fill(dst, 9, len, None), outside);
    }
    assert_eq!(memory.init(&[9], ALL, 0, 1, None), outside);
    assert!(memory.data().iter().all(|&byte| byte == 0));
}

#[test]
fn an_address_is_past_the_end() {
    let mut bytes = [1; 64];
    let outside = TrapCode::MemoryOutOfBounds;
    for (ptr, offset) in [
        (ALL, 0),
        (ALL - 1, 1),
        (0, ALL),
        (ALL, 8),
        (u64::MAX - 3, 0),
    ] {
        assert_eq!(wasm::load_u32(&bytes, ptr, offset), Err(outside));
        assert_eq!(wasm::i64_load8_u(&bytes, ptr, offset), Err(outside));
        assert_eq!(wasm::store64(&mut bytes, ptr, offset, 0), Err(outside));
        assert_eq!(wasm::i32_store8(&mut bytes, ptr, offset, 0), Err(outside));
        #[cfg(feature = "simd")]
        vectors_are_past_the_end(&mut bytes, ptr, offset);
    }
    assert_eq!(bytes, [1; 64]);
}

#[cfg(feature = "simd")]
fn vectors_are_past_the_end(bytes: &mut [u8], ptr: u64, offset: u64) {
    use wasmi_core_proved::simd;
    let outside = TrapCode::MemoryOutOfBounds;
    assert_eq!(simd::v128_load(bytes, ptr, offset), Err(outside));
    let vector = simd::i32x4_splat(0);
    assert_eq!(simd::v128_store(bytes, ptr, offset, vector), Err(outside));
}

#[test]
fn a_memory_on_a_region_is_not_smaller() {
    let mut bytes = [1; PAGE];
    let mut size = PAGE;
    let (ty, mut limiter) = (pages(1, None), Denying::default());
    let refused =
        region::memory::make(pages(MANY_PAGES, None), &mut bytes, &mut nobody()).unwrap_err();
    let short = MemoryError::InvalidStaticBufferSize;
    assert_eq!(refused, by_width(short, MemoryError::MinimumSizeOverflow));
    let refused = region::memory::grow(
        ty,
        &mut size,
        &mut bytes,
        MANY_PAGES - 1,
        &mut unmetered(),
        &mut (&mut limiter).into(),
    );
    assert_eq!(refused, Err(MemoryError::OutOfBoundsGrowth));
    assert_eq!(limiter.asked, asked(PAGE, ALL + PAGE as u64));
    let question = usize::try_from(ALL + PAGE as u64).ok().map(|to| (to, None));
    assert_eq!(region::memory::question(ty, PAGE, MANY_PAGES - 1), question);
    assert!(!region::memory::is_sized(pages(MANY_PAGES, None), PAGE));
    assert_eq!((size, bytes), (PAGE, [1; PAGE]));
}

#[test]
fn a_table_on_a_region_is_not_smaller() {
    let mut references = [7; 2];
    let mut size = 1;
    let (ty, mut limiter) = (elements(1, None), Denying::default());
    let refused = region::table::make(elements(ALL + 1, None), &mut references, 9, &mut nobody())
        .unwrap_err();
    let short = TableError::OutOfSystemMemory;
    assert_eq!(refused, by_width(short, TableError::MinimumSizeOverflow));
    let refused = region::table::grow(
        ty,
        &mut size,
        &mut references,
        ALL,
        9,
        &mut unmetered(),
        &mut (&mut limiter).into(),
    );
    assert_eq!(refused, Err(TableError::GrowOutOfBounds));
    assert_eq!(limiter.asked, asked(1, ALL + 1));
    let question = usize::try_from(ALL + 1).ok().map(|to| (to, None));
    assert_eq!(region::table::question(ty, 1, ALL), question);
    assert!(!region::table::is_sized(elements(ALL + 1, None), 1));
    let outside = Err(TableError::SetOutOfBounds);
    assert_eq!(region::table::set(ty, &mut references, ALL, 9), outside);
    assert_eq!((size, references), (1, [7; 2]));
}
