// The rows: each public function of the root, and what is made, cloned, dropped and compared. This file is a part of two modules,
// in which `library` is the one crate and the other.
use std::hash::{DefaultHasher, Hash, Hasher};

use super::answer::{Answer, all, mix, text};
use super::{Row, row};
use library::*;

// ---- what rows are made of

fn memory_type(pages: u64, maximum: Option<u64>) -> MemoryType {
    let mut builder = MemoryType::builder();
    builder.min(pages).max(maximum);
    builder.build().unwrap()
}

fn memory(pages: u64) -> Memory {
    let mut memory = Memory::new(memory_type(pages, Some(100)), &mut ResourceLimiterRef::default()).unwrap();
    memory.data_mut().iter_mut().zip(0_u8..=255).for_each(|(byte, i)| *byte = i);
    memory
}

fn element(i: u64) -> TypedRawRef {
    TypedRawRef::new(RawRef::from(i as u32), RefType::Func)
}

fn table_type(size: u32) -> TableType {
    TableType::new(RefType::Func, size, Some(5000))
}

fn table(size: u32) -> Table {
    let mut table = Table::new(table_type(size), element(3), &mut ResourceLimiterRef::default()).unwrap();
    for i in 0..u64::from(size) {
        table.set(i, element(i * 7)).unwrap();
    }
    table
}

fn references(count: u32) -> Vec<RawRef> {
    (0..count).map(RawRef::from).collect()
}

fn segment() -> ElementSegment {
    ElementSegment::new(RefType::Func, references(100))
}

const FEW: [ValType; 3] = [ValType::I32, ValType::I64, ValType::F32];
const MANY: [ValType; 20] = [ValType::I64; 20];

fn function_type(params: &[ValType], results: &[ValType]) -> FuncType {
    FuncType::new(params.iter().copied(), results.iter().copied()).unwrap()
}

fn few() -> FuncType {
    function_type(&FEW[..2], &FEW[2..])
}

fn many() -> FuncType {
    function_type(&MANY, &MANY)
}

fn costs() -> FuelCostsProvider {
    FuelCostsProvider::custom(CustomFuelCosts { bytes_copied_per_fuel: 64, fuel_per_bytes_translated: 7, fuel_per_bytes_validated: 2 })
}

fn meter() -> Fuel {
    let mut fuel = Fuel::new(true, costs());
    fuel.set_fuel(u64::MAX / 2).unwrap();
    fuel
}

fn global_type() -> GlobalType {
    GlobalType::new(ValType::I64, Mutability::Var)
}

fn global() -> Global {
    Global::new(RawVal::from(5_i64), global_type())
}

/// A limiter that permits all.
#[derive(Clone, Copy)]
struct Permits;

impl ResourceLimiter for Permits {
    fn memory_growing(&mut self, current: usize, desired: usize, _: Option<usize>) -> Result<bool, LimiterError> {
        Ok(current <= desired)
    }

    fn table_growing(&mut self, current: usize, desired: usize, _: Option<usize>) -> Result<bool, LimiterError> {
        Ok(current <= desired)
    }

    fn instances(&self) -> usize {
        1
    }

    fn tables(&self) -> usize {
        2
    }

    fn memories(&self) -> usize {
        3
    }
}

/// An error of a host.
#[derive(Clone, Copy, Debug)]
struct Failure(u64);

impl std::fmt::Display for Failure {
    fn fmt(&self, f: &mut std::fmt::Formatter<'_>) -> std::fmt::Result {
        write!(f, "failure {}", self.0)
    }
}

impl HostError for Failure {}

// ---- what functions answer

macro_rules! answers {
    ($($ty:ty: |$it:ident| $answer:expr;)*) => { $(impl Answer for $ty {
        fn answer(&self) -> u64 {
            let $it = self;
            $answer
        }
    })* };
}
answers! {
    Memory: |it| mix(all(it.data().iter().map(|&byte| u64::from(byte))), it.ty().answer());
    MemoryType: |it| mix(mix(it.minimum(), it.maximum().answer()), it.page_size().into());
    Table: |it| mix(all((0..it.size()).map(|i| it.get(i).answer())), it.ty().answer());
    TableType: |it| mix(mix(it.minimum(), it.maximum().answer()), text(format!("{:?} {:?}", it.element(), it.index_ty())));
    ElementSegment: |it| mix(all(it.items().iter().map(Answer::answer)), text(format!("{:?}", it.ty())));
    FuncType: |it| mix(text(format!("{:?}", it.params())), text(format!("{:?}", it.results())));
    Fuel: |it| it.get_fuel().answer();
    FuelCostsProvider: |it| mix(mix(it.fuel_for_translating_bytes(1000), it.fuel_for_validating_bytes(1000)), it.fuel_for_copying_values::<u64>(1000));
    FuelError: |it| text(it);
    Global: |it| mix(it.get().answer(), it.ty().answer());
    GlobalType: |it| mix(text(format!("{:?}", it.content())), it.mutability().is_mut().into());
    RawRef: |it| u32::from(*it).into();
    RawVal: |it| V128::from(*it).answer();
    RefType: |it| text(format!("{it:?}"));
    ValType: |it| text(format!("{it:?}"));
    IndexType: |it| it.is_64().into();
    Mutability: |it| it.is_const().into();
    ShiftAmount: |it| u8::from(*it).into();
    Trap: |it| text(it);
    TrapCode: |it| text(it);
    TypedRawRef: |it| mix(it.raw().answer(), it.ty().answer());
    TypedRawVal: |it| mix(it.raw().answer(), it.ty().answer());
    V128: |it| it.as_u128().answer();
    F32: |it| it.to_bits().into();
    F64: |it| it.to_bits();
    Failure: |it| it.0;
}

/// The rows of functions whose names are theirs.
macro_rules! rows {
    ($all:ident: $($of:ident.$name:ident $made:expr, $turn:expr;)*) => {
        $($all.push(row(concat!(stringify!($of), "::", stringify!($name)), $made, $turn));)*
    };
}

/// The rows of instructions on integers, by how many operands they take.
macro_rules! instructions {
    ($all:ident: $($count:tt: $($name:ident)*;)*) => { $($(instructions!(@ $all $name $count);)*)* };
    (@ $all:ident $name:ident 1) => { $all.push(row(stringify!($name), || (), |(), i| wasm::$name(spread(i) as _))) };
    (@ $all:ident $name:ident 2) => { $all.push(row(stringify!($name), || (), |(), i| wasm::$name(spread(i) as _, i as _))) };
    (@ $all:ident $name:ident 4) => {
        $all.push(row(stringify!($name), || (), |(), i| wasm::$name(spread(i) as _, i as _, !i as _, i as _)))
    };
}

/// A number whose bits come of all of another's.
fn spread(i: u64) -> u64 {
    i.wrapping_mul(0x9e37_79b9_7f4a_7c15)
}

/// The rows of conversions of one type from and to a raw value.
macro_rules! conversions {
    ($all:ident: $($ty:ty = $number:expr;)*) => { $(
        $all.push(row(concat!("RawVal::from_", stringify!($ty)), || (), |(), i| RawVal::from($number(i))));
        $all.push(row(concat!("RawVal::into_", stringify!($ty)), || RawVal::from(0x1234_5678_9abc_def0_u64), |it, _| <$ty>::from(*it)));
        $all.push(row(concat!("TypedRawVal::from_", stringify!($ty)), || (), |(), i| TypedRawVal::from($number(i))));
    )* };
}

/// The rows of a type that is read from a raw value and written to one.
macro_rules! accesses {
    ($all:ident: $($ty:ty = $number:expr;)*) => { $(
        $all.push(row(concat!("ReadAs_", stringify!($ty)), || RawVal::from(0x1234_5678_9abc_def0_u64), |it, _| <RawVal as ReadAs<$ty>>::read_as(it)));
        $all.push(row(concat!("WriteAs_", stringify!($ty)), || RawVal::from(0x1234_5678_9abc_def0_u64), |it, i| {
            <RawVal as WriteAs<$ty>>::write_as(it, $number(i));
            it.to_bits64()
        }));
    )* };
}

pub fn rows() -> Vec<Row> {
    let mut all = Vec::new();
    memories(&mut all);
    tables(&mut all);
    segments_and_function_types(&mut all);
    fuel_and_globals(&mut all);
    values(&mut all);
    traps_and_limiters(&mut all);
    instructions(&mut all);
    all
}

fn memories(all: &mut Vec<Row>) {
    rows! { all:
        MemoryType.builder || (), |(), i| memory_type(i, Some(i + 1));
        MemoryType.is_64 || memory_type(1, None), |it, _| it.is_64();
        MemoryType.index_ty || memory_type(1, None), |it, _| it.index_ty();
        MemoryType.minimum || memory_type(1, None), |it, _| it.minimum();
        MemoryType.maximum || memory_type(1, Some(2)), |it, _| it.maximum();
        MemoryType.page_size || memory_type(1, None), |it, _| it.page_size();
        MemoryType.page_size_log2 || memory_type(1, None), |it, _| it.page_size_log2();
        MemoryType.is_subtype_of || [memory_type(2, Some(5)), memory_type(1, Some(9))], |it, _| it[0].is_subtype_of(&it[1]);
        MemoryType.clone || memory_type(1, Some(2)), |it, _| it.clone();
        MemoryType.eq || [memory_type(2, Some(5)); 2], |it, _| it[0] == it[1];
        Memory.new_empty || memory_type(0, None), |it, _| Memory::new(*it, &mut ResourceLimiterRef::default());
        Memory.new || memory_type(1, None), |it, _| Memory::new(*it, &mut ResourceLimiterRef::default());
        Memory.new_limited || (memory_type(0, None), Permits), |it, _| Memory::new(it.0, &mut ResourceLimiterRef::from(&mut it.1 as &mut dyn ResourceLimiter));
        Memory.new_static || memory_type(0, None), |it, _| Memory::new_static(*it, &mut ResourceLimiterRef::default(), &mut []);
        Memory.ty || memory(1), |it, _| it.ty();
        Memory.dynamic_ty || memory(1), |it, _| it.dynamic_ty();
        Memory.size || memory(1), |it, _| it.size();
        Memory.grow_0 || memory(1), |it, _| it.grow(0, None, &mut ResourceLimiterRef::default());
        Memory.grow_refused || memory(1), |it, i| it.grow(i + 100, None, &mut ResourceLimiterRef::default());
        Memory.grow_by_1_to_8 || (memory_type(0, None), meter()), |it, _| {
            let mut memory = Memory::new(it.0, &mut ResourceLimiterRef::default()).unwrap();
            (0..8).fold(0, |sum, _| sum + memory.grow(1, Some(&mut it.1), &mut ResourceLimiterRef::default()).unwrap())
        };
        Memory.data || memory(1), |it, i| it.data()[i as usize & 255];
        Memory.data_mut || memory(1), |it, i| it.data_mut()[i as usize & 255] ^= 1;
        Memory.data_ptr || memory(1), |it, _| it.data_ptr().is_null();
        Memory.data_size || memory(1), |it, _| it.data_size();
        Memory.read_8 || memory(1), |it, i| {
            let mut bytes = [0; 8];
            it.read(i as usize & 255, &mut bytes).map(|()| u64::from_le_bytes(bytes))
        };
        Memory.read_refused || memory(1), |it, i| it.read(i as usize + 65_530, &mut [0; 8]);
        Memory.write_8 || memory(1), |it, i| it.write(i as usize & 255, &i.to_le_bytes());
        Memory.write_100 || (memory(1), vec![7; 100]), |it, i| it.0.write(i as usize & 255, &it.1);
    }
}

fn tables(all: &mut Vec<Row>) {
    rows! { all:
        TableType.new || (), |(), i| TableType::new(RefType::Func, i as u32, Some(u32::MAX));
        TableType.new64 || (), |(), i| TableType::new64(RefType::Func, i, Some(u64::MAX));
        TableType.is_64 || table_type(1), |it, _| it.is_64();
        TableType.index_ty || table_type(1), |it, _| it.index_ty();
        TableType.element || table_type(1), |it, _| it.element();
        TableType.minimum || table_type(1), |it, _| it.minimum();
        TableType.maximum || table_type(1), |it, _| it.maximum();
        TableType.is_subtype_of || [table_type(2), table_type(1)], |it, _| it[0].is_subtype_of(&it[1]);
        TableType.clone || table_type(1), |it, _| it.clone();
        TableType.eq || [table_type(2); 2], |it, _| it[0] == it[1];
        Table.new_empty || table_type(0), |it, i| Table::new(*it, element(i), &mut ResourceLimiterRef::default());
        Table.new_100 || table_type(100), |it, i| Table::new(*it, element(i), &mut ResourceLimiterRef::default());
        Table.new_limited || (table_type(10), Permits), |it, i| {
            Table::new(it.0, element(i), &mut ResourceLimiterRef::from(&mut it.1 as &mut dyn ResourceLimiter))
        };
        Table.new_refused || table_type(10), |it, i| {
            Table::new(*it, TypedRawRef::new(RawRef::from(i as u32), RefType::Extern), &mut ResourceLimiterRef::default())
        };
        Table.ty || table(10), |it, _| it.ty();
        Table.dynamic_ty || table(10), |it, _| it.dynamic_ty();
        Table.size || table(10), |it, _| it.size();
        Table.grow_0 || table(10), |it, i| it.grow(0, element(i), None, &mut ResourceLimiterRef::default());
        Table.grow_refused || table(10), |it, i| it.grow(i + 5000, element(i), None, &mut ResourceLimiterRef::default());
        Table.grow_by_1_to_100 || (table_type(0), meter()), |it, i| {
            let mut table = Table::new(it.0, element(i), &mut ResourceLimiterRef::default()).unwrap();
            (0..100).fold(0, |sum, _| sum + table.grow(1, element(i), Some(&mut it.1), &mut ResourceLimiterRef::default()).unwrap())
        };
        Table.grow_raw_by_1_to_100 || table_type(0), |it, i| {
            let mut table = Table::new(*it, element(i), &mut ResourceLimiterRef::default()).unwrap();
            (0..100).fold(0, |sum, _| sum + table.grow_raw(1, RawRef::from(i as u32), None, &mut ResourceLimiterRef::default()).unwrap())
        };
        Table.get || table(256), |it, i| it.get(i & 255);
        Table.get_outside || table(256), |it, i| it.get(i + 256);
        Table.set || table(256), |it, i| it.set(i & 255, element(i));
        Table.set_refused || table(256), |it, i| it.set(i & 255, TypedRawRef::null(RefType::Extern));
        Table.set_raw || table(256), |it, i| it.set_raw(i & 255, RawRef::from(i as u32));
        Table.set_raw_outside || table(256), |it, i| it.set_raw(i + 256, RawRef::from(i as u32));
        Table.init_4 || (table(256), segment(), meter()), |it, i| it.0.init(it.1.as_ref(), i & 63, i as u32 & 63, 4, Some(&mut it.2));
        Table.init_100 || (table(256), segment(), meter()), |it, i| it.0.init(it.1.as_ref(), i & 63, 0, 100, Some(&mut it.2));
        Table.init_refused || (table(256), segment(), meter()), |it, i| it.0.init(it.1.as_ref(), i & 63, 0, 101, Some(&mut it.2));
        Table.copy_4 || (table(256), table(256), meter()), |it, i| Table::copy(&mut it.0, i & 63, &it.1, i * 3 & 63, 4, Some(&mut it.2));
        Table.copy_100 || (table(256), table(256), meter()), |it, i| Table::copy(&mut it.0, i & 63, &it.1, i * 3 & 63, 100, Some(&mut it.2));
        Table.copy_refused || (table(256), table(256), meter()), |it, i| Table::copy(&mut it.0, i & 63, &it.1, i + 256, 1, Some(&mut it.2));
        Table.copy_within_4 || (table(256), meter()), |it, i| it.0.copy_within(i & 63, i * 3 & 63, 4, Some(&mut it.1));
        Table.copy_within_100 || (table(256), meter()), |it, i| it.0.copy_within(i & 63, i * 3 & 63, 100, Some(&mut it.1));
        Table.fill_4 || (table(256), meter()), |it, i| it.0.fill(i & 63, element(i), 4, Some(&mut it.1));
        Table.fill_100 || (table(256), meter()), |it, i| it.0.fill(i & 63, element(i), 100, Some(&mut it.1));
        Table.fill_raw_4 || (table(256), meter()), |it, i| it.0.fill_raw(i & 63, RawRef::from(i as u32), 4, Some(&mut it.1));
        Table.fill_raw_free || table(256), |it, i| it.fill_raw(i & 63, RawRef::from(i as u32), 4, None);
    }
}

fn segments_and_function_types(all: &mut Vec<Row>) {
    rows! { all:
        ElementSegment.new_0 || (), |(), _| ElementSegment::new(RefType::Func, []);
        ElementSegment.new_4 || [RawRef::from(3); 4], |it, _| ElementSegment::new(RefType::Func, *it);
        ElementSegment.new_100 || [RawRef::from(3); 100], |it, _| ElementSegment::new(RefType::Func, *it);
        ElementSegment.new_100_mapped || (0..100).collect::<Vec<u32>>(), |it, _| ElementSegment::new(RefType::Func, it.iter().map(|&i| RawRef::from(i)));
        ElementSegment.new_100_of_a_list || references(100), |it, _| ElementSegment::new(RefType::Func, it.clone());
        ElementSegment.new_50_filtered || references(100), |it, _| ElementSegment::new(RefType::Func, it.iter().copied().filter(|&i| u32::from(i) % 2 == 0));
        ElementSegment.as_ref || segment(), |it, _| it.as_ref().items().len();
        ElementSegment.ty || segment(), |it, _| it.ty();
        ElementSegment.items || segment(), |it, i| it.items()[i as usize & 63];
        ElementSegment.size || segment(), |it, _| it.size();
        ElementSegment.drop_items || segment(), |it, _| {
            it.drop_items();
            it.size()
        };
        ElementSegmentRef.ty || segment(), |it, _| ElementSegmentRef::from(&*it).ty();
        ElementSegmentRef.items || segment(), |it, i| ElementSegmentRef::from(&*it).items()[i as usize & 63];
        ElementSegmentRef.size || segment(), |it, _| ElementSegmentRef::from(&*it).size();
        FuncType.new_3 || FEW, |it, _| FuncType::new([it[0], it[1]], [it[2]]);
        FuncType.new_3_of_slices || (&FEW[..2], &FEW[2..]), |it, _| function_type(it.0, it.1);
        FuncType.new_20_of_slices || (&MANY[..15], &MANY[15..]), |it, _| function_type(it.0, it.1);
        FuncType.new_40 || MANY, |it, _| FuncType::new(*it, *it);
        FuncType.new_40_of_slices || (&MANY[..], &MANY[..]), |it, _| function_type(it.0, it.1);
        FuncType.new_refused || MANY, |it, _| FuncType::new([it[0]; 1001], []);
        FuncType.clone_3 || few(), |it, _| it.clone();
        FuncType.clone_40 || many(), |it, _| it.clone();
        FuncType.eq_3 || [few(), few()], |it, _| it[0] == it[1];
        FuncType.eq_40 || [many(), many()], |it, _| it[0] == it[1];
        FuncType.eq_differs || [few(), function_type(&FEW, &FEW)], |it, _| it[0] == it[1];
        FuncType.cmp_3 || [few(), few()], |it, _| it[0].cmp(&it[1]);
        FuncType.cmp_40 || [many(), many()], |it, _| it[0].cmp(&it[1]);
        FuncType.partial_cmp_3 || [few(), few()], |it, _| it[0].partial_cmp(&it[1]);
        FuncType.hash_3 || few(), |it, _| {
            let mut hasher = DefaultHasher::new();
            it.hash(&mut hasher);
            hasher.finish() != 0
        };
        FuncType.params || few(), |it, i| it.params()[i as usize & 1];
        FuncType.results || few(), |it, _| it.results()[0];
        FuncType.len_params || few(), |it, _| it.len_params();
        FuncType.len_results || few(), |it, _| it.len_results();
        FuncType.len_params_40 || many(), |it, _| it.len_params();
        FuncType.len_results_40 || many(), |it, _| it.len_results();
        FuncType.params_results || few(), |it, _| {
            let (params, results) = it.params_results();
            (params[0], results[0])
        };
        FuncType.params_results_40 || many(), |it, _| {
            let (params, results) = it.params_results();
            (params[0], results[0])
        };
    }
}

fn fuel_and_globals(all: &mut Vec<Row>) {
    rows! { all:
        Fuel.new || costs(), |it, _| Fuel::new(true, it.clone());
        Fuel.set_fuel || meter(), |it, i| it.set_fuel(i);
        Fuel.get_fuel || meter(), |it, _| it.get_fuel();
        Fuel.consume_fuel_unchecked || meter(), |it, i| it.consume_fuel_unchecked(i & 7);
        Fuel.consume_fuel || meter(), |it, i| it.consume_fuel(|costs| costs.fuel_for_copying_values::<u64>(i));
        Fuel.consume_fuel_if || meter(), |it, i| it.consume_fuel_if(|costs| costs.fuel_for_copying_values::<u64>(i));
        Fuel.consume_fuel_refused || meter(), |it, _| it.consume_fuel(|_| u64::MAX);
        FuelError.fuel_metering_disabled || (), |(), _| FuelError::fuel_metering_disabled();
        FuelError.out_of_fuel || (), |(), i| FuelError::out_of_fuel(i);
        FuelCostsProvider.default || (), |(), _| FuelCostsProvider::default();
        FuelCostsProvider.custom || (), |(), _| costs();
        FuelCostsProvider.clone || costs(), |it, _| it.clone();
        FuelCostsProvider.clone_default || FuelCostsProvider::default(), |it, _| it.clone();
        FuelCostsProvider.fuel_for_translating_bytes || costs(), |it, i| it.fuel_for_translating_bytes(i);
        FuelCostsProvider.fuel_for_validating_bytes || costs(), |it, i| it.fuel_for_validating_bytes(i);
        FuelCostsProvider.fuel_for_copying_values || costs(), |it, i| it.fuel_for_copying_values::<u64>(i);
        FuelCostsProvider.fuel_for_copying_values_default || FuelCostsProvider::default(), |it, i| it.fuel_for_copying_values::<u64>(i);
        GlobalType.new || (), |(), _| global_type();
        GlobalType.content || global_type(), |it, _| it.content();
        GlobalType.mutability || global_type(), |it, _| it.mutability();
        GlobalType.eq || [global_type(); 2], |it, _| it[0] == it[1];
        Mutability.is_const || Mutability::Var, |it, _| it.is_const();
        Mutability.is_mut || Mutability::Var, |it, _| it.is_mut();
        Global.new || global_type(), |it, i| Global::new(RawVal::from(i), *it);
        Global.ty || global(), |it, _| it.ty();
        Global.get || global(), |it, _| it.get();
        Global.get_raw || global(), |it, _| *it.get_raw();
        Global.get_raw_ptr || global(), |it, _| it.get_raw_ptr().is_aligned();
        Global.set || global(), |it, i| it.set(TypedRawVal::from(i as i64));
        Global.set_refused || global(), |it, i| it.set(TypedRawVal::from(i as i32));
    }
}

fn values(all: &mut Vec<Row>) {
    conversions! { all:
        i8 = |i| i as i8; i16 = |i| i as i16; i32 = |i| i as i32; i64 = |i| i as i64;
        u8 = |i| i as u8; u16 = |i| i as u16; u32 = |i| i as u32; u64 = |i| i;
        bool = |i| i & 1 == 1; f32 = |i| f32::from_bits(i as u32); f64 = f64::from_bits;
        F32 = |i| F32::from_bits(i as u32); F64 = F64::from_bits; V128 = |i| V128::from(u128::from(i) << 7);
    }
    accesses! { all:
        i8 = |i| i as i8; i16 = |i| i as i16; i32 = |i| i as i32; i64 = |i| i as i64;
        u8 = |i| i as u8; u16 = |i| i as u16; u32 = |i| i as u32; u64 = |i| i;
        bool = |i| i & 1 == 1; f32 = |i| f32::from_bits(i as u32); f64 = f64::from_bits;
        V128 = |i| V128::from(u128::from(i) << 7); RawVal = |i| RawVal::from(i); RawRef = |i| RawRef::from(i as u32);
    }
    rows! { all:
        RawVal.eq || [RawVal::from(7_u64); 2], |it, _| it[0] == it[1];
        RawVal.cmp || [RawVal::from(7_u64); 2], |it, _| it[0].cmp(&it[1]);
        TypedRawVal.new || (), |(), i| TypedRawVal::new(ValType::I64, RawVal::from(i));
        TypedRawVal.ty || TypedRawVal::from(7_i64), |it, _| it.ty();
        TypedRawVal.raw || TypedRawVal::from(7_i64), |it, _| it.raw();
        TypedRawVal.into_RawVal || TypedRawVal::from(7_i64), |it, _| RawVal::from(*it);
        RawRef.from_u32 || (), |(), i| RawRef::from(i as u32);
        RawRef.into_u32 || RawRef::from(7), |it, _| u32::from(*it);
        RawRef.null || (), |(), _| RawRef::null();
        RawRef.is_null || RawRef::from(7), |it, _| it.is_null();
        RawRef.eq || [RawRef::from(7); 2], |it, _| it[0] == it[1];
        RawRef.into_RawVal || RawRef::from(7), |it, _| RawVal::from(*it);
        RawRef.from_RawVal || RawVal::from(7_u64), |it, _| RawRef::from(*it);
        TypedRawRef.new || (), |(), i| element(i);
        TypedRawRef.null || (), |(), _| TypedRawRef::null(RefType::Extern);
        TypedRawRef.raw || element(7), |it, _| it.raw();
        TypedRawRef.ty || element(7), |it, _| it.ty();
        TypedRawRef.into_TypedRawVal || element(7), |it, _| TypedRawVal::from(*it);
        TypedRawRef.from_TypedRawVal || TypedRawVal::from(element(7)), |it, _| TypedRawRef::from(*it);
        ValType.is_num || ValType::I32, |it, _| it.is_num();
        ValType.is_ref || ValType::FuncRef, |it, _| it.is_ref();
        ValType.as_ref || ValType::FuncRef, |it, _| it.as_ref();
        ValType.from_RefType || RefType::Func, |it, _| ValType::from(*it);
        ValType.eq || [ValType::I32; 2], |it, _| it[0] == it[1];
        IndexType.ty || IndexType::I64, |it, _| it.ty();
        IndexType.is_64 || IndexType::I64, |it, _| it.is_64();
        IndexType.max_size || IndexType::I64, |it, _| it.max_size();
        IndexType.min || [IndexType::I64; 2], |it, _| it[0].min(&it[1]);
        V128.from_u128 || (), |(), i| V128::from(u128::from(i));
        V128.as_u128 || V128::from(7), |it, _| it.as_u128();
        V128.eq || [V128::from(7); 2], |it, _| it[0] == it[1];
        ShiftAmount.i32 || (), |(), i| i32::into_shift_amount(i as i32);
        ShiftAmount.u64 || (), |(), i| u64::into_shift_amount(i);
        ShiftAmount.u16x8 || (), |(), i| <[u16; 8]>::into_shift_amount(i as u32);
        F32.from_float || (), |(), i| F32::from(f32::from_bits(i as u32));
        F32.to_float || F32::from_bits(7), |it, _| it.to_float();
        F64.from_float || (), |(), i| F64::from(f64::from_bits(i));
        F64.to_float || F64::from_bits(7), |it, _| it.to_float();
        F64.eq || [F64::from_bits(7); 2], |it, _| it[0] == it[1];
    }
}

fn traps_and_limiters(all: &mut Vec<Row>) {
    rows! { all:
        Trap.new || "a message", |it, _| Trap::new(*it);
        Trap.from_TrapCode || TrapCode::IntegerOverflow, |it, _| Trap::from(*it);
        Trap.from_HostError || (), |(), i| Trap::from(Failure(i));
        Trap.i32_exit || (), |(), i| Trap::i32_exit(i as i32);
        Trap.i32_exit_status || Trap::i32_exit(7), |it, _| it.i32_exit_status();
        Trap.trap_code || Trap::from(TrapCode::IntegerOverflow), |it, _| it.trap_code();
        Trap.downcast_ref || Trap::from(Failure(7)), |it, _| it.downcast_ref::<Failure>().copied();
        Trap.downcast_mut || Trap::from(Failure(7)), |it, i| it.downcast_mut::<Failure>().map(|it| it.0 = i);
        Trap.downcast || (), |(), i| Trap::from(Failure(i)).downcast::<Failure>();
        Trap.fmt || Trap::from(TrapCode::IntegerOverflow), |it, _| it.to_string().len();
        TrapCode.trap_message || TrapCode::IntegerOverflow, |it, _| it.trap_message();
        TrapCode.into_u8 || TrapCode::IntegerOverflow, |it, _| u8::from(*it);
        TrapCode.try_from_u8 || (), |(), i| TrapCode::try_from(i as u8 & 15).ok();
        HostError.is || Failure(7), |it, _| (&*it as &dyn HostError).is::<Failure>();
        HostError.downcast_ref || Failure(7), |it, _| (&*it as &dyn HostError).downcast_ref::<Failure>().copied();
        HostError.downcast_mut || Failure(7), |it, i| (it as &mut dyn HostError).downcast_mut::<Failure>().map(|it| it.0 = i);
        HostError.downcast || Failure(7), |it, _| (Box::new(*it) as Box<dyn HostError>).downcast::<Failure>().ok().map(|it| *it);
        ResourceLimiterRef.default || (), |(), _| ResourceLimiterRef::default().as_resource_limiter().is_none();
        ResourceLimiterRef.as_resource_limiter || Permits, |it, i| {
            let mut limiter = ResourceLimiterRef::from(it as &mut dyn ResourceLimiter);
            limiter.as_resource_limiter().map(|it| it.memory_growing(i as usize, i as usize + 1, None))
        };
        hint.likely || (), |(), i| if hint::likely(i & 63 != 0) { i } else { 0 };
        hint.unlikely || (), |(), i| if hint::unlikely(i & 63 == 0) { 0 } else { i };
    }
}

fn instructions(all: &mut Vec<Row>) {
    instructions! { all:
        1: i32_clz i32_ctz i32_popcnt i32_eqz i64_extend_i32_s i64_extend_i32_u i32_extend8_s i32_extend16_s
            i64_clz i64_ctz i64_popcnt i64_eqz i32_wrap_i64 i64_extend8_s i64_extend16_s i64_extend32_s;
        2: i32_add i32_sub i32_mul i32_bitand i32_bitor i32_bitxor i32_shl i32_shr_s i32_shr_u i32_rotl i32_rotr
            i32_div_s i32_div_u i32_rem_s i32_rem_u i32_eq i32_ne i32_lt_s i32_lt_u i32_le_s i32_le_u i32_gt_s i32_gt_u i32_ge_s i32_ge_u
            i64_add i64_sub i64_mul i64_bitand i64_bitor i64_bitxor i64_shl i64_shr_s i64_shr_u i64_rotl i64_rotr
            i64_div_s i64_div_u i64_rem_s i64_rem_u i64_eq i64_ne i64_lt_s i64_lt_u i64_le_s i64_le_u i64_gt_s i64_gt_u i64_ge_s i64_ge_u
            i64_mul_wide_s i64_mul_wide_u;
        4: i64_add128 i64_sub128;
    }
}
