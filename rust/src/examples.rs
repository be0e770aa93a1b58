//! The examples of the docs of items, by the module and the item: `tools/rust` names each at its proved item, and those of `root` stand at items
//! of this crate's own files.
macro_rules! examples {
    (budget Pool) => {
        r#"# Examples

```
use wasmi_core_proved::machine::{Call, Fuel, FuelCostsProvider, Machine, MemoryType, Reply};
use wasmi_core_proved::pool::Pool;

// A page for both tenants together, and no tables.
let mut pool = Pool::new(65_536, 0);
for _ in 0..2 {
    let machine = Machine::new(Fuel::new(false, FuelCostsProvider::default()));
    assert!(pool.add(machine).is_ok());
}
let mut builder = MemoryType::builder();
builder.min(1);
let ty = builder.build()?;
let replies = pool.run(0, &[Call::NewMemory(ty)])?;
assert!(matches!(replies[0], Reply::Made(0)));
let replies = pool.run(1, &[Call::NewMemory(ty)])?;
assert!(matches!(replies[0], Reply::Memory(_)));
assert_eq!((pool.held_bytes(0), pool.held_bytes(1)), (Some(65_536), Some(0)));

// What the first tenant held is there for others once it is removed.
drop(pool.remove(0));
let replies = pool.run(1, &[Call::NewMemory(ty)])?;
assert!(matches!(replies[0], Reply::Made(0)));
assert!(pool.machine(0).is_none());
# Ok::<(), Box<dyn std::error::Error>>(())
```
"#
    };
    (machine Machine) => {
        r#"# Examples

```
use wasmi_core_proved::RawVal;
use wasmi_core_proved::machine::{
    Call, Fuel, FuelCostsProvider, Machine, MemoryType, NoLimits, Reply, run_lending,
};
use wasmi_core_proved::ops::{LoadOp, StoreOp};

let mut machine = Machine::new(Fuel::new(false, FuelCostsProvider::default()));
let mut builder = MemoryType::builder();
builder.min(1);
let value = RawVal::from(7_i32);
let calls = [
    Call::NewMemory(builder.build()?),
    Call::Store { op: StoreOp::Store32, memory: 0, ptr: 8, offset: 0, value },
    Call::Load { op: LoadOp::LoadU32, memory: 0, ptr: 4, offset: 4 },
    Call::DropMemory(0),
    Call::Load { op: LoadOp::LoadU32, memory: 0, ptr: 4, offset: 4 },
];
let replies = run_lending(&mut machine, &calls, &mut NoLimits)?;
assert!(matches!(&replies[2], Reply::Value(raw) if raw.to_bits64() == 7));
assert!(matches!(replies[4], Reply::NoSuch));
# Ok::<(), Box<dyn std::error::Error>>(())
```
"#
    };
    (meter Fuel) => {
        r#"# Examples

```
use wasmi_core_proved::{Fuel, FuelCostsProvider, FuelError};

let mut fuel = Fuel::new(true, FuelCostsProvider::default());
fuel.set_fuel(10)?;
assert_eq!(fuel.consume_fuel(|costs| costs.fuel_for_copying_values::<u8>(256))?, 6);
let refused = fuel.consume_fuel(|_| 7);
assert!(matches!(refused, Err(FuelError::OutOfFuel { required_fuel: 7 })));
assert_eq!(fuel.get_fuel()?, 6);

// A meter that is off: nothing is charged.
let mut off = Fuel::new(false, FuelCostsProvider::default());
assert!(matches!(off.get_fuel(), Err(FuelError::FuelMeteringDisabled)));
# Ok::<(), FuelError>(())
```
"#
    };
    (meter LimiterByKind) => {
        r#"# Examples

```
use wasmi_core_proved::machine::{Kind, LimiterByKind, LimiterError, Memory, MemoryType};

/// Permits each memory up to so many bytes, and no table.
struct AtMost(usize);

impl LimiterByKind for AtMost {
    fn growing(&mut self, kind: Kind, _from: usize, to: usize) -> Result<bool, LimiterError> {
        Ok(kind == Kind::Bytes && to <= self.0)
    }
    fn grow_failed(&mut self, _kind: Kind) -> Result<(), LimiterError> {
        Ok(())
    }
}

let mut builder = MemoryType::builder();
builder.min(2);
let ty = builder.build()?;
assert!(Memory::new_lending(ty, &mut AtMost(131_072)).is_ok());
assert!(Memory::new_lending(ty, &mut AtMost(131_071)).is_err());
# Ok::<(), wasmi_core_proved::MemoryError>(())
```
"#
    };
    (meter Quota) => {
        r#"# Examples

```
use wasmi_core_proved::machine::{Kind, Memory, MemoryType, Quota};

// A page for all memories together, and no tables.
let mut quota = Quota::new(65_536, 0);
let mut builder = MemoryType::builder();
builder.min(1);
let ty = builder.build()?;
let memory = Memory::new_lending(ty, &mut quota)?;
assert_eq!(quota.held_bytes(), 65_536);
assert!(Memory::new_lending(ty, &mut quota).is_err());

// What was dropped counts until it is released.
drop(memory);
assert!(Memory::new_lending(ty, &mut quota).is_err());
assert!(quota.release(Kind::Bytes, 65_536));
assert!(Memory::new_lending(ty, &mut quota).is_ok());
# Ok::<(), wasmi_core_proved::MemoryError>(())
```
"#
    };
    (raw RawVal) => {
        r#"# Conversions

`From` makes one of each integer of 8 to 64 bits and of its [`NonZero`](core::num::NonZero), of `bool`, `f32` and `f64`, and of
[`F32`](crate::F32), [`F64`](crate::F64), [`V128`](crate::V128), [`RawRef`](crate::RawRef) and [`TypedRawVal`](crate::TypedRawVal). It
turns one into each of them but a `NonZero` and a `TypedRawVal`.

# Examples

```
use wasmi_core_proved::{RawVal, ReadAs, WriteAs};

let raw = RawVal::from(-1_i32);
assert_eq!(raw.to_bits64(), 0xffff_ffff);
assert_eq!(i32::from(raw), -1);

let mut register = RawVal::default();
register.write_as(3_u64);
let read: u8 = register.read_as();
assert_eq!(read, 3);
# #[cfg(feature = "simd")]
# {
use wasmi_core_proved::V128;

// An integer is written over the low word alone.
register.write_as(V128::from(7_u128 << 64));
register.write_as(3_u64);
let vector: V128 = register.read_as();
assert_eq!(vector.as_u128(), (7 << 64) + 3);
# }
```
"#
    };
    (raw V128) => {
        r#"# Examples

```
use wasmi_core_proved::V128;

let vector = V128::from(0x0004_0003_0002_0001_u128);
assert_eq!(vector.as_u128(), 0x0004_0003_0002_0001);
# #[cfg(feature = "simd")]
# {
use wasmi_core_proved::simd;

// Lane 0 is the lowest.
assert_eq!(simd::i16x8_add(vector, vector).as_u128(), 0x0008_0006_0004_0002);
assert_eq!(simd::v128_xor(vector, vector).as_u128(), 0);
# }
```
"#
    };
    (region make) => {
        r#"# Examples

```
use wasmi_core_proved::machine::{Fuel, FuelCostsProvider, MemoryType, NoLimits, ResourceLimiterRef};
use wasmi_core_proved::region::memory;

let mut builder = MemoryType::builder();
builder.min(2).max(Some(8)).page_size_log2(0);
let ty = builder.build()?;
let mut fuel = Fuel::new(false, FuelCostsProvider::default());
let mut limiter = ResourceLimiterRef::<NoLimits>::default();

// The memory is the first `size` bytes of the region; the rest is room to grow.
let mut region = [9; 5];
let mut size = memory::make(ty, &mut region, &mut limiter)?;
assert_eq!((size, region), (2, [0, 0, 9, 9, 9]));
assert_eq!(memory::grow(ty, &mut size, &mut region, 2, &mut fuel, &mut limiter)?, 2);
assert_eq!((size, region), (4, [0, 0, 0, 0, 9]));
assert!(memory::grow(ty, &mut size, &mut region, 2, &mut fuel, &mut limiter).is_err());
# Ok::<(), wasmi_core_proved::MemoryError>(())
```
"#
    };
    (root FuncType) => {
        r#"# Examples

```
use wasmi_core_proved::{FuncType, FuncTypeError, ValType};

let ty = FuncType::new([ValType::I32, ValType::I64], [ValType::V128])?;
assert_eq!(ty.params(), [ValType::I32, ValType::I64]);
assert_eq!(ty.len_results(), 1);
assert_eq!(ty.clone(), ty);

let long = FuncType::new([ValType::I32; 1001], []);
assert!(matches!(long, Err(FuncTypeError::TooManyFunctionParams)));
# Ok::<(), FuncTypeError>(())
```
"#
    };
    (root ImmLaneIdx) => {
        r#"# Examples

```
use wasmi_core_proved::simd::{ImmLaneIdx4, i32x4_extract_lane, i32x4_splat};

let lane = ImmLaneIdx4::try_from(3).ok().expect("it is below 4");
assert_eq!(i32x4_extract_lane(i32x4_splat(7), lane), 7);
assert!(ImmLaneIdx4::try_from(4).is_err());
```
"#
    };
    (root Memory) => {
        r#"# Examples

```
use wasmi_core_proved::{
    Fuel, FuelCostsProvider, Memory, MemoryError, MemoryType, ResourceLimiterRef,
};

let mut builder = MemoryType::builder();
builder.min(1).max(Some(3));
let mut limiter = ResourceLimiterRef::default();
let mut memory = Memory::new(builder.build()?, &mut limiter)?;

memory.write(65_532, &[1, 2, 3, 4])?;
let mut bytes = [0; 2];
memory.read(65_534, &mut bytes)?;
assert_eq!(bytes, [3, 4]);
assert!(memory.write(65_533, &bytes[..]).is_ok());
assert!(matches!(memory.write(65_535, &bytes[..]), Err(MemoryError::OutOfBoundsAccess)));

// A page costs 1,024 units of fuel at the default prices.
let mut fuel = Fuel::new(true, FuelCostsProvider::default());
fuel.set_fuel(1500).expect("the meter is on");
assert_eq!(memory.grow(1, Some(&mut fuel), &mut limiter)?, 1);
let refused = memory.grow(1, Some(&mut fuel), &mut limiter);
assert!(matches!(refused, Err(MemoryError::OutOfFuel { required_fuel: 1024 })));
assert_eq!(memory.size(), 2);
# Ok::<(), MemoryError>(())
```

Bytes are filled, copied and initialized:

```
use wasmi_core_proved::{Memory, MemoryError, MemoryType, ResourceLimiterRef};

let mut builder = MemoryType::builder();
builder.min(1);
let ty = builder.build()?;
let mut memory = Memory::new(ty, &mut ResourceLimiterRef::default())?;

memory.fill(65_530, 7, 6, None)?;
memory.init(&[1, 2, 3, 4], 0, 1, 3, None)?;
memory.copy_within(1, 0, 3, None)?;
assert_eq!(memory.data()[..5], [2, 2, 3, 4, 0]);

let mut other = Memory::new(ty, &mut ResourceLimiterRef::default())?;
Memory::copy(&mut other, 0, &memory, 65_535, 1, None)?;
assert_eq!(other.data()[..2], [7, 0]);

let past = Memory::copy(&mut other, 0, &memory, 65_535, 2, None);
assert!(matches!(past, Err(MemoryError::OutOfBoundsAccess)));
# Ok::<(), MemoryError>(())
```
"#
    };
    (root ResourceLimiter) => {
        r#"# Examples

```
use wasmi_core_proved::{
    LimiterError, Memory, MemoryError, MemoryType, ResourceLimiter, ResourceLimiterRef,
};

/// Permits memories of so many bytes, and no tables.
struct AtMost(usize);

impl ResourceLimiter for AtMost {
    fn memory_growing(
        &mut self,
        _current: usize,
        desired: usize,
        _maximum: Option<usize>,
    ) -> Result<bool, LimiterError> {
        Ok(desired <= self.0)
    }
    fn table_growing(
        &mut self,
        _current: usize,
        _desired: usize,
        _maximum: Option<usize>,
    ) -> Result<bool, LimiterError> {
        Ok(false)
    }
    fn instances(&self) -> usize {
        1
    }
    fn tables(&self) -> usize {
        0
    }
    fn memories(&self) -> usize {
        1
    }
}

let mut most = AtMost(100_000);
let mut limiter = ResourceLimiterRef::from(&mut most as &mut dyn ResourceLimiter);
let mut builder = MemoryType::builder();
builder.min(1);
let mut memory = Memory::new(builder.build()?, &mut limiter)?;
let refused = memory.grow(1, None, &mut limiter);
assert!(matches!(refused, Err(MemoryError::OutOfBoundsGrowth)));
# Ok::<(), MemoryError>(())
```
"#
    };
    (root Table) => {
        r#"# Examples

```
use wasmi_core_proved::{
    RawRef, RefType, ResourceLimiterRef, Table, TableError, TableType, TypedRawRef,
};

let mut limiter = ResourceLimiterRef::default();
let null = TypedRawRef::null(RefType::Func);
let mut table = Table::new(TableType::new(RefType::Func, 2, Some(4)), null, &mut limiter)?;

let third = TypedRawRef::new(RawRef::from(3), RefType::Func);
assert_eq!(table.grow(1, third, None, &mut limiter)?, 2);
table.copy_within(0, 1, 2, None)?;
assert_eq!(table.get(1).map(|element| u32::from(element.raw())), Some(3));
assert!(table.get(3).is_none());

let other = TypedRawRef::null(RefType::Extern);
assert!(matches!(table.set(0, other), Err(TableError::ElementTypeMismatch)));
let refused = table.grow(2, null, None, &mut limiter);
assert!(matches!(refused, Err(TableError::GrowOutOfBounds)));
# Ok::<(), TableError>(())
```
"#
    };
    (root Trap) => {
        r#"# Examples

```
use std::fmt;
use wasmi_core_proved::{HostError, Trap, TrapCode};

#[derive(Debug)]
struct NoSuchFile(String);

impl fmt::Display for NoSuchFile {
    fn fmt(&self, f: &mut fmt::Formatter<'_>) -> fmt::Result {
        write!(f, "no file {}", self.0)
    }
}
impl HostError for NoSuchFile {}

let trap = Trap::from(NoSuchFile("a.txt".into()));
assert_eq!(trap.to_string(), "no file a.txt");
assert!(trap.downcast_ref::<NoSuchFile>().is_some());
assert_eq!(trap.trap_code(), None);

let trap = Trap::from(TrapCode::IntegerDivisionByZero);
assert_eq!(trap.trap_code(), Some(TrapCode::IntegerDivisionByZero));
assert_eq!(Trap::i32_exit(3).i32_exit_status(), Some(3));
```
"#
    };
    (script replay) => {
        r#"# Examples

```
use wasmi_core_proved::script::{Status, replay};

let script = "memory 1 2 16 32\ngrow 0 1\ngrow 0 1\n";
let mut printed = Vec::new();
let status = replay(&mut script.as_bytes(), &mut printed);
assert_eq!(status, Status::Answered);
let printed = String::from_utf8(printed)?;
assert!(printed.starts_with("memory 0\nvalue 1\n"));
# Ok::<(), Box<dyn std::error::Error>>(())
```
"#
    };
    (store MemoryType) => {
        r#"# Examples

```
use wasmi_core_proved::MemoryType;

let mut builder = MemoryType::builder();
builder.min(1).max(Some(4));
let ty = builder.build()?;
assert_eq!((ty.minimum(), ty.maximum(), ty.page_size()), (1, Some(4), 65_536));

let mut builder = MemoryType::builder();
builder.min(5).max(Some(4));
assert!(builder.build().is_err());
# Ok::<(), wasmi_core_proved::MemoryError>(())
```
"#
    };
    (typed Global) => {
        r#"# Examples

```
use wasmi_core_proved::{Global, GlobalError, GlobalType, Mutability, TypedRawVal, ValType};

let ty = GlobalType::new(ValType::I32, Mutability::Var);
let mut global = Global::new(7_i32.into(), ty);
global.set(TypedRawVal::from(-8_i32))?;
assert_eq!(i32::from(global.get()), -8);
assert!(matches!(global.set(TypedRawVal::from(1_u64)), Err(GlobalError::TypeMismatch)));

let mut constant = Global::new(7_i32.into(), GlobalType::new(ValType::I32, Mutability::Const));
assert!(matches!(constant.set(TypedRawVal::from(8_i32)), Err(GlobalError::ImmutableWrite)));
# Ok::<(), GlobalError>(())
```
"#
    };
    (typed TypedRawVal) => {
        r#"# Examples

```
use wasmi_core_proved::{RawVal, TypedRawVal, ValType};

let value = TypedRawVal::from(-3_i64);
assert_eq!((value.ty(), i64::from(value)), (ValType::I64, -3));
let same = TypedRawVal::new(ValType::I64, RawVal::from(-3_i64));
assert_eq!(value, same);
```
"#
    };
}
