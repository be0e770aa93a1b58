// The same calls for two machines. This file is a part of two modules: one has the machine over the Rust crate, and one that of here.
use super::{KINDS, black_box};

/// The last kind is one of each other in turn.
const MIXED: u64 = KINDS.len() as u64 - 1;

fn number(reference: u32) -> TypedRawRef {
    TypedRawRef::new(RawRef::from(reference), RefType::Func)
}

fn call_of(kind: u64, i: u64) -> Call {
    let (ptr, index) = (i.wrapping_mul(8) & 0x7ff8, i.wrapping_mul(8) % 1000);
    match if kind == MIXED { i % MIXED } else { kind } {
        0 => Call::Load { op: load("load_u64"), memory: 0, ptr, offset: i & 1 },
        1 => Call::Load { op: load("i32_load8_s"), memory: 0, ptr, offset: i & 1 },
        2 => Call::Store { op: store("store32"), memory: 0, ptr, offset: i & 1, value: (i & 0xffff_ffff).into() },
        3 => Call::Store { op: store("i64_store16"), memory: 0, ptr, offset: i & 1, value: i.into() },
        4 => Call::Write { memory: 0, offset: ptr as usize, bytes: vec![i as u8; 64].into() },
        5 => Call::Read { memory: 0, offset: ptr as usize, len: 64 },
        6 => Call::GrowMemory { memory: 0, pages: 0 },
        7 if i & 8 == 0 => Call::SetFuel(u64::MAX - i),
        7 => Call::GetFuel,
        8 => Call::GetElement { table: 0, index },
        9 => Call::SetElement { table: 0, index, value: number(i as u32) },
        10 => Call::FillTable { table: 0, dst: index, value: number(i as u32), len: 16 },
        11 => Call::CopyTable { dst_table: 0, dst: index, src_table: 0, src: i % 1000, len: 16 },
        12 => Call::GrowTable { table: 0, delta: 0, init: number(1) },
        13 => Call::SetGlobal { global: 0, value: TypedRawVal::new(ValType::I64, RawVal::from(i)) },
        _ => Call::GetGlobal(0),
    }
}

fn number_of(reply: &Reply) -> u64 {
    match reply {
        Reply::Done => 1,
        Reply::Value(value) => u64::from(*value),
        Reply::Number(number) => *number,
        Reply::Bytes(bytes) => bytes.as_slice().iter().map(|&byte| u64::from(byte)).sum(),
        Reply::Reference(Some(reference)) => u64::from(u32::from(reference.raw())),
        _ => 17,
    }
}

/// A machine with a memory, a table and a global variable, and so many calls of a kind.
fn machine_and_calls(kind: u64, count: u64) -> (Machine, Vec<Call>) {
    let costs = CustomFuelCosts { bytes_copied_per_fuel: 64, fuel_per_bytes_translated: 7, fuel_per_bytes_validated: 2 };
    let mut fuel = Fuel::new(true, FuelCostsProvider::custom(costs));
    fuel.set_fuel(u64::MAX).unwrap();
    let mut machine = new_machine(fuel);
    let mut builder = MemoryType::builder();
    builder.min(1);
    let table = Call::NewTable { ty: TableType::new(RefType::Func, 1016, None), init: number(3) };
    let global = Call::NewGlobal { value: RawVal::from(5_u64), ty: GlobalType::new(ValType::I64, Mutability::Var) };
    run(&mut machine, &[Call::NewMemory(builder.build().unwrap()), table, global]);
    (machine, (0..count).map(|i| call_of(kind, i)).collect())
}

/// Makes `count` calls of one kind, and runs them `runs` times. The replies of the last run are summed up.
pub unsafe extern "C" fn machine_runs(kind: u64, count: u64, runs: u64) -> u64 {
    let (mut machine, calls) = machine_and_calls(kind, count);
    let mut sum = 0;
    for turn in 0..runs {
        let replies = run(&mut machine, black_box(&calls));
        if turn + 1 == runs {
            sum = replies.iter().fold(0, |sum: u64, reply| sum.wrapping_mul(31).wrapping_add(number_of(reply)));
        }
    }
    sum
}
