//! Calls on a memory and a table, and then on those of a machine, as bytes, with each meter and under a limiter, beside the plain
//! models of the crate's tests.
#![cfg_attr(not(kept), no_main)]
// Of the files of tests only the models are taken.
#![allow(dead_code, unused_imports, unused_macros)]
use model::{ANSWERS, Asked, Limiter, Meter, Source, with_each, with_each_limiter, write};
use std::fmt::Debug;
use std::panic::{AssertUnwindSafe, catch_unwind};
use wasmi_core_proved::machine::{self, Call as MachineCall, Machine, Reply, run};
use wasmi_core_proved::{ElementSegment, Fuel, FuelCostsProvider, Memory, RawRef, RawVal, RefType, ResourceLimiterRef};
use wasmi_core_proved::{Table, TableError, TableType, TrapCode, TypedRawRef, ops::StoreOp, wasm};
use wasmi_fuzz::{agree, fuzz_target, is_planted};

#[path = "../../../rust/tests/facade/memories.rs"]
mod memories;
#[path = "../../../rust/tests/facade/model.rs"]
mod model;
#[path = "../../../rust/tests/facade/tables.rs"]
mod tables;

fuzz_target!(is_kept);

/// The bytes and references of what is copied from.
const OTHER: [u8; 6] = [1, 2, 3, 4, 5, 6];
/// Why a store is refused.
const TRAP: TrapCode = TrapCode::MemoryOutOfBounds;

/// What is called, and its numbers.
type Call = (u8, [u64; 3]);
/// What a call gives, and the bytes, the references and the fuel that are there after it.
type Seen = (String, Vec<u8>, Vec<Option<u32>>, Option<u64>);

fn call(bytes: &[u8]) -> Call {
    let edges = [65_535, 65_537, (1 << 32) - 4, 1 << 32, (1 << 32) + 1, 1 << 63, u64::MAX - 3, u64::MAX];
    let number = |it: u8| if it < 224 { u64::from(it % 32) } else { edges[usize::from(it % 8)] };
    (bytes[0] % 16, [number(bytes[1]), number(bytes[2]), number(bytes[3])])
}

/// The types of what is made.
fn types(number: u64, more: u64) -> (memories::Row, TableType) {
    let (least, most) = (number % 8, number % 8 + more % 40);
    (memories::Row(least, Some(most), 0, None), TableType::new(RefType::Func, least as u32, Some(most as u32)))
}

fn is_kept(input: &[u8]) -> bool {
    let calls: Vec<Call> = input.get(1..).unwrap_or(&[]).chunks_exact(4).take(64).map(call).collect();
    let answers = [ANSWERS[usize::from(input.first().unwrap_or(&0) % 5)]];
    let here = |fuel: Option<&mut Fuel>, limiter: &mut ResourceLimiterRef<'_>| by_crate(&calls, fuel, limiter);
    let model = |meter: Option<&mut Meter>, asked: &mut Asked| by_model(&calls, meter, asked);
    let result = catch_unwind(AssertUnwindSafe(|| with_each(&calls, &answers, here, model)));
    agree("calls", &true, &result.is_ok());
    let here = |fuel: Option<&mut Fuel>, limiter: Option<&mut Limiter>| by_machine(&calls, fuel, limiter);
    let result = catch_unwind(AssertUnwindSafe(|| with_each_limiter(&calls, &answers, here, model)));
    agree("machines", &true, &result.is_ok());
    !calls.is_empty()
}

fn told<T: Debug, E: Debug>(result: Result<T, E>) -> String {
    format!("{result:?}")
}

fn by_crate(calls: &[Call], mut fuel: Option<&mut Fuel>, limiter: &mut ResourceLimiterRef<'_>) -> Vec<Seen> {
    let ((row, ty), mut nobody) = (types(4, 28), ResourceLimiterRef::default());
    let memory = Memory::new(row.ty(), &mut nobody).expect("a memory");
    let mut made = (memory, Table::new(ty, TypedRawRef::null(RefType::Func), &mut nobody).expect("a table"));
    let seen = calls.iter().map(|call| {
        let told = of_crate(*call, &mut made, fuel.as_deref_mut(), limiter);
        let items = (0..made.1.size() + 1).map(|index| made.1.get(index).map(|it| it.raw().into())).collect();
        (told, made.0.data().to_vec(), items, fuel.as_ref().and_then(|fuel| fuel.get_fuel().ok()))
    });
    seen.skip(usize::from(is_planted("calls"))).collect()
}

#[rustfmt::skip]
fn of_crate((kind, [to, from, len]): Call, (memory, table): &mut (Memory, Table), fuel: Option<&mut Fuel>, limiter: &mut ResourceLimiterRef<'_>) -> String {
    let (src, count, (row, ty)) = (from as u32, len as u32, types(to, len));
    let (item, mut read) = (TypedRawRef::new(RawRef::from(src), RefType::Func), vec![0; from as usize % 32]);
    let segment = ElementSegment::new(RefType::Func, OTHER.map(|it| RawRef::from(u32::from(it))));
    match kind {
        0 => told(Memory::new(row.ty(), limiter).map(|made| *memory = made)),
        1 => told(memory.grow(len, fuel, limiter)),
        2 => told(memory.fill(to, from as u8, len, fuel)),
        3 => told(memory.copy_within(to, from, len, fuel)),
        4 => told(memory.init(&OTHER, to, src, count, fuel)),
        5 => told(memory.write(to as usize, &OTHER[..from as usize % 7])),
        6 => told(memory.read(to as usize, &mut read).map(|()| read)),
        7 => told(Table::new(ty, item, limiter).map(|made| *table = made)),
        8 => told(table.grow(len, item, fuel, limiter)),
        9 => told(table.fill(to, item, len, fuel)),
        10 => told(table.copy_within(to, from, len, fuel)),
        11 => told(table.init(segment.as_ref(), to, src, count, fuel)),
        12 => told(table.set(to, item)),
        13 => told(fuel.ok_or(()).and_then(|fuel| fuel.set_fuel(from).map_err(|_| ()))),
        14 => told(fuel.ok_or(()).and_then(|fuel| fuel.consume_fuel(|_| len).map_err(|_| ()))),
        _ => told(wasm::store64(memory.data_mut(), to, from, !len)),
    }
}

/// A machine with a memory, a table and both segments, each of them the first of its kind.
fn new_machine(fuel: Fuel) -> Machine<'static> {
    let (mut machine, items) = (Machine::new(fuel), OTHER.map(|it| RawRef::from(u32::from(it))));
    let data = MachineCall::NewData(OTHER.to_vec().into());
    let segment = MachineCall::NewSegment { ty: RefType::Func, items: items.to_vec().into() };
    let [memory, table] = [0, 7].map(|kind| machine_call((kind, [4, 0, 28]), [0; 2]));
    let mut nobody = machine::ResourceLimiterRef::<Limiter>::default();
    let made = run(&mut machine, &[data, segment, memory, table], &mut nobody).expect("replies");
    assert_eq!(made[..], [Reply::Made(0), Reply::Made(0), Reply::Made(0), Reply::Made(0)]);
    machine
}

/// What a machine gives, where the memory and the table are the last that it made.
fn by_machine(calls: &[Call], fuel: Option<&mut Fuel>, limiter: Option<&mut Limiter>) -> Vec<Seen> {
    let mut limiter = limiter.map_or_else(Default::default, machine::ResourceLimiterRef::from);
    let meter = |is_on| Fuel::new(is_on, FuelCostsProvider::default());
    let (mut off, mut made) = (meter(false), [0; 2]);
    let fuel = fuel.unwrap_or(&mut off);
    let other = meter(fuel.get_fuel().is_ok());
    let mut machine = new_machine(std::mem::replace(fuel, other));
    let seen = calls.iter().map(|call| {
        let told = of_machine(*call, &mut machine, &mut made, &mut limiter);
        let (memory, table) = (machine.memory(made[0]).expect("a memory"), machine.table(made[1]).expect("a table"));
        let items = (0..table.size() + 1).map(|index| table.get(index).map(|it| it.raw().into())).collect();
        (told, memory.data().to_vec(), items, machine.fuel().get_fuel().ok())
    });
    let seen = seen.skip(usize::from(is_planted("machines"))).collect();
    // The machine keeps the meter that it was given, so what it has left is told to another one.
    assert_eq!(machine.fuel().get_fuel().and_then(|left| fuel.set_fuel(left)).is_ok(), fuel.get_fuel().is_ok());
    seen
}

fn of_machine(
    call: Call,
    machine: &mut Machine,
    made: &mut [usize; 2],
    limiter: &mut machine::ResourceLimiterRef<'_, Limiter>,
) -> String {
    // A machine's fuel is taken by no call.
    if call.0 == 14 {
        return told(machine.consume_fuel(call.1[2]).map_err(|_| ()));
    }
    match &run(machine, &[machine_call(call, *made)], limiter).expect("replies")[..] {
        [Reply::Made(index)] => {
            made[usize::from(call.0 == 7)] = *index;
            told::<_, ()>(Ok(()))
        }
        [Reply::Done] => told::<_, ()>(Ok(())),
        [Reply::Number(number)] => told::<_, ()>(Ok(number)),
        [Reply::Bytes(bytes)] => told::<_, ()>(Ok(bytes.as_slice())),
        [Reply::Memory(error)] => told::<(), _>(Err(error)),
        [Reply::Table(error)] => told::<(), _>(Err(error)),
        [Reply::Trap(code)] => told::<(), _>(Err(code)),
        [Reply::Fuel(_)] => told::<(), _>(Err(())),
        replies => panic!("{call:?}: {replies:?}"),
    }
}

#[rustfmt::skip]
fn machine_call((kind, [dst, from, len]): Call, [memory, table]: [usize; 2]) -> MachineCall {
    let (src, count, (row, ty), segment, offset) = (from as u32, len as u32, types(dst, len), 0, dst as usize);
    let value = TypedRawRef::new(RawRef::from(src), RefType::Func);
    match kind {
        0 => MachineCall::NewMemory(row.ty()),
        1 => MachineCall::GrowMemory { memory, pages: len },
        2 => MachineCall::FillMemory { memory, dst, value: from as u8, len },
        3 => MachineCall::CopyMemory { dst_memory: memory, dst, src_memory: memory, src: from, len },
        4 => MachineCall::InitMemory { memory, segment, dst, src, len: count },
        5 => MachineCall::Write { memory, offset, bytes: OTHER[..from as usize % 7].to_vec().into() },
        6 => MachineCall::Read { memory, offset, len: from as usize % 32 },
        7 => MachineCall::NewTable { ty, init: value },
        8 => MachineCall::GrowTable { table, delta: len, init: value },
        9 => MachineCall::FillTable { table, dst, value, len },
        10 => MachineCall::CopyTable { dst_table: table, dst, src_table: table, src: from, len },
        11 => MachineCall::InitTable { table, segment, dst, src, len: count },
        12 => MachineCall::SetElement { table, index: dst, value },
        13 => MachineCall::SetFuel(from),
        _ => MachineCall::Store { op: StoreOp::Store64, memory, ptr: dst, offset: from, value: RawVal::from(!len) },
    }
}

fn by_model(calls: &[Call], mut meter: Option<&mut Meter>, asked: &mut Asked) -> Vec<Seen> {
    let (row, ty) = types(4, 28);
    let memory = memories::Model::new(row, &mut None).expect("a memory");
    let mut made = (memory, tables::Model::new(ty, 0, None, &mut None).expect("a table"));
    let seen = calls.iter().map(|call| {
        let told = of_model(*call, &mut made, meter.as_deref_mut(), asked);
        let items = made.1.items.iter().copied().map(Some).chain([None]).collect();
        (told, made.0.bytes.clone(), items, meter.as_ref().and_then(|meter| meter.left))
    });
    seen.collect()
}

#[rustfmt::skip]
fn of_model((kind, [to, from, len]): Call, (memory, table): &mut (memories::Model, tables::Model), meter: Option<&mut Meter>, asked: &mut Asked) -> String {
    let (src, count, item, (row, ty)) = (u64::from(from as u32), u64::from(len as u32), from as u32, types(to, len));
    let (bytes, items, other) = (memory.bytes.clone(), table.items.clone(), OTHER.map(u32::from));
    let mut read = vec![0; from as usize % 32];
    let mut put = |len, source, meter| told(write(&mut memory.bytes, to, len, source, meter, memories::OUTSIDE, memories::unpaid));
    let mut set = |len, source, meter, outside| told(write(&mut table.items, to, len, source, meter, outside, tables::unpaid));
    match kind {
        0 => told(memories::Model::new(row, asked).map(|made| *memory = made)),
        1 => told(memory.grow(len, meter, asked)),
        2 => put(len, Source::Filled(from as u8), meter),
        3 => put(len, Source::Items(&bytes, from), meter),
        4 => put(count, Source::Items(&OTHER, src), meter),
        5 => put(from % 7, Source::Items(&OTHER, 0), None),
        6 => told(write(&mut read, 0, from % 32, Source::Items(&bytes, to), None, memories::OUTSIDE, memories::unpaid).map(|()| read)),
        7 => told(tables::Model::new(ty, item, None, asked).map(|made| *table = made)),
        8 => told(table.grow(len, item, meter, asked)),
        9 => set(len, Source::Filled(item), meter, TableError::FillOutOfBounds),
        10 => set(len, Source::Items(&items, from), meter, TableError::CopyOutOfBounds),
        // Nothing is taken for no items.
        11 => set(count, Source::Items(&other, src), meter.filter(|_| count > 0), TableError::InitOutOfBounds),
        12 => set(1, Source::Filled(item), None, TableError::SetOutOfBounds),
        13 => told(meter.and_then(|meter| meter.left.as_mut()).map(|left| *left = from).ok_or(())),
        14 => told(meter.and_then(|meter| meter.left.as_mut()).and_then(|left| left.checked_sub(len).inspect(|now| *left = *now)).ok_or(())),
        _ => told(to.checked_add(from).ok_or(TRAP).and_then(|at| write(&mut memory.bytes, at, 8, Source::Items(&(!len).to_le_bytes(), 0), None, TRAP, |_| TRAP))),
    }
}
