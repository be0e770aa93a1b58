//! Debug texts of what holds a guest's data: its type and its size, and nothing of its contents.
use std::fmt::Debug;
use wasmi_core_proved::machine::{
    self, ByteBuffer, Call, Machine, NoLimits, Reply, ResourceLimiterRef as Limits, run,
};
use wasmi_core_proved::{
    ElementSegment, ElementSegmentRef, Fuel, FuelCostsProvider, Memory, MemoryType, RawRef,
    RefType, ResourceLimiterRef, Table, TableType, TypedRawRef,
};

/// The length of what `wasmi_core` prints of a memory of 16 pages.
const SHORT: usize = 223;

/// What is printed of a value is this text, also once its contents are others.
fn prints<T: Debug>(mut value: T, text: &str, change: impl FnOnce(&mut T)) {
    assert_eq!(format!("{value:?}"), text);
    change(&mut value);
    assert_eq!(format!("{value:?}"), text);
    assert!(text.len() <= SHORT, "{text}");
}

fn pages() -> MemoryType {
    let mut builder = MemoryType::builder();
    builder.min(16).max(Some(17));
    builder.build().expect("a type")
}

fn func(number: u32) -> TypedRawRef {
    TypedRawRef::new(RawRef::from(number), RefType::Func)
}

#[test]
fn memories() {
    let (ty, limiter) = (pages(), &mut ResourceLimiterRef::default());
    let shown = format!("{ty:?}, size: 16, .. }}");
    let memory = Memory::new(ty, limiter).expect("a memory");
    let text = format!("Memory {{ ty: {shown}");
    prints(memory, &text, |memory| memory.data_mut().fill(0xa5));

    let text = format!("LinearMemory {{ ty: {shown}");
    let limiter = &mut Limits::<NoLimits>::default();
    let memory = machine::Memory::new(ty, limiter).expect("a memory");
    prints(memory, &text, |memory| memory.data_mut().fill(0xa5));
    let mut region = vec![1; 16 << 16];
    let memory = machine::Memory::new_static(ty, limiter, &mut region).expect("a memory");
    prints(memory, &text, |memory| memory.data_mut().fill(0xa5));
}

#[test]
fn buffers() {
    let buffer = ByteBuffer::new(1 << 20).expect("a buffer");
    let text = "Buffer { len: 1048576, .. }";
    prints(buffer, text, |buffer| buffer.data_mut().fill(0xa5));
}

#[test]
fn tables() {
    let ty = TableType::new(RefType::Func, 1000, Some(2000));
    let text = format!("Table {{ ty: {ty:?}, size: 1000, .. }}");
    let table = Table::new(ty, func(7), &mut ResourceLimiterRef::default()).expect("a table");
    prints(table, &text, |table| {
        table.fill(0, func(165), 1000, None).expect("it is filled");
    });
    let limiter = &mut Limits::<NoLimits>::default();
    let table = machine::Table::new(ty, func(7), limiter).expect("a table");
    prints(table, &text, |table| {
        table.fill(0, func(165), 1000, None).expect("it is filled");
    });
}

#[test]
fn segments() {
    let items = [RawRef::from(165); 1000];
    let text = "ElementSegment { ty: Extern, size: 1000, .. }";
    let segment = ElementSegment::new(RefType::Extern, items);
    let shared = "ElementSegmentRef { ty: Extern, size: 1000, .. }";
    prints(ElementSegmentRef::from(&segment), shared, |_| ());
    prints(segment, text, |_| ());
    let segment = machine::ElementSegment::new(RefType::Extern, items).expect("a segment");
    prints(segment, text, |_| ());
    let mut machine = Machine::new(Fuel::new(false, FuelCostsProvider::default()));
    let calls = [Call::NewData(vec![165; 1000].into())];
    run(&mut machine, &calls, &mut Limits::<NoLimits>::default()).expect("a reply");
    let segment = machine.data_segment(0).expect("a data segment");
    prints(segment, "DataSegment { size: 1000, .. }", |_| ());
}

#[test]
fn machines() {
    let mut machine = Machine::new(Fuel::new(false, FuelCostsProvider::default()));
    let limiter = &mut Limits::<NoLimits>::default();
    let replies = run(&mut machine, &[Call::NewMemory(pages())], limiter);
    assert!(matches!(replies.expect("replies")[..], [Reply::Made(0)]));
    prints(machine, "Machine { .. }", |_| ());
}
