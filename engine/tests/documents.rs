//! What the documentation says of hosts: the program that README shows, refused growths, caps, and fuel.

use engine::{
    Caller, Caps, Config, Engine, Error, Linker, Memory, MemoryType, Module, RawRef, RefType, ResumableCall, Store,
    Table, TableType, TrapCode, Val, ValType, guests,
};
use std::fmt;

#[path = "../examples/gcd.rs"]
mod gcd;

/// The trap code of an error.
fn code<T: fmt::Debug>(result: Result<T, Error>) -> Option<TrapCode> {
    result.unwrap_err().as_trap_code()
}

#[test]
fn the_program_of_the_readme() {
    gcd::main().unwrap();
}

#[test]
fn a_growth_beyond_the_caps_or_the_type() {
    let limited = Some(TrapCode::GrowthOperationLimited);
    let mut store = Store::new(&Engine::default(), ());
    store.set_caps(Caps { bytes: 3 << 16, elements: 3 });
    let of = |max| {
        let mut ty = MemoryType::builder();
        ty.min(1).max(max);
        ty.build().unwrap()
    };
    let memory = Memory::new(&mut store, of(None)).unwrap();
    assert_eq!(code(memory.grow(&mut store, 3)), limited);
    assert_eq!(code(memory.grow(&mut store, u64::MAX)), limited);
    let memory = Memory::new(&mut store, of(Some(2))).unwrap();
    assert_eq!(code(memory.grow(&mut store, 2)), limited);
    assert_eq!(memory.grow(&mut store, 1).unwrap(), 1);
    assert_eq!(code(Memory::new(&mut store, of(None))), limited);

    let null = Val::new(ValType::FuncRef, RawRef::null().into());
    let table = Table::new(&mut store, TableType::new(RefType::Func, 1, Some(2)), null).unwrap();
    assert_eq!(code(table.grow(&mut store, 2, null)), limited);
    assert_eq!(store.caps().elements, 2);
    let table = Table::new(&mut store, TableType::new(RefType::Func, 1, None), null).unwrap();
    assert_eq!(code(table.grow(&mut store, 2, null)), limited);
    assert_eq!(table.grow(&mut store, 1, null).unwrap(), 1);
}

#[test]
fn caps_of_all_that_there_is() {
    let mut store = Store::new(&Engine::default(), ());
    let mut ty = MemoryType::builder();
    ty.min(1);
    let memory = Memory::new(&mut store, ty.build().unwrap()).unwrap();
    let caps = Caps { bytes: usize::MAX, elements: usize::MAX };
    store.set_caps(caps);
    drop(memory);
    assert_eq!(store.caps(), caps);
}

#[test]
fn a_store_without_fuel_makes_instances() {
    let engine = Engine::new(Config::default().consume_fuel(true));
    let mut store = Store::new(&engine, ());
    let module = Module::new(&engine, guests::PLAIN).unwrap();
    let instance = Linker::new(&engine).instantiate(&mut store, &module).unwrap();
    let sum = instance.get_typed_func::<i32, i32>(&store, "sum").unwrap();
    assert_eq!(code(sum.call(&mut store, 1)), Some(TrapCode::OutOfFuel));
}

/// A guest whose function of the host asks for as much fuel as 10,000 bytes cost.
fn greeted(fuel: u64) -> Result<ResumableCall<u64>, Error> {
    let engine = Engine::new(Config::default().consume_fuel(true));
    let (mut linker, mut store) = (Linker::new(&engine), Store::new(&engine, ()));
    linker.func_wrap("host", "log", |mut caller: Caller<'_, ()>, _: u32, _: u32| caller.charge_bytes(10_000))?;
    let instance = linker.instantiate(&mut store, &Module::new(&engine, guests::GREET)?)?;
    let greet = instance.get_typed_func::<(u32, u32), u64>(&store, "greet")?;
    store.set_fuel(fuel)?;
    greet.call_resumable(&mut store, (0, 1))
}

#[test]
fn a_function_of_the_host_without_fuel_ends_a_call() {
    assert!(matches!(greeted(1), Ok(ResumableCall::OutOfFuel(_))));
    assert_eq!(code(greeted(100)), Some(TrapCode::OutOfFuel));
    assert!(matches!(greeted(1000), Ok(ResumableCall::Finished(_))));
}

#[test]
fn a_call_runs_while_another_one_waits() {
    let engine = Engine::new(Config::default().consume_fuel(true));
    let mut store = Store::new(&engine, ());
    let module = Module::new(&engine, guests::PLAIN).unwrap();
    let instance = Linker::new(&engine).instantiate(&mut store, &module).unwrap();
    let function = |name| instance.get_typed_func::<i32, i32>(&store, name).unwrap();
    let (sum, deep) = (function("sum"), function("deep"));
    store.set_fuel(50).unwrap();
    let Ok(ResumableCall::OutOfFuel(waiting)) = sum.call_resumable(&mut store, 100) else { panic!("it doesn't wait") };
    store.set_fuel(10_000).unwrap();
    assert_eq!(deep.call(&mut store, 100).unwrap(), 100);
    assert!(matches!(waiting.resume(&mut store), Ok(ResumableCall::Finished(5050))));
}
