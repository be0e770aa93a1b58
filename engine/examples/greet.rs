//! A host that gives a guest a string and gets one back, meters it, and survives its trap.
//!
//! usage: `cargo run --example greet`. The guest is greet.c.

use engine::{Caller, Caps, Config, Engine, Error, Instance, Linker, Module, Store, TrapCode};

/// What the host keeps of a guest: the names that it has logged.
#[derive(Default)]
struct Host {
    logged: Vec<String>,
}

/// A function of the host: bytes of the guest's memory become a string.
fn log(mut caller: Caller<'_, Host>, pointer: u32, len: u32) -> Result<(), Error> {
    caller.charge_bytes(len.into())?;
    let memory = caller.get_memory("memory").ok_or(Error::new("the guest has no memory"))?;
    let mut bytes = vec![0; len as usize];
    memory.read(&caller, pointer as usize, &mut bytes)?;
    caller.data_mut().logged.push(String::from_utf8_lossy(&bytes).into_owned());
    Ok(())
}

/// Gives the guest a name, and gets a greeting back.
fn greet(instance: &Instance, store: &mut Store<Host>, name: &str) -> Result<String, Error> {
    let allocate = instance.get_typed_func::<u32, u32>(&*store, "allocate")?;
    let greet = instance.get_typed_func::<(u32, u32), u64>(&*store, "greet")?;
    let memory = instance.get_memory(&*store, "memory").ok_or(Error::new("the guest has no memory"))?;
    let len = name.len() as u32;
    let pointer = allocate.call(&mut *store, len)?;
    memory.write(&mut *store, pointer as usize, name.as_bytes())?;
    let greeting = greet.call(&mut *store, (pointer, len))?;
    let mut bytes = vec![0; (greeting >> 32) as usize];
    memory.read(&*store, greeting as u32 as usize, &mut bytes)?;
    Ok(String::from_utf8_lossy(&bytes).into_owned())
}

pub fn main() -> Result<(), Error> {
    let engine = Engine::new(Config::default().consume_fuel(true));
    let module = Module::new(&engine, include_bytes!("greet.wasm"))?;
    let mut linker = Linker::new(&engine);
    linker.func_wrap("host", "log", log)?;
    let mut store = Store::new(&engine, Host::default());
    store.set_caps(Caps { bytes: 1 << 20, elements: 100 });
    store.set_fuel(10_000)?;
    let instance = linker.instantiate(&mut store, &module)?;
    println!("{}", greet(&instance, &mut store, "Ada")?);
    println!("fuel used: {}", 10_000 - store.get_fuel()?);

    let trap = greet(&instance, &mut store, "").unwrap_err();
    println!("the guest trapped: {trap}");
    let spin = instance.get_typed_func::<(), ()>(&store, "spin")?;
    let stopped = spin.call(&mut store, ()).unwrap_err();
    assert_eq!(stopped.as_trap_code(), Some(TrapCode::OutOfFuel));
    store.set_fuel(10_000)?;
    println!("{}", greet(&instance, &mut store, "Grace")?);
    println!("logged: {:?}", store.data().logged);
    Ok(())
}
