//! Functions of the host, instances that import from each other, and what is given back when they are dropped.

use engine::library::{FuncType, HostError, MemoryType, TrapCode, ValType};
use engine::{
    Caller, Caps, Config, Contents, Engine, Error, ExternType, Func, Instance, Linker, Memory, Module, ResumableCall,
    StackLimits, Store, StoreContext, StoreContextMut, TraceFrame, TypedFunc, Val,
};
use std::fmt;

#[path = "../examples/greet.rs"]
mod greet;

fn module(engine: &Engine, name: &str) -> Module {
    let file = format!("{}/tests/hosts/{name}.wasm", env!("CARGO_MANIFEST_DIR").trim_end_matches("/crate"));
    Module::new(engine, &std::fs::read(file).unwrap()).unwrap()
}

fn metered() -> Engine {
    Engine::new(Config::default().consume_fuel(true))
}

/// The trap code of an error.
fn code<T: fmt::Debug>(result: Result<T, Error>) -> Option<TrapCode> {
    result.unwrap_err().as_trap_code()
}

// ---- functions of the host

/// An error of the host.
#[derive(Debug, PartialEq)]
struct Refused(u32);

impl fmt::Display for Refused {
    fn fmt(&self, f: &mut fmt::Formatter<'_>) -> fmt::Result {
        write!(f, "{} bytes are refused", self.0)
    }
}

impl HostError for Refused {}

/// Writes bytes of the guest in capitals where they are, keeps them, and gives their number.
fn shout(mut caller: Caller<'_, Vec<String>>, place: u32, len: u32) -> Result<u32, Error> {
    if len > 100 {
        return Err(Error::host(Refused(len)));
    }
    let memory = caller.get_memory("memory").ok_or(Error::new("there is no memory"))?;
    let mut bytes = vec![0; len as usize];
    memory.read(&caller, place as usize, &mut bytes)?;
    bytes.make_ascii_uppercase();
    memory.write(&mut caller, place as usize, &bytes)?;
    caller.data_mut().push(String::from_utf8_lossy(&bytes).into_owned());
    Ok(len)
}

/// Calls the guest back.
fn again(mut caller: Caller<'_, Vec<String>>, count: i32) -> Result<i32, Error> {
    let function = caller.get_func("count").ok_or(Error::new("there is no function"))?;
    function.typed::<i32, i32>(&caller)?.call(&mut caller, count)
}

fn caller() -> (Store<Vec<String>>, Instance) {
    let engine = Engine::default();
    let mut linker = Linker::new(&engine);
    linker.func_wrap("host", "shout", shout).unwrap().func_wrap("host", "again", again).unwrap();
    let mut store = Store::new(&engine, vec![]);
    let instance = linker.instantiate(&mut store, &module(&engine, "caller")).unwrap();
    (store, instance)
}

#[test]
fn bytes_of_the_guest() {
    let (mut store, instance) = caller();
    let shout = instance.get_typed_func::<(), u32>(&store, "shout").unwrap();
    assert_eq!(shout.call(&mut store, ()).unwrap(), 5);
    assert_eq!(store.data(), &["HELLO"]);
    let memory = instance.get_memory(&store, "memory").unwrap();
    assert_eq!(&memory.data(&store)[64..69], b"HELLO");

    memory.write(&mut store, 65_534, b"ab").unwrap();
    assert_eq!(code(memory.write(&mut store, 65_534, b"xyz")), Some(TrapCode::MemoryOutOfBounds));
    assert_eq!(&memory.data(&store)[65_533..], b"\0ab");
    let shout_at = instance.get_typed_func::<(u32, u32), u32>(&store, "shout_at").unwrap();
    assert_eq!(shout_at.call(&mut store, (65_534, 2)).unwrap(), 2);
    assert_eq!(code(shout_at.call(&mut store, (65_534, 3))), Some(TrapCode::MemoryOutOfBounds));
    assert_eq!(code(shout_at.call(&mut store, (u32::MAX, 1))), Some(TrapCode::MemoryOutOfBounds));
    let (bytes, data) = memory.data_and_store_mut(&mut store);
    data.push(String::from_utf8_lossy(&bytes[65_534..]).into_owned());
    assert_eq!(store.data(), &["HELLO", "AB", "AB"]);
}

#[test]
fn errors_of_the_host() {
    let (mut store, instance) = caller();
    let shout_at = instance.get_typed_func::<(u32, u32), u32>(&store, "shout_at").unwrap();
    let error = shout_at.call(&mut store, (0, 101)).unwrap_err();
    assert_eq!(error.downcast_ref(), Some(&Refused(101)));
    assert_eq!(error.to_string(), "101 bytes are refused");
    // The guest survives it.
    assert_eq!(shout_at.call(&mut store, (64, 5)).unwrap(), 5);

    let engine = store.engine().clone();
    let mut linker = Linker::new(&engine);
    linker.func_wrap("host", "shout", |_: i32, _: i32| -> Result<i32, Error> { Err(Error::i32_exit(3)) }).unwrap();
    linker.func_wrap("host", "again", |count: i32| count).unwrap();
    let instance = linker.instantiate(&mut store, &module(&engine, "caller")).unwrap();
    let shout = instance.get_typed_func::<(), i32>(&store, "shout").unwrap();
    assert_eq!(shout.call(&mut store, ()).unwrap_err().i32_exit_status(), Some(3));
}

#[test]
fn calls_back() {
    let (mut store, instance) = caller();
    let count = instance.get_typed_func::<i32, i32>(&store, "count").unwrap();
    assert_eq!(count.call(&mut store, 99).unwrap(), 99);
    // 100 calls of the host are open at once.
    assert_eq!(code(count.call(&mut store, 100)), Some(TrapCode::StackOverflow));
    assert_eq!(count.call(&mut store, 99).unwrap(), 99);
}

#[test]
fn functions_of_any_type() {
    let (mut store, instance) = caller();
    let swap = instance.get_func(&store, "swap").unwrap();
    assert_eq!(swap.ty(&store), FuncType::new([ValType::I64, ValType::I32], [ValType::I32, ValType::I64]).unwrap());
    let results = swap.call(&mut store, &[Val::from(-7_i64), Val::from(5_i32)]).unwrap();
    assert_eq!((i32::from(results[0]), i64::from(results[1])), (5, -7));
    assert!(matches!(swap.call(&mut store, &[Val::from(1_i32)]), Err(Error::Misused(_))));
    assert!(swap.typed::<(i64, i32), (i32, i64)>(&store).is_ok());
    assert_eq!(
        swap.typed::<i64, ()>(&store).unwrap_err().to_string(),
        "the function takes [I64, I32] and gives [I32, I64], and was asked for as one that takes [I64] and gives []"
    );
    assert!(instance.get_typed_func::<(), ()>(&store, "missing").is_err());

    // A function of the host that the host itself calls, and one whose results have the wrong types.
    let add = Func::wrap(&mut store, |mut caller: Caller<'_, Vec<String>>, a: i64, b: f64| {
        caller.data_mut().push(b.to_string());
        (a + 1, 0.5_f32)
    });
    let add = add.typed::<(i64, f64), (i64, f32)>(&store).unwrap();
    assert_eq!(add.call(&mut store, (i64::MAX - 1, -0.25)).unwrap(), (i64::MAX, 0.5));
    assert_eq!(store.data(), &["-0.25"]);
    let ty = FuncType::new([], [ValType::I32]).unwrap();
    let wrong = Func::new(&mut store, ty, |_, _, results| {
        results[0] = Val::from(1_i64);
        Ok(())
    });
    assert!(matches!(wrong.call(&mut store, &[]), Err(Error::Trap(_))));
    let ty = FuncType::new([ValType::I64, ValType::I32], [ValType::I32, ValType::I64]).unwrap();
    let swapped = Func::new(&mut store, ty, |_, args, results| {
        results.copy_from_slice(&[args[1], args[0]]);
        Ok(())
    });
    let results = swapped.call(&mut store, &[Val::from(-7_i64), Val::from(5_i32)]).unwrap();
    assert_eq!((i32::from(results[0]), i64::from(results[1])), (5, -7));
}

#[test]
fn imports_that_nobody_gives() {
    let engine = Engine::default();
    let (mut linker, mut store, module) = (Linker::new(&engine), Store::new(&engine, ()), module(&engine, "caller"));
    let imports: Vec<_> = module.imports().map(|it| (it.module, it.name)).collect();
    assert_eq!(imports, [("host", "shout"), ("host", "again")]);
    let missing = linker.instantiate(&mut store, &module).unwrap_err();
    assert_eq!(missing.to_string(), "host.shout: the host has no such item");
    linker.func_wrap("host", "again", |_: i64| 0_i32).unwrap();
    linker.define_unknown_imports_as_traps(&module).unwrap();
    let wrong = linker.instantiate(&mut store, &module).unwrap_err();
    assert_eq!(wrong.to_string(), "host.again: the item has another type");
    assert!(linker.func_wrap("host", "again", |count: i32| count).is_err());
    linker.allow_shadowing(true).func_wrap("host", "again", |count: i32| count + 10).unwrap();

    let instance = linker.instantiate(&mut store, &module).unwrap();
    let shout = instance.get_typed_func::<(), i32>(&store, "shout").unwrap();
    let stub = shout.call(&mut store, ()).unwrap_err();
    assert_eq!(stub.to_string(), "host.shout was called, which nobody has defined");
    let count = instance.get_typed_func::<i32, i32>(&store, "count").unwrap();
    assert_eq!(count.call(&mut store, 5).unwrap(), 15);
}

#[test]
fn what_can_be_printed() {
    /// Data of the host that can't be.
    struct Plain;
    fn is_debug<X: fmt::Debug>() {}
    is_debug::<(Store<Plain>, StoreContext<Plain>, StoreContextMut<Plain>)>();
    is_debug::<(Caller<Plain>, Linker<Plain>, TypedFunc<i32, Plain>)>();
    is_debug::<(Module, TraceFrame, Contents)>();
    let (store, instance) = caller();
    let count = instance.get_typed_func::<i32, i32>(&store, "count").unwrap();
    assert_eq!(format!("{count:?}"), "TypedFunc(Func(Instance(0), 4))");
    assert_eq!(format!("{:?}", instance.contents(&store).tables), "[]");
}

#[test]
fn the_example() {
    greet::main().unwrap();
}

#[test]
#[should_panic(expected = "another store")]
fn handles_of_another_store() {
    let (_store, instance) = caller();
    let (other, _) = caller();
    instance.get_memory(&other, "memory");
}

// ---- instances that import from each other

/// The provider and the user.
fn linked(engine: &Engine) -> (Store<()>, Instance, Instance) {
    let (mut store, mut linker) = (Store::new(engine, ()), Linker::new(engine));
    if engine.is_metered() {
        store.set_fuel(1_000_000_000).unwrap();
    }
    let provider = linker.instantiate(&mut store, &module(engine, "provider")).unwrap();
    linker.instance(&mut store, "provider", &provider).unwrap();
    let user = linker.instantiate(&mut store, &module(engine, "user")).unwrap();
    (store, provider, user)
}

fn call(store: &mut Store<()>, instance: &Instance, name: &str, args: &[i32]) -> Result<i32, Error> {
    let args: Vec<_> = args.iter().copied().map(Val::from).collect();
    Ok(instance.get_func(&*store, name).unwrap().call(store, &args)?.first().map_or(0, |it| i32::from(*it)))
}

#[test]
fn an_instance_uses_all_of_another() {
    let (mut store, provider, user) = linked(&Engine::default());
    // 5 + 101, and the 5 that the other one wrote to the shared memory.
    assert_eq!(call(&mut store, &user, "direct", &[5]).unwrap(), 111);
    let count = provider.get_global(&store, "count").unwrap();
    assert_eq!(i32::from(count.get(&store)), 1);
    count.set(&mut store, Val::from(41_i32)).unwrap();
    assert_eq!(call(&mut store, &user, "direct", &[0]).unwrap(), 102);
    assert_eq!(i32::from(count.get(&store)), 42);
    // A memory grows for both.
    assert_eq!(call(&mut store, &provider, "grow", &[]).unwrap(), 1);
    assert_eq!(call(&mut store, &user, "size", &[]).unwrap(), 2);
}

#[test]
fn functions_of_one_in_the_table_of_another() {
    let (mut store, provider, user) = linked(&Engine::default());
    for instance in ["indirect", "by_the_other"] {
        assert_eq!(call(&mut store, &user, instance, &[1, 6]).unwrap(), 42);
        assert_eq!(code(call(&mut store, &user, instance, &[3, 6])), Some(TrapCode::BadSignature));
        assert_eq!(code(call(&mut store, &user, instance, &[4, 6])), Some(TrapCode::TableOutOfBounds));
    }
    assert_eq!(call(&mut store, &user, "indirect", &[0, 1]).unwrap(), 102);
    assert_eq!(call(&mut store, &user, "by_the_other", &[0, 1]).unwrap(), 103);
    assert_eq!(code(call(&mut store, &provider, "traps", &[0])), Some(TrapCode::UnreachableCodeReached));
    assert_eq!(code(call(&mut store, &user, "traps", &[0])), Some(TrapCode::UnreachableCodeReached));
    // The functions stay where they are without a handle of their instance.
    drop(user);
    assert_eq!(call(&mut store, &provider, "through_table", &[1, 6]).unwrap(), 42);
}

#[test]
fn recursion_through_two_instances_ends() {
    let (mut store, _, user) = linked(&Engine::default());
    assert_eq!(call(&mut store, &user, "depth", &[9_000]).unwrap(), 9_000);
    assert_eq!(code(call(&mut store, &user, "depth", &[1_000_000])), Some(TrapCode::StackOverflow));
    assert_eq!(call(&mut store, &user, "depth", &[9_000]).unwrap(), 9_000);

    let (mut store, _, user) = linked(&metered());
    store.set_fuel(10_000).unwrap();
    assert_eq!(code(call(&mut store, &user, "depth", &[1_000_000])), Some(TrapCode::OutOfFuel));
}

#[test]
fn a_host_in_the_table() {
    let engine = Engine::default();
    let (mut store, mut linker) = (Store::new(&engine, 0_i32), Linker::new(&engine));
    let provider = linker.instantiate(&mut store, &module(&engine, "provider")).unwrap();
    let table = provider.get_table(&store, "table").unwrap();
    let host = Func::wrap(&mut store, |mut caller: Caller<'_, i32>, value: i32| {
        *caller.data_mut() += value;
        *caller.data()
    });
    let value = host.to_val(&mut store);
    table.set(&mut store, 3, value).unwrap();
    let call = provider.get_typed_func::<(i32, i32), i32>(&store, "through_table").unwrap();
    assert_eq!((call.call(&mut store, (3, 5)).unwrap(), call.call(&mut store, (3, 6)).unwrap()), (5, 11));
    let value = table.get(&mut store, 3).unwrap();
    let found = Func::from_val(&mut store, value).unwrap();
    assert_eq!(found.typed::<i32, i32>(&store).unwrap().call(&mut store, 1).unwrap(), 12);
    assert_eq!(provider.get_func(&store, "through_table").unwrap().index(&store), 1);
    assert!(linker.instance(&mut store, "provider", &provider).is_ok());
}

#[test]
fn what_an_import_has_to_be() {
    let engine = Engine::default();
    let (mut store, mut linker) = (Store::new(&engine, ()), Linker::new(&engine));
    let provider = linker.instantiate(&mut store, &module(&engine, "provider")).unwrap();
    linker.instance(&mut store, "provider", &provider).unwrap().allow_shadowing(true);
    let user = module(&engine, "user");
    let mut ty = MemoryType::builder();
    ty.min(0);
    let small = Memory::new(&mut store, ty.build().unwrap()).unwrap();
    linker.define("provider", "memory", small.clone()).unwrap();
    let error = linker.instantiate(&mut store, &user).unwrap_err();
    assert_eq!(error.to_string(), "provider.memory: the item has another type");
    // The present size counts.
    small.grow(&mut store, 1).unwrap();
    assert!(linker.instantiate(&mut store, &user).is_ok());

    let other = Engine::default();
    assert!(matches!(Instance::new(&mut store, &module(&other, "plain"), &[]), Err(Error::Misused(_))));
    assert!(matches!(Instance::new(&mut store, &user, &[]), Err(Error::Link(_))));
    assert!(matches!(user.get_export("direct"), Some(ExternType::Func(_))));
}

#[test]
fn a_store_limits_its_stack() {
    let engine = Engine::default();
    let (mut store, linker, module) = (Store::new(&engine, ()), Linker::new(&engine), module(&engine, "plain"));
    let instance = linker.instantiate(&mut store, &module).unwrap();
    assert_eq!(call(&mut store, &instance, "deep", &[10_000]).unwrap(), 10_000);
    // The first call and 100 more of them.
    store.set_stack_limits(StackLimits { calls: 100, ..StackLimits::default() });
    assert_eq!(call(&mut store, &instance, "deep", &[100]).unwrap(), 100);
    assert_eq!(code(call(&mut store, &instance, "deep", &[101])), Some(TrapCode::StackOverflow));
    store.set_stack_limits(StackLimits { values: 1000, ..StackLimits::default() });
    assert_eq!(call(&mut store, &instance, "deep", &[100]).unwrap(), 100);
    assert_eq!(code(call(&mut store, &instance, "deep", &[1000])), Some(TrapCode::StackOverflow));
    store.set_stack_limits(StackLimits { values: 0, calls: 0 });
    assert_eq!(code(call(&mut store, &instance, "deep", &[0])), Some(TrapCode::StackOverflow));
    store.set_stack_limits(StackLimits { values: usize::MAX, calls: usize::MAX });
    assert_eq!(call(&mut store, &instance, "deep", &[10_000]).unwrap(), 10_000);
    assert_eq!(code(call(&mut store, &instance, "deep", &[100_000])), Some(TrapCode::StackOverflow));
}

// ---- profiles

#[test]
fn a_profile_of_two_instances() {
    let (mut store, _, user) = linked(&Engine::new(Config::default().profile(true)));
    let fuel = store.get_fuel().unwrap();
    assert_eq!(call(&mut store, &user, "indirect", &[0, 1]).unwrap(), 102);
    assert_eq!(call(&mut store, &user, "direct", &[5]).unwrap(), 112);
    let profile = store.profile();
    // The import of the user and the function of the provider that it is have the same number.
    let calls: Vec<_> = profile.functions.iter().map(|it| (it.function, it.calls)).collect();
    assert_eq!(calls, [(0, 3), (6, 1), (7, 1)]);
    let (stacks, taken): (Vec<_>, Vec<_>) = profile.stacks.into_iter().unzip();
    assert_eq!(stacks, [vec![7], vec![7, 0], vec![6], vec![6, 0], vec![6, 0, 0]]);
    assert_eq!(taken.iter().sum::<u64>(), fuel - store.get_fuel().unwrap());
    assert_eq!(taken[1], taken[4]);
}

// ---- calls that wait for fuel

/// What a call gives when so much fuel is given at a time, how often it is, and what is used of it.
fn refilled(store: &mut Store<()>, instance: &Instance, name: &str, arg: i32, fuel: u64) -> (Option<i32>, u32, u64) {
    let function = instance.get_func(&*store, name).unwrap();
    store.set_fuel(fuel).unwrap();
    let mut call = function.call_resumable(&mut *store, &[arg.into()]).unwrap();
    let mut refills = 0;
    loop {
        match call {
            ResumableCall::Finished(results) => {
                let used = fuel * u64::from(refills + 1) - store.get_fuel().unwrap();
                return (results.first().map(|it| i32::from(*it)), refills, used);
            }
            ResumableCall::OutOfFuel(waiting) => {
                refills += 1;
                let left = store.get_fuel().unwrap();
                store.set_fuel(left + fuel).unwrap();
                call = waiting.resume(&mut *store).unwrap();
            }
        }
    }
}

#[test]
fn a_call_goes_on_after_a_refill() {
    let engine = metered();
    let (mut store, provider, user) = linked(&engine);
    let plain = Linker::new(&engine).instantiate(&mut store, &module(&engine, "plain")).unwrap();
    for (instance, name, arg, result) in [
        (&plain, "sum", 1000, Some(500_500)),
        (&plain, "deep", 100, Some(100)),
        (&plain, "fill", 60_000, None),
        (&user, "depth", 100, Some(100)),
        (&user, "direct", 5, None),
        (&provider, "add_own", 5, None),
    ] {
        let (whole, refills, used) = refilled(&mut store, instance, name, arg, 1_000_000);
        assert!(refills == 0 && (result.is_none() || whole == result), "{name}: {whole:?}");
        for fuel in [7, 11, 100] {
            let (results, refills, same) = refilled(&mut store, instance, name, arg, fuel);
            assert!(result.is_none() || results == result, "{name}: {results:?}");
            assert_eq!((same, u64::from(refills)), (used, used.div_ceil(fuel) - 1), "{name}");
        }
    }
}

#[test]
fn calls_that_wait_at_once() {
    let engine = metered();
    let (mut store, linker, module) = (Store::new(&engine, ()), Linker::new(&engine), module(&engine, "plain"));
    let mut waiting = vec![];
    for count in 0..20 {
        let instance = linker.instantiate(&mut store, &module).unwrap();
        let deep = instance.get_typed_func::<i32, i32>(&store, "deep").unwrap();
        store.set_fuel(50).unwrap();
        match deep.call_resumable(&mut store, 500 + count).unwrap() {
            ResumableCall::OutOfFuel(call) => waiting.push(call),
            ResumableCall::Finished(_) => panic!("there was fuel enough"),
        }
    }
    // Each keeps its instance.
    assert_eq!(store.caps().bytes, Caps::default().bytes - (20 << 16));
    store.set_fuel(1_000_000).unwrap();
    for (count, call) in (0..10).zip(waiting.drain(10..).rev()) {
        assert!(matches!(call.resume(&mut store).unwrap(), ResumableCall::Finished(deep) if deep == 519 - count));
    }
    drop(waiting);
    assert_eq!(store.caps(), Caps::default());
}

#[test]
fn a_call_without_fuel_or_a_meter() {
    let engine = metered();
    let (mut store, _, user) = linked(&engine);
    store.set_fuel(3).unwrap();
    assert_eq!(code(call(&mut store, &user, "direct", &[5])), Some(TrapCode::OutOfFuel));
    // A trap isn't waited for.
    store.set_fuel(1000).unwrap();
    let traps = user.get_typed_func::<i32, i32>(&store, "traps").unwrap();
    assert_eq!(code(traps.call_resumable(&mut store, 1)), Some(TrapCode::UnreachableCodeReached));
    let mut store = Store::new(&Engine::default(), ());
    assert!(store.set_fuel(1).is_err() && store.get_fuel().is_err());
}

// ---- backtraces

/// The numbers of the functions that were open.
fn traced<T>(store: &Store<T>) -> Vec<u32> {
    store.backtrace().iter().map(|it| it.function).collect()
}

#[test]
fn which_functions_were_open() {
    let (mut store, _, user) = linked(&Engine::default());
    // In the provider the function that traps, and in the user the import, the function that was called.
    assert!(call(&mut store, &user, "traps", &[0]).is_err());
    assert_eq!(traced(&store), [3, 2, 10]);
    assert!(call(&mut store, &user, "direct", &[0]).is_ok());
    assert!(traced(&store).is_empty());
    // A function of the user and one of the provider, again and again.
    assert!(call(&mut store, &user, "depth", &[1_000_000]).is_err());
    let imports: Vec<_> = store.backtrace().iter().map(|it| it.module.imports().count()).collect();
    assert!(imports.len() == 100 && imports.contains(&0) && imports.contains(&6));

    // Through the host: the guest that has called the host, which has called the guest.
    let (mut store, instance) = caller();
    let count = instance.get_typed_func::<i32, i32>(&store, "count").unwrap();
    assert!(count.call(&mut store, 100).is_err());
    assert_eq!(traced(&store)[..4], [1, 4, 1, 4]);
    assert!(count.call(&mut store, 10).is_ok());
    assert!(traced(&store).is_empty());
}

// ---- what is given back

#[test]
fn a_dropped_instance_gives_back_its_share() {
    let engine = Engine::default();
    let (mut store, linker, module) = (Store::new(&engine, ()), Linker::new(&engine), module(&engine, "plain"));
    let caps = Caps { bytes: 1 << 16, elements: 0 };
    store.set_caps(caps);
    for _ in 0..10 {
        let instance = linker.instantiate(&mut store, &module).unwrap();
        assert_eq!(code(linker.instantiate(&mut store, &module)), Some(TrapCode::GrowthOperationLimited));
        // A function of it keeps it.
        let sum = instance.get_typed_func::<i32, i32>(&store, "sum").unwrap();
        drop(instance);
        assert_eq!(sum.call(&mut store, 4).unwrap(), 10);
        assert_eq!(store.caps().bytes, 0);
    }
    assert_eq!(store.caps(), caps);
}

#[test]
fn who_is_imported_from_is_kept() {
    let engine = Engine::default();
    let (mut store, provider, user) = linked(&engine);
    drop(provider);
    assert_eq!(call(&mut store, &user, "direct", &[5]).unwrap(), 111);
    let left = store.caps();
    drop(user);
    // The functions of the user are in a table that others might have, so both stay.
    assert_eq!(store.caps(), left);
}

#[test]
fn memories_of_the_host_are_given_back() {
    let engine = Engine::default();
    let mut store = Store::new(&engine, ());
    let before = store.caps();
    let mut ty = MemoryType::builder();
    ty.min(2);
    let memory = Memory::new(&mut store, ty.build().unwrap()).unwrap();
    assert_eq!(memory.grow(&mut store, 1).unwrap(), 2);
    assert_eq!(store.caps().bytes, before.bytes - (3 << 16));
    drop(memory);
    assert_eq!(store.caps(), before);
}
