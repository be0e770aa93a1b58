//! Which calls of guests ask for memory, once their instance is made and the engine has a stack: those that grow a memory
//! or a table, and that end by an error.

use engine::{Config, Engine, Func, Instance, Linker, Module, Store, Val};
use std::alloc::{GlobalAlloc, Layout, System};
use std::cell::Cell;
use std::collections::HashMap;

thread_local! {
    /// How many requests for memory this thread has made.
    static REQUESTS: Cell<u64> = const { Cell::new(0) };
}

struct Counting;

fn count() {
    REQUESTS.set(REQUESTS.get() + 1);
}

// SAFETY: what it gives is the system's.
unsafe impl GlobalAlloc for Counting {
    unsafe fn alloc(&self, layout: Layout) -> *mut u8 {
        count();
        unsafe { System.alloc(layout) }
    }
    unsafe fn alloc_zeroed(&self, layout: Layout) -> *mut u8 {
        count();
        unsafe { System.alloc_zeroed(layout) }
    }
    unsafe fn realloc(&self, at: *mut u8, layout: Layout, size: usize) -> *mut u8 {
        count();
        unsafe { System.realloc(at, layout, size) }
    }
    unsafe fn dealloc(&self, at: *mut u8, layout: Layout) {
        unsafe { System.dealloc(at, layout) }
    }
}

#[global_allocator]
static ALLOCATOR: Counting = Counting;

fn folder() -> &'static str {
    concat!(env!("CARGO_MANIFEST_DIR"), "/guests")
}

fn module(engine: &Engine, name: &str) -> Module {
    Module::new(engine, &std::fs::read(format!("{}/{name}.wasm", folder())).unwrap()).unwrap()
}

/// An instance in a store of its own, with all fuel. There is none of a module that imports something.
fn made(engine: &Engine, module: &Module) -> Option<(Store<()>, Instance)> {
    let mut store = Store::new(engine, ());
    store.set_fuel(u64::MAX).unwrap();
    let instance = Linker::new(engine).instantiate(&mut store, module).ok()?;
    Some((store, instance))
}

/// A function of an instance, and arguments of its types.
fn prepared(store: &Store<()>, instance: &Instance, name: &str, words: &[&str]) -> (Func, Vec<Val>) {
    let func = instance.get_func(store, name).unwrap();
    let numbers = words.iter().map(|word| word.parse::<i64>().unwrap());
    let args = func.ty(store).params().iter().zip(numbers).map(|(ty, number)| Val::new(*ty, number.into())).collect();
    (func, args)
}

/// How many bytes the memories of an instance have and how many elements its tables, together.
fn size(store: &Store<()>, instance: &Instance) -> u64 {
    let contents = instance.contents(store);
    let bytes: usize = contents.memories.iter().map(|memory| memory.data_size()).sum();
    bytes as u64 + contents.tables.iter().map(|table| table.size()).sum::<u64>()
}

/// What a call did.
struct Done {
    /// How many requests for memory it made, besides the list of its results.
    requests: u64,
    has_grown: bool,
    has_returned: bool,
}

/// A call of a function of a new instance.
fn done(engine: &Engine, module: &Module, name: &str, words: &[&str]) -> Option<Done> {
    let (mut store, instance) = made(engine, module)?;
    let (func, args) = prepared(&store, &instance, name, words);
    let size_before = size(&store, &instance);
    let before = REQUESTS.get();
    let ended = func.call(&mut store, &args);
    let requests = REQUESTS.get() - before;
    let lists = ended.as_ref().map_or(0, |results| u64::from(!results.is_empty()));
    let has_grown = size(&store, &instance) > size_before;
    Some(Done { requests: requests - lists, has_grown, has_returned: ended.is_ok() })
}

/// A guest that returns asks for memory only where a memory or a table grows. An error has a list of the open functions.
#[test]
fn guests() {
    let engine = Engine::new(Config::default().consume_fuel(true));
    let list = std::fs::read_to_string(format!("{}/list", folder())).unwrap();
    let mut modules = HashMap::new();
    let mut counts = [0; 3];
    for row in list.lines().filter(|row| !row.starts_with('#')) {
        let cells: Vec<&str> = row.split('\t').collect();
        let module = modules.entry(cells[0]).or_insert_with(|| module(&engine, cells[0]));
        let words: Vec<&str> = cells[1].split(' ').collect();
        // The first call makes a stack, which the engine keeps, with room for as many frames as the call needs.
        done(&engine, module, words[0], &words[1..]);
        let Some(Done { requests, has_grown, has_returned }) = done(&engine, module, words[0], &words[1..]) else {
            continue;
        };
        let kind = if !has_returned { 2 } else { usize::from(has_grown) };
        counts[kind] += 1;
        // No guest of the list grows more than four times.
        let most = [0, 4, 2][kind];
        assert!(requests <= most && (requests > 0) == (most > 0), "{}: {requests} requests", cells[1]);
    }
    println!("{counts:?} guests that don't grow, that grow, and that end by an error");
    assert!(counts.iter().all(|count| *count > 15), "{counts:?}");
}

/// A thousand calls of an instance that was called before ask for nothing, also where they are given fuel.
#[test]
fn a_thousand_calls() {
    let engine = Engine::new(Config::default().consume_fuel(true));
    let (mut store, instance) = made(&engine, &module(&engine, "wide")).unwrap();
    let run = instance.get_typed_func::<i32, i64>(&store, "run").unwrap();
    let first = run.call(&mut store, 7).unwrap();
    let before = REQUESTS.get();
    for _ in 0..1000 {
        store.set_fuel(1000).unwrap();
        assert!(run.call(&mut store, 7).is_ok_and(|result| result == first));
    }
    assert_eq!(REQUESTS.get(), before);
}

/// Of a function, how many requests a hundred calls make after the first one.
fn of_a_hundred(store: &mut Store<()>, instance: &Instance, name: &str) -> u64 {
    let function = instance.get_typed_func::<i32, i32>(&*store, name).unwrap();
    function.call(&mut *store, 3).unwrap();
    let before = REQUESTS.get();
    assert!((0..100).all(|_| function.call(&mut *store, 3).is_ok()));
    REQUESTS.get() - before
}

/// A function of the host, by a closure, asks for nothing.
#[test]
fn functions_of_the_host() {
    let engine = Engine::default();
    let (mut linker, mut store) = (Linker::new(&engine), Store::new(&engine, ()));
    linker.func_wrap("host", "shout", |_: i32, len: i32| len).unwrap();
    linker.func_wrap("host", "again", |count: i32| count).unwrap();
    let instance = linker.instantiate(&mut store, &module(&engine, "../tests/hosts/caller")).unwrap();
    assert_eq!(of_a_hundred(&mut store, &instance, "count"), 0);
}

/// A call that goes on in another instance asks for nothing: the engine keeps the list of calls that wait with the stack.
#[test]
fn calls_between_instances() {
    let engine = Engine::default();
    let (mut linker, mut store) = (Linker::new(&engine), Store::new(&engine, ()));
    let provider = linker.instantiate(&mut store, &module(&engine, "../tests/hosts/provider")).unwrap();
    linker.instance(&mut store, "provider", &provider).unwrap();
    let user = linker.instantiate(&mut store, &module(&engine, "../tests/hosts/user")).unwrap();
    assert_eq!(of_a_hundred(&mut store, &provider, "add_own"), 0);
    assert_eq!(of_a_hundred(&mut store, &user, "direct"), 0);
    assert_eq!(of_a_hundred(&mut store, &user, "depth"), 0);
}
