//! A host in a package of its own, in which the engine is compiled in several codegen units. It executes each handler, and
//! looks whether one takes stack. Then it runs the guests on a thread with a small stack, which would end if an instruction
//! took some of it and didn't give it back: they execute millions. It prints the number of calls. Its status isn't 0 if a
//! handler takes stack, or if a call gives another result than `guests/list` says.

use engine::{Config, Engine, Error, Linker, Module, Store, Val, ValType};
use std::error::Error as AnyError;
use std::{fs, thread};

const STACK: usize = 1 << 18;
const FOLDER: &str = concat!(env!("CARGO_MANIFEST_DIR"), "/../../guests");

/// How many functions of a module are called for the first time in one call.
const FIRST_CALLS: u32 = 20_000;

type Outcome<T> = Result<T, Box<dyn AnyError + Send + Sync>>;

/// The result of a function that takes one number, as `guests/list` has it.
fn reply(engine: &Engine, wasm: &[u8], function: &str, argument: i64) -> Result<String, Error> {
    let module = Module::new(engine, wasm)?;
    let mut store = Store::new(engine, ());
    if engine.is_metered() {
        store.set_fuel(u64::MAX)?;
    }
    let instance = Linker::new(engine).instantiate(&mut store, &module)?;
    let function = instance.get_func(&store, function).ok_or(Error::new("there is no such function"))?;
    let argument = match function.ty(&store).params() {
        [ValType::I32] => Val::from(argument as i32),
        _ => argument.into(),
    };
    let results = function.call(&mut store, &[argument])?;
    Ok(results.first().map_or(String::new(), |it| match it.ty() {
        ValType::I32 => i32::from(*it).to_string(),
        _ => i64::from(*it).to_string(),
    }))
}

/// The calls of the list that take one number and return, of modules that import nothing. It gives their number.
fn guests(engine: &Engine) -> Outcome<usize> {
    let list = fs::read_to_string(format!("{FOLDER}/list"))?;
    let mut count = 0;
    for line in list.lines() {
        let [module, call, wanted, ..] = line.split('\t').collect::<Vec<_>>()[..] else { continue };
        let [function, argument] = call.split(' ').collect::<Vec<_>>()[..] else { continue };
        let Some(wanted) = wanted.strip_prefix("ok:").filter(|_| module != "imports") else { continue };
        let found = reply(engine, &fs::read(format!("{FOLDER}/{module}.wasm"))?, function, argument.parse()?)?;
        if found != wanted.trim() {
            return Err(format!("{module} {call}: {found}, and not{wanted}").into());
        }
        count += 1;
    }
    Ok(count)
}

fn leb(number: u32) -> Vec<u8> {
    if number < 0x80 { vec![number as u8] } else { [vec![number as u8 | 0x80], leb(number >> 7)].concat() }
}

fn section(id: u8, content: &[u8]) -> Vec<u8> {
    [&[id][..], &leb(content.len() as u32), content].concat()
}

/// A module whose function calls each of the other ones, which do nothing, and gives its argument.
fn calls_all_others() -> Vec<u8> {
    let calls = (1..=FIRST_CALLS).flat_map(|it| [vec![0x10], leb(it)].concat());
    let body: Vec<u8> = [0].into_iter().chain(calls).chain([0x20, 0, 0x0b]).collect();
    let (count, others) = (leb(FIRST_CALLS + 1), FIRST_CALLS as usize);
    [
        b"\0asm\x01\0\0\0".to_vec(),
        section(1, &[2, 0x60, 1, 0x7f, 1, 0x7f, 0x60, 0, 0]),
        section(3, &[count.clone(), vec![0], vec![1; others]].concat()),
        section(7, b"\x01\x03run\0\0"),
        section(10, &[count, leb(body.len() as u32), body, [2, 0, 0x0b].repeat(others)].concat()),
    ]
    .concat()
}

fn run() -> Outcome<usize> {
    let (found, mut count) = engine::taking_stack();
    if !found.is_empty() || count < 1000 {
        return Err(format!("of {count} handlers these take stack: {found:?}").into());
    }
    count = 0;
    for is_metered in [false, true] {
        let engine = Engine::new(Config::default().consume_fuel(is_metered));
        count += guests(&engine)?;
        if reply(&engine, &calls_all_others(), "run", 7)? != "7" {
            return Err("the function that calls all others gives another result".into());
        }
        count += 1;
    }
    if count < 60 { Err(format!("only {count} calls").into()) } else { Ok(count) }
}

fn main() -> Outcome<()> {
    let running = thread::Builder::new().stack_size(STACK).spawn(run)?;
    println!("{} calls", running.join().or(Err("the thread panicked"))??);
    Ok(())
}
