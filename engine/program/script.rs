//! A mode of the program in which lines of text drive the engine, for programs that compare it with others.
//!
//! | Line | Reply, if all is well |
//! |---|---|
//! | `module FILE` | `ok:`; the module is instantiated and is the present one, and the one before is dropped |
//! | `name NAME` | `ok:`; the present module has this name from now on, and is kept |
//! | `use NAME` | `ok:`; the module of this name is the present one |
//! | `register NAME` | `ok:`; later modules can import what the present one exports, from a module of this name |
//! | `drop` | `ok:`; all modules are dropped, and what was registered |
//! | `invoke FUNCTION ARGS..` | `ok: V..`, the results |
//! | `get GLOBAL` | `ok: V` |
//! | `grow MEMORY PAGES` | `ok: N`, the pages that the memory had before |
//! | `write MEMORY PLACE FILE` | `ok:`; the bytes of the file stand in this memory from this place on |
//! | `digest` | `ok:` and a line that tells contents apart |
//! | `fuel N` | `ok:`; from now on fuel is charged, and so much is there; the first such line drops all modules |
//! | `left` | `ok: N`, the fuel that is left |
//! | `strict` | `ok:`; from now on a module with floats is refused |
//!
//! A name may have `%` and two hexadecimal digits in place of a byte. A line has one reply, after what the guest prints.
//! Other replies than `ok:` are `malformed:`, `invalid:`, `unsupported:` (what the engine lacks, or beyond a limit; of a
//! call, that it came to an instruction which computes with floats), `unlinkable:`, `trap:`, and `error:` for a line that
//! makes no sense; after one of them the module is the one before.

use crate::host::Host;
use crate::wasi::Given;
use crate::{spectest, values};
use engine::library::{RawRef, TypedRawRef, V128, ValType};
use engine::{
    Caps, Config, Contents, Engine, Error, FloatInstruction, Instance, Linker, Memory, Module, Refusal, RefusalKind,
    Store, Val,
};
use std::collections::HashMap;
use std::fmt::Display;
use std::fs;
use std::io::{BufRead, Write};

/// A script while it runs.
pub struct Script {
    caps: Caps,
    store: Store<Host>,
    /// What registered modules export.
    linker: Linker<Host>,
    made: Option<Made>,
    named: HashMap<String, Made>,
    is_strict: bool,
}

type Made = (Module, Instance);

fn engine(is_metered: bool) -> Engine {
    Engine::new(Config::default().consume_fuel(is_metered))
}

impl Script {
    /// A script whose modules share these caps. No fuel is charged.
    pub fn new(caps: Caps) -> Script {
        Self::with(&engine(false), caps, false)
    }

    fn with(engine: &Engine, caps: Caps, is_strict: bool) -> Script {
        let mut store = Store::new(engine, Host::new(Given::default()));
        store.set_caps(caps);
        let linker = Linker::new(engine);
        Script { caps, store, linker, made: None, named: HashMap::new(), is_strict }
    }

    /// Replies to each line of the input.
    pub fn run(mut self, input: impl BufRead, mut output: impl Write) -> std::io::Result<()> {
        for line in input.lines() {
            let reply = self.reply(&line?).unwrap_or_else(|reply| reply);
            self.store.data_mut().output.flush()?;
            writeln!(output, "{reply}")?;
            output.flush()?;
        }
        Ok(())
    }

    /// The reply to a line.
    pub fn reply(&mut self, line: &str) -> Result<String, String> {
        let (word, rest) = line.trim().split_once(' ').unwrap_or((line.trim(), ""));
        match word {
            "module" => self.module(rest),
            "name" => {
                self.named.insert(rest.into(), self.made()?.clone());
                Ok("ok:".into())
            }
            "drop" => {
                *self = Self::with(&self.store.engine().clone(), self.caps, self.is_strict);
                Ok("ok:".into())
            }
            "use" => {
                let made = self.named.get(rest).ok_or(format!("error: no module has the name {rest}"))?;
                self.made = Some(made.clone());
                Ok("ok:".into())
            }
            "register" => {
                let (_, instance) = self.made()?.clone();
                self.linker.allow_shadowing(true).instance(&mut self.store, &name(rest)?, &instance).map_err(failed)?;
                Ok("ok:".into())
            }
            "invoke" => self.invoke(rest),
            "get" => {
                let (_, instance) = self.made()?;
                let global = instance.get_global(&self.store, &name(rest)?);
                let value = global.ok_or("error: there is no exported global of this name")?.get(&self.store);
                Ok(format!("ok: {}", values::print(values::numbered(&self.store, value))))
            }
            "grow" => self.grow(rest),
            "write" => self.write(rest),
            "digest" => Ok(format!("ok: {}", digest(&self.made()?.1, &self.store))),
            "fuel" => {
                let fuel = rest.parse().or(Err("error: fuel is a number"))?;
                if !self.store.engine().is_metered() {
                    *self = Self::with(&engine(true), self.caps, self.is_strict);
                }
                self.store.set_fuel(fuel).map_err(error)?;
                Ok("ok:".into())
            }
            "left" => Ok(format!("ok: {}", self.store.get_fuel().map_err(error)?)),
            "strict" => {
                self.is_strict = true;
                Ok("ok:".into())
            }
            _ => Err(format!("error: {word} is no command")),
        }
    }

    fn made(&self) -> Result<&Made, String> {
        self.made.as_ref().ok_or("error: there is no module".into())
    }

    fn module(&mut self, file: &str) -> Result<String, String> {
        let bytes = read(file)?;
        let engine = self.store.engine().clone();
        let new = if self.is_strict { Module::new_strict } else { Module::new };
        let module = new(&engine, &bytes).map_err(refused)?;
        let mut linker = self.linker.clone();
        spectest::define(&mut linker, &mut self.store, &module).map_err(failed)?;
        let instance = linker.instantiate(&mut self.store, &module).map_err(failed)?;
        self.made = Some((module, instance));
        Ok("ok:".into())
    }

    fn memory(&self, text: &str) -> Result<Memory, String> {
        let memory = self.made()?.1.get_memory(&self.store, &name(text)?);
        memory.ok_or("error: there is no exported memory of this name".into())
    }

    fn grow(&mut self, rest: &str) -> Result<String, String> {
        let (memory, pages) = rest.split_once(' ').ok_or("error: grow takes a memory and pages")?;
        let pages = pages.parse().or(Err("error: pages are a number"))?;
        Ok(format!("ok: {}", self.memory(memory)?.grow(&mut self.store, pages).map_err(failed)?))
    }

    fn write(&mut self, rest: &str) -> Result<String, String> {
        let words: Vec<_> = rest.splitn(3, ' ').collect();
        let [memory, place, file] = words[..] else {
            return Err("error: write takes a memory, a place and a file".into());
        };
        let place = place.parse().or(Err("error: a place is a number"))?;
        self.memory(memory)?.write(&mut self.store, place, &read(file)?).map_err(failed)?;
        Ok("ok:".into())
    }

    fn invoke(&mut self, rest: &str) -> Result<String, String> {
        let (module, instance) = self.made.as_ref().ok_or("error: there is no module")?;
        let mut words = rest.split_whitespace();
        let function = name(words.next().unwrap_or(""))?;
        let ty = values::type_of(module, &function).map_err(error)?;
        let args = values::arguments(&ty, &function, words).map_err(error)?;
        let args = args.into_iter().map(|it| values::referring(instance, &mut self.store, it));
        let args: Vec<_> = args.collect::<Option<_>>().ok_or("error: there is no function of this number")?;
        let function = instance.get_func(&self.store, &function).ok_or("error: there is no such function")?;
        let results = function.call(&mut self.store, &args).map_err(failed)?;
        let results = results.into_iter().map(|it| values::numbered(&self.store, it));
        Ok(results.fold("ok:".into(), |line, it| line + " " + &values::print(it)))
    }
}

fn read(file: &str) -> Result<Vec<u8>, String> {
    fs::read(file).map_err(|it| format!("error: {file} can't be read: {it}"))
}

fn error(what: impl Display) -> String {
    format!("error: {what}")
}

fn refused(refusal: Refusal) -> String {
    let kind = match refusal.kind {
        RefusalKind::Malformed => "malformed",
        RefusalKind::Invalid => "invalid",
        RefusalKind::Unsupported => "unsupported",
    };
    format!("{kind}: {refusal}")
}

fn failed(error: Error) -> String {
    match error {
        Error::Module(refusal) => refused(refusal),
        Error::Link(what) => format!("unlinkable: {what}"),
        Error::Misused(what) => format!("error: {what}"),
        Error::Trap(trap) => match trap.downcast_ref::<FloatInstruction>() {
            Some(_) => format!("unsupported: {trap}"),
            None => format!("trap: {trap}"),
        },
    }
}

/// A name with `%` and two digits in place of some bytes.
fn name(text: &str) -> Result<String, String> {
    let mut bytes = vec![];
    let mut rest = text.as_bytes();
    while let Some((first, after)) = rest.split_first() {
        let digits = after.get(..2).and_then(|it| str::from_utf8(it).ok()).filter(|_| *first == b'%');
        let byte = digits.and_then(|it| u8::from_str_radix(it, 16).ok());
        bytes.push(byte.unwrap_or(*first));
        rest = if byte.is_some() { &after[2..] } else { after };
    }
    String::from_utf8(bytes).or(Err("error: a name isn't UTF-8".into()))
}

/// One line that tells contents apart: of each memory its pages, of each table its elements, of the globals their
/// number, and of each of these the FNV-1a of 64 bits of its bytes. An element has 4 bytes, 0 or the number of its
/// function and 1; a global has 16. The least byte comes first.
fn digest(instance: &Instance, store: &Store<Host>) -> String {
    let Contents { memories, tables, globals } = instance.contents(store);
    let numbered = |value| values::numbered(store, value);
    let mut words = vec![];
    for memory in memories {
        words.push(format!("memory {} {:016x}", memory.size(), fnv(memory.data().iter().copied())));
    }
    for table in tables {
        let element = |it: TypedRawRef| u32::from(RawRef::from(numbered(it.into()).raw()));
        let elements = (0..table.size()).map(|i| table.get(i).map_or(0, element));
        words.push(format!("table {} {:016x}", table.size(), fnv(elements.flat_map(u32::to_le_bytes))));
    }
    let bytes = globals.iter().map(|it| bits(numbered(it.get()))).flat_map(u128::to_le_bytes);
    words.push(format!("globals {} {:016x}", globals.len(), fnv(bytes)));
    words.join(" ")
}

/// The bits of a value, zero above the width of its type.
fn bits(value: Val) -> u128 {
    match value.ty() {
        ValType::V128 => V128::from(value.raw()).as_u128(),
        ValType::I64 | ValType::F64 => u64::from(value.raw()).into(),
        _ => u32::from(value.raw()).into(),
    }
}

fn fnv(bytes: impl Iterator<Item = u8>) -> u64 {
    bytes.fold(0xcbf2_9ce4_8422_2325, |hash, byte| (hash ^ u64::from(byte)).wrapping_mul(0x100_0000_01b3))
}

#[cfg(test)]
mod tests {
    use super::*;

    #[test]
    fn names() {
        assert_eq!(name("a%20b%c3%A9%"), Ok("a b\u{e9}%".into()));
        assert!(name("%c3").is_err());
    }
}
