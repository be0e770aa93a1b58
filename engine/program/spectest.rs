//! The host of WebAssembly's own tests. The names are the same in the modules `host` and `spectest`.
//!
//! | Name | What it is |
//! |---|---|
//! | `print`, `print_i32`, `print_i64` | functions that print a line: nothing, an `i32`, an `i64` |
//! | `print_f32`, `print_f64`, `print_i32_f32`, `print_f64_f64` | the same of these types; a float is printed by its bits |
//! | `print_bytes` | a function of a place and a length, both `i32`: prints these bytes of the first memory |
//! | `mix` | a function of an `i32` and an `i64`, with an `i64` and an `i32` as results |
//! | `refuse` | a function that traps if its argument, an `i32`, is a multiple of 8 |
//! | `memory` | a memory of 1 page, which grows to 2 |
//! | `table`, `table64` | tables of 10 functions, which grow to 20, with indices of 32 and of 64 bits |
//! | `global_i32`, `global_i64`, `global_f32`, `global_f64` | constants, 666 and 666.6 |
//! | `counter` | a mutable `i64`, which begins at 0 |
//!
//! Each instance has a memory, tables and globals of its own.

use crate::host::{Host, Unwritten};
use engine::library::{GlobalType, MemoryType, Mutability, RawRef, RefType, TableType, TrapCode, ValType};
use engine::{AsContextMut, Caller, Error, Extern, Global, Linker, Memory, Module, Store, Table, Val};
use std::fmt;

/// Defines what a module imports of this host.
pub fn define(linker: &mut Linker<Host>, store: &mut Store<Host>, module: &Module) -> Result<(), Error> {
    linker.allow_shadowing(true);
    for import in module.imports().filter(|it| matches!(it.module, "host" | "spectest")) {
        let (module, name) = (import.module, import.name);
        match name {
            "print" => drop(linker.func_wrap(module, name, |it: Caller<'_, Host>| print(it, format_args!("\n")))?),
            "print_i32" => drop(
                linker
                    .func_wrap(module, name, |it: Caller<'_, Host>, value: i32| print(it, format_args!("{value}\n")))?,
            ),
            "print_i64" => drop(
                linker
                    .func_wrap(module, name, |it: Caller<'_, Host>, value: i64| print(it, format_args!("{value}\n")))?,
            ),
            "print_f32" => drop(linker.func_wrap(module, name, print_f32)?),
            "print_f64" => drop(linker.func_wrap(module, name, print_f64)?),
            "print_i32_f32" => drop(linker.func_wrap(module, name, print_i32_f32)?),
            "print_f64_f64" => drop(linker.func_wrap(module, name, print_f64_f64)?),
            "print_bytes" => drop(linker.func_wrap(module, name, print_bytes)?),
            "mix" => drop(linker.func_wrap(module, name, mix)?),
            "refuse" => drop(linker.func_wrap(module, name, refuse)?),
            _ => {
                if let Some(item) = item(&mut *store, name)? {
                    linker.define(module, name, item)?;
                }
            }
        }
    }
    Ok(())
}

fn print(mut caller: Caller<'_, Host>, text: fmt::Arguments) -> Result<(), Error> {
    caller.data_mut().output.write_fmt(text).map_err(|it| Error::host(Unwritten(it)))
}

fn print_f32(caller: Caller<'_, Host>, value: f32) -> Result<(), Error> {
    print(caller, format_args!("{:#010x}\n", value.to_bits()))
}

fn print_f64(caller: Caller<'_, Host>, value: f64) -> Result<(), Error> {
    print(caller, format_args!("{:#018x}\n", value.to_bits()))
}

fn print_i32_f32(caller: Caller<'_, Host>, left: i32, right: f32) -> Result<(), Error> {
    print(caller, format_args!("{left} {:#010x}\n", right.to_bits()))
}

fn print_f64_f64(caller: Caller<'_, Host>, left: f64, right: f64) -> Result<(), Error> {
    print(caller, format_args!("{:#018x} {:#018x}\n", left.to_bits(), right.to_bits()))
}

fn print_bytes(mut caller: Caller<'_, Host>, place: u32, len: u32) -> Result<(), Error> {
    let contents = caller.instance().contents(&caller);
    let bytes = contents.memories.first().and_then(|it| it.data().get(place as usize..)?.get(..len as usize));
    let bytes = bytes.ok_or(TrapCode::MemoryOutOfBounds)?.to_vec();
    caller.charge_bytes(len.into())?;
    caller.data_mut().output.write_all(&bytes).map_err(|it| Error::host(Unwritten(it)))
}

fn mix(a: i32, b: i64) -> (i64, i32) {
    (b.rotate_left(7) ^ i64::from(a), a.wrapping_mul(3))
}

fn refuse(value: i32) -> Result<(), Error> {
    if value % 8 == 0 { Err(TrapCode::UnreachableCodeReached.into()) } else { Ok(()) }
}

fn item(context: impl AsContextMut, name: &str) -> Result<Option<Extern>, Error> {
    let table =
        |context, ty| Table::new(context, ty, Val::new(ValType::FuncRef, RawRef::null().into())).map(Extern::from);
    let global = |context, value: Val, mutability| {
        Global::new(context, GlobalType::new(value.ty(), mutability), value).map(Extern::from)
    };
    Ok(Some(match name {
        "memory" => {
            let mut ty = MemoryType::builder();
            ty.min(1).max(Some(2));
            Memory::new(context, ty.build().map_err(|it| Error::new(it.to_string()))?)?.into()
        }
        "table" => table(context, TableType::new(RefType::Func, 10, Some(20)))?,
        "table64" => table(context, TableType::new64(RefType::Func, 10, Some(20)))?,
        "global_i32" => global(context, 666_i32.into(), Mutability::Const)?,
        "global_i64" => global(context, 666_i64.into(), Mutability::Const)?,
        "global_f32" => global(context, Val::new(ValType::F32, 0x4426_a666_u32.into()), Mutability::Const)?,
        "global_f64" => global(context, Val::new(ValType::F64, 0x4084_d4cc_cccc_cccd_u64.into()), Mutability::Const)?,
        "counter" => global(context, 0_i64.into(), Mutability::Var)?,
        _ => return Ok(None),
    }))
}
