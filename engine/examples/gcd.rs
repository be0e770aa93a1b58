//! A host that calls a function of a module.
use engine::{Engine, Error, Linker, Module, Store};

pub fn main() -> Result<(), Error> {
    let engine = Engine::default();
    let module = Module::new(&engine, include_bytes!("gcd.wasm"))?;
    let mut store = Store::new(&engine, ());
    let instance = Linker::new(&engine).instantiate(&mut store, &module)?;
    let gcd = instance.get_typed_func::<(u32, u32), u32>(&store, "gcd")?;
    println!("{}", gcd.call(&mut store, (462, 1071))?);
    Ok(())
}
