//! Calls that can go on after they have ended out of fuel.

use crate::call::{Begun, Calls};
use crate::context::AsContextMut;
use crate::error::Error;
use crate::func::{Func, TypedFunc};
use crate::handle::Owner;
use crate::library::{RawVal, TrapCode};
use crate::stack::{Activation, Frame, Lent, SLOTS};
use crate::store::{Inner, Store};
use crate::values::{Val, WasmValues};
use std::fmt;
use std::sync::Arc;

/// What a call that can be resumed has come to: results, or a lack of fuel.
pub enum ResumableCall<R> {
    /// It has ended with these results.
    Finished(R),
    /// It waits for fuel.
    OutOfFuel(OutOfFuel<R>),
}

/// A call that waits for fuel.
///
/// It keeps the values of its frames and what it needs of its store, but no stack, so that many can wait. Meanwhile
/// other calls can run in the store, in the same instance too. If it is dropped, it doesn't go on.
pub struct OutOfFuel<R> {
    owner: Arc<Owner>,
    saved: Saved,
    read: Read<R>,
}

/// What was on the stack.
struct Saved {
    /// Where it began there.
    begun: Begun,
    values: Vec<RawVal>,
    frames: Vec<Frame>,
    away: Vec<Activation>,
    at: Activation,
}

/// Reads results.
type Read<R> = Box<dyn FnOnce(&[RawVal]) -> R + Send>;

impl Func {
    /// Calls it as [`Func::call`] does, but a guest's lack of fuel is no error.
    ///
    /// # Errors
    ///
    /// If the arguments aren't of its type, and for the reasons of [`TypedFunc::call_resumable`].
    pub fn call_resumable(
        &self,
        mut context: impl AsContextMut,
        args: &[Val],
    ) -> Result<ResumableCall<Vec<Val>>, Error> {
        let ty = self.checked(&mut context, args)?;
        let write = |values: &mut [RawVal]| Self::write(args, values);
        let read = Box::new(move |values: &[RawVal]| Self::read(&ty, values));
        begin(context.as_context_mut().store, self, write, read)
    }
}

impl<P: WasmValues, R: WasmValues + 'static> TypedFunc<P, R> {
    /// Calls it as [`TypedFunc::call`] does, but a guest's lack of fuel is no error.
    ///
    /// # Errors
    ///
    /// If the guest stops for another reason. One of them is a function of the host that returns an error, also
    /// [`TrapCode::OutOfFuel`], which [`Caller::charge_bytes`](crate::Caller::charge_bytes) and a call of a guest
    /// without fuel give it: then the call is over. A function that shouldn't end it sees to the fuel itself
    /// ([`Caller::set_fuel`](crate::Caller::set_fuel)).
    ///
    /// # Examples
    ///
    /// ```
    /// use engine::{Config, Engine, Linker, Module, ResumableCall, Store};
    ///
    /// let engine = Engine::new(Config::default().consume_fuel(true));
    /// # let wasm = engine::guests::PLAIN;
    /// let module = Module::new(&engine, wasm)?;
    /// let mut store = Store::new(&engine, ());
    /// store.set_fuel(100)?;
    /// let instance = Linker::new(&engine).instantiate(&mut store, &module)?;
    /// let sum = instance.get_typed_func::<i32, i32>(&store, "sum")?;
    /// let mut call = sum.call_resumable(&mut store, 1000)?;
    /// let mut refills = 0;
    /// while let ResumableCall::OutOfFuel(waiting) = call {
    ///     refills += 1;
    ///     store.set_fuel(100)?;
    ///     call = waiting.resume(&mut store)?;
    /// }
    /// let ResumableCall::Finished(sum) = call else { unreachable!() };
    /// assert_eq!(sum, 500_500);
    /// assert!(refills > 10);
    /// # Ok::<(), engine::Error>(())
    /// ```
    pub fn call_resumable(&self, mut context: impl AsContextMut, params: P) -> Result<ResumableCall<R>, Error> {
        let store = context.as_context_mut().store;
        begin(store, self.func(), |values| params.write(values), Box::new(R::read))
    }
}

fn begin<T, R>(
    store: &mut Store<T>,
    func: &Func,
    write: impl FnOnce(&mut [RawVal]),
    read: Read<R>,
) -> Result<ResumableCall<R>, Error> {
    let (instance, _) = store.inner.instance(&func.owner);
    store.collect();
    let begun = store.inner.begin()?;
    write(store.inner.values(begun.base));
    let calls = store.inner.enter(instance, func.function, begun.base).map(|at| Calls::new(at, begun));
    finish(store, func.owner.clone(), begun, calls, read)
}

/// Runs calls to their end, or until fuel is missing.
fn finish<T, R>(
    store: &mut Store<T>,
    owner: Arc<Owner>,
    begun: Begun,
    calls: Result<Calls, TrapCode>,
    read: Read<R>,
) -> Result<ResumableCall<R>, Error> {
    let run = |mut calls: Calls| match store.run(&mut calls) {
        Ok(()) => Ok(ResumableCall::Finished(read(store.inner.values(begun.base)))),
        Err(_) if calls.is_out_of_fuel => {
            let saved = saved(&mut store.inner, calls.at, begun);
            Ok(ResumableCall::OutOfFuel(OutOfFuel { owner, saved, read }))
        }
        Err(error) => Err(error),
    };
    let ended = calls.map_err(Error::from).and_then(run);
    store.inner.end(begun);
    ended
}

/// What calls have on the stack.
fn saved(inner: &mut Inner, at: Activation, begun: Begun) -> Saved {
    let Frame { function, base: last, .. } = at.frame;
    let module = &inner.instances[at.instance].module;
    let top = last + module.code[function].body(module.config).slots;
    let Lent { values, frames, away, .. } = inner.stack();
    let (frames, away) = (frames[begun.floor..].to_vec(), away[begun.away..].to_vec());
    Saved { begun, values: values[begun.base..top].to_vec(), frames, away, at }
}

impl Saved {
    /// Puts it on a stack that has room for it, from another place on: its calls there.
    fn put(self, Lent { values, frames, away, .. }: Lent, to: Begun) -> Calls {
        let from = self.begun;
        let frame = |frame: Frame| Frame { base: frame.base - from.base + to.base, ..frame };
        let moved =
            |it: Activation| Activation { floor: it.floor - from.floor + to.floor, frame: frame(it.frame), ..it };
        values[to.base..][..self.values.len()].copy_from_slice(&self.values);
        frames.extend(self.frames.into_iter().map(frame));
        away.extend(self.away.into_iter().map(moved));
        Calls::new(moved(self.at), to)
    }
}

impl<R> OutOfFuel<R> {
    /// Goes on where fuel was missing. The store should have been given fuel; a lack of it is no error here either.
    ///
    /// # Errors
    ///
    /// If the guest stops for another reason, as [`TypedFunc::call_resumable`] says.
    pub fn resume(self, mut context: impl AsContextMut) -> Result<ResumableCall<R>, Error> {
        let store = context.as_context_mut().store;
        store.inner.check(&self.owner);
        store.collect();
        let begun = store.inner.begin()?;
        let stack = store.inner.stack();
        let top = begun.base + self.saved.values.len();
        let count = (begun.floor + self.saved.frames.len()).max(begun.away + self.saved.away.len());
        if top + SLOTS > stack.values.len() || count > stack.calls {
            store.inner.end(begun);
            return Err(TrapCode::StackOverflow.into());
        }
        let calls = self.saved.put(stack, begun);
        finish(store, self.owner, begun, Ok(calls), self.read)
    }
}

impl<R> fmt::Debug for OutOfFuel<R> {
    fn fmt(&self, f: &mut fmt::Formatter<'_>) -> fmt::Result {
        let Saved { frames, values, .. } = &self.saved;
        write!(f, "OutOfFuel({} frames, {} values)", frames.len() + 1, values.len())
    }
}

impl<R: fmt::Debug> fmt::Debug for ResumableCall<R> {
    fn fmt(&self, f: &mut fmt::Formatter<'_>) -> fmt::Result {
        match self {
            Self::Finished(results) => write!(f, "Finished({results:?})"),
            Self::OutOfFuel(waiting) => waiting.fmt(f),
        }
    }
}
