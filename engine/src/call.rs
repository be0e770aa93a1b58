//! Calls: from the host to a guest, from a guest to the host, and from one instance to another. WebAssembly core
//! specification, 4.4.10 (function calls).

use crate::error::Error;
use crate::execute::{self, Exit};
use crate::handle::Owner;
use crate::library::{RawVal, TrapCode};
use crate::limits;
use crate::stack::{Activation, Frame, Lent};
use crate::store::{Inner, Store};
use std::sync::Arc;

/// A function of the host: it is given the instance that calls, reads its arguments from the values that begin at this
/// number, and writes its results there.
pub(crate) type HostFn<T> = dyn Fn(&mut Store<T>, u32, usize) -> Result<(), Error> + Send + Sync;

/// What an instance imports as a function.
pub(crate) enum Callee<T> {
    /// With the number of values that arguments and results take.
    Host {
        call: Arc<HostFn<T>>,
        slots: usize,
    },
    Guest {
        instance: u32,
        function: u32,
    },
}

impl<T> Clone for Callee<T> {
    fn clone(&self) -> Self {
        match self {
            Self::Host { call, slots } => Self::Host { call: call.clone(), slots: *slots },
            Self::Guest { instance, function } => Self::Guest { instance: *instance, function: *function },
        }
    }
}

/// Where a call from the host begins on the stack: its first value, and how many frames and how many calls that wait for a
/// function of another instance there are before it.
#[derive(Clone, Copy, Debug)]
pub(crate) struct Begun {
    pub base: usize,
    pub floor: usize,
    pub away: usize,
}

/// The open calls of a call from the host: in the instance that runs, and from a place on in the stack's list of those that
/// wait for a function of another one.
#[derive(Debug)]
pub(crate) struct Calls {
    pub at: Activation,
    pub away: usize,
    /// Whether they ended where fuel was missing, so that they can go on there.
    pub is_out_of_fuel: bool,
}

impl<T> Store<T> {
    /// Calls a function of an instance. Its arguments are written, and its results read, at the beginning of the values
    /// that are lent.
    pub(crate) fn call<R>(
        &mut self,
        owner: &Owner,
        function: u32,
        write: impl FnOnce(&mut [RawVal]),
        read: impl FnOnce(&[RawVal]) -> R,
    ) -> Result<R, Error> {
        let (instance, _) = self.inner.instance(owner);
        self.collect();
        let begun = self.inner.begin()?;
        write(self.inner.values(begun.base));
        let entered = self.inner.enter(instance, function, begun.base);
        let ended = entered.map_err(Error::from).and_then(|at| self.run(&mut Calls::new(at, begun)));
        let results = ended.map(|()| read(self.inner.values(begun.base)));
        self.inner.end(begun);
        results
    }

    /// Runs until the first call has returned.
    pub(crate) fn run(&mut self, calls: &mut Calls) -> Result<(), Error> {
        let ended = self.proceed(calls);
        if ended.is_err() {
            self.inner.record(calls);
        }
        ended
    }

    /// The code of an imported function has nothing left to do after the call, so that a tail call of it is one.
    fn proceed(&mut self, calls: &mut Calls) -> Result<(), Error> {
        let Calls { at, away, is_out_of_fuel } = calls;
        let mut callees = self.callees[at.instance as usize].clone();
        loop {
            let found;
            let exit = execute::execute(&mut self.inner, at)?;
            let is_last = matches!(exit, Exit::Host(_)) && self.inner.stack().frames.len() == at.floor;
            let (callee, base) = match exit {
                Exit::Done => {
                    let Some(before) = self.inner.waiting(*away) else { return Ok(()) };
                    *at = before;
                    callees = self.callees[at.instance as usize].clone();
                    continue;
                }
                Exit::OutOfFuel => {
                    *is_out_of_fuel = true;
                    return Err(TrapCode::OutOfFuel.into());
                }
                Exit::Float(instruction) => return Err(instruction.into()),
                Exit::Host(number) => (&callees[number as usize], at.frame.base),
                Exit::Foreign { reference, ty, base } => {
                    found = self.foreign(at.instance, reference, ty)?;
                    (&found, base)
                }
            };
            match callee {
                Callee::Host { call, slots } => {
                    self.inner.top = base + slots;
                    call(self, at.instance, base)?;
                    self.inner.trace.clear();
                }
                Callee::Guest { instance, function } => {
                    let (instance, function) = (*instance, *function);
                    let before = std::mem::replace(at, self.inner.enter(instance, function, base)?);
                    if !is_last {
                        self.inner.stack().away.push(before);
                    }
                    callees = self.callees[instance as usize].clone();
                }
            }
        }
    }

    /// What a reference to a function of another instance leads to. Its type has to be one of the caller's.
    fn foreign(&self, caller: u32, reference: u32, ty: u32) -> Result<Callee<T>, TrapCode> {
        let inner = &self.inner;
        let (instance, function) = inner.references.find(reference).ok_or(TrapCode::IndirectCallToNull)?;
        let module = &inner.instances[instance].module;
        if function as usize >= module.functions.len() {
            return Err(TrapCode::IndirectCallToNull);
        }
        if *module.type_of(function) != inner.instances[caller].module.types[ty as usize] {
            return Err(TrapCode::BadSignature);
        }
        Ok(self.callee(instance, function))
    }

    /// A function of an instance, or what the instance imports as that function.
    pub(crate) fn callee(&self, instance: u32, function: u32) -> Callee<T> {
        match self.callees[instance as usize].get(function as usize) {
            Some(imported) => imported.clone(),
            None => Callee::Guest { instance, function },
        }
    }
}

impl Calls {
    pub fn new(at: Activation, begun: Begun) -> Self {
        Self { at, away: begun.away, is_out_of_fuel: false }
    }
}

impl Inner {
    /// Begins a call from the host.
    pub fn begin(&mut self) -> Result<Begun, TrapCode> {
        if self.nested == limits::NESTED {
            return Err(TrapCode::StackOverflow);
        }
        self.nested += 1;
        self.trace.clear();
        let engine = &self.engine;
        let limits = self.stack_limits;
        let stack = self.stack.get_or_insert_with(|| {
            let mut stack = engine.stack();
            stack.limit(limits);
            stack
        });
        let Lent { frames, away, .. } = stack.lend();
        Ok(Begun { base: self.top, floor: frames.len(), away: away.len() })
    }

    /// Ends a call from the host.
    pub fn end(&mut self, Begun { base, floor, away }: Begun) {
        let stack = self.stack();
        stack.frames.truncate(floor);
        stack.away.truncate(away);
        (self.nested, self.top) = (self.nested - 1, base);
        if self.nested == 0 {
            self.stack.take().into_iter().for_each(|stack| self.engine.keep(stack));
        }
    }

    /// Makes the frame of a function.
    pub fn enter(&mut self, instance: u32, function: u32, base: usize) -> Result<Activation, TrapCode> {
        let Self { instances, stack, .. } = self;
        let Lent { values, frames, away, calls } = stack.as_mut().expect(RUNS).lend();
        if frames.len().max(away.len()) >= calls {
            return Err(TrapCode::StackOverflow);
        }
        let function = function as usize;
        let module = &instances[instance].module;
        execute::enter(values, module.code[function].body(module.config), base)?;
        Ok(Activation { instance, floor: frames.len(), frame: Frame { function, next: 0, base } })
    }

    /// The last call that waits for a function of another instance, if there is one from this place on. It waits no longer.
    fn waiting(&mut self, from: usize) -> Option<Activation> {
        let away = self.stack().away;
        if away.len() > from { away.pop() } else { None }
    }

    /// The values from a place on, of a call that runs.
    pub fn values(&mut self, base: usize) -> &mut [RawVal] {
        &mut self.stack().values[base..]
    }

    pub fn stack(&mut self) -> Lent<'_> {
        self.stack.as_mut().expect(RUNS).lend()
    }
}

/// Why there is a stack.
const RUNS: &str = "a call runs on a stack";
