//! The stack of a thread that runs a guest: the values in the frames of its calls. WebAssembly core specification, 4.2.

use crate::library::RawVal;
use crate::limits;

/// Where a call goes on: a function, the number of its next instruction, and the first of the values of its frame.
#[derive(Clone, Copy, Debug)]
pub(crate) struct Frame {
    pub function: usize,
    pub next: usize,
    pub base: usize,
}

/// Calls that run in one instance: the frame of the last one, and how many frames were there before the first one.
#[derive(Clone, Copy, Debug)]
pub(crate) struct Activation {
    pub instance: u32,
    pub floor: usize,
    pub frame: Frame,
}

/// How many slots an instruction can name.
pub(crate) const SLOTS: usize = 1 << 16;

/// How far the calls of a store may go.
#[derive(Clone, Copy, Debug, PartialEq, Eq)]
pub struct StackLimits {
    /// The values in the frames of all open calls: parameters, locals, constants and operands, of 16 bytes each.
    pub values: usize,
    /// The calls that are open at once.
    pub calls: usize,
}

impl Default for StackLimits {
    /// The most that there is: 131,072 values, and 32,768 calls.
    fn default() -> Self {
        Self { values: limits::VALUES, calls: limits::CALLS }
    }
}

/// The values of all open calls, and where each of them but the last one goes on.
pub(crate) struct Stack {
    /// More than there may be, so that a frame always has as many as an instruction can name.
    values: Vec<RawVal>,
    frames: Vec<Frame>,
    away: Vec<Activation>,
    limits: StackLimits,
}

/// What of a stack a call may use.
pub(crate) struct Lent<'a> {
    pub values: &'a mut [RawVal],
    pub frames: &'a mut Vec<Frame>,
    /// The calls that wait for a function of another instance.
    pub away: &'a mut Vec<Activation>,
    pub calls: usize,
}

impl Default for Stack {
    fn default() -> Self {
        let values = vec![RawVal::default(); limits::VALUES + SLOTS];
        Self { values, frames: vec![], away: vec![], limits: StackLimits::default() }
    }
}

impl Stack {
    /// Limits it, at most to what it has.
    pub fn limit(&mut self, StackLimits { values, calls }: StackLimits) {
        self.limits = StackLimits { values: values.min(limits::VALUES), calls: calls.min(limits::CALLS) };
    }

    #[inline(always)]
    pub fn lend(&mut self) -> Lent<'_> {
        let Self { values, frames, away, limits } = self;
        Lent { values: &mut values[..limits.values + SLOTS], frames, away, calls: limits.calls }
    }

    /// How many calls are open below the one that runs.
    pub fn depth(&self) -> usize {
        self.frames.len() + self.away.len()
    }
}
