//! Meters, limiters and paid writes, as lists and numbers.
use std::fmt::Debug;
use wasmi_core_proved::machine;
use wasmi_core_proved::{
    CustomFuelCosts, Fuel, FuelCostsProvider, LimiterError, MemoryError, ResourceLimiter,
    ResourceLimiterRef, TableError,
};

/// Numbers that end within a few items, at their end, past it, and past it but for their low 16 or 32 bits.
pub const EDGES: [u64; 8] = [0, 1, 2, 4, 5, 65_537, (1 << 32) + 1, u64::MAX];

/// What is left, if the meter is on, and how many bytes are copied for one unit.
#[derive(Clone, Copy, Debug, PartialEq)]
pub struct Meter {
    pub left: Option<u64>,
    pub bytes_per_fuel: u32,
}

/// No meter, one that is off, and those that pay for a few bytes, for all, and for none.
pub const METERS: [Option<Meter>; 9] = [
    None,
    on(None, 1),
    on(Some(0), 1),
    on(Some(3), 1),
    on(Some(8), 1),
    on(Some(2), 3),
    on(Some(200_000), 1),
    on(Some(u64::MAX - 1), 0),
    on(Some(u64::MAX), 0),
];

const fn on(left: Option<u64>, bytes_per_fuel: u32) -> Option<Meter> {
    Some(Meter {
        left,
        bytes_per_fuel,
    })
}

impl Meter {
    pub fn fuel(self) -> Fuel {
        let costs = CustomFuelCosts {
            bytes_copied_per_fuel: self.bytes_per_fuel,
            fuel_per_bytes_translated: 0,
            fuel_per_bytes_validated: 0,
        };
        let mut fuel = Fuel::new(self.left.is_some(), FuelCostsProvider::custom(costs));
        if let Some(left) = self.left {
            fuel.set_fuel(left).expect("the meter is on");
        }
        fuel
    }

    /// Takes what so many bytes cost, or tells what that is.
    pub fn pay(&mut self, bytes: u64) -> Result<(), u64> {
        let Some(left) = &mut self.left else {
            return Ok(());
        };
        let cost = bytes
            .checked_div(self.bytes_per_fuel.into())
            .unwrap_or(u64::MAX);
        *left = left.checked_sub(cost).ok_or(cost)?;
        Ok(())
    }
}

/// What a limiter hears.
#[derive(Clone, Copy, Debug, PartialEq)]
pub enum Heard {
    Memory(usize, usize, Option<usize>),
    Table(usize, usize, Option<usize>),
    MemoryFailed(MemoryError),
    TableFailed(TableError),
}

/// A limiter's answer to each question and to each notice.
pub type Answers = (Result<bool, LimiterError>, Result<(), LimiterError>);

pub const DENIED: LimiterError = LimiterError::ResourceLimiterDeniedAllocation;

/// No limiter, and one with each pair of answers.
pub const ANSWERS: [Option<Answers>; 5] = [
    None,
    Some((Ok(true), Ok(()))),
    Some((Ok(true), Err(DENIED))),
    Some((Ok(false), Ok(()))),
    Some((Err(DENIED), Ok(()))),
];

/// A limiter with such answers, which writes down what it hears.
#[derive(Debug, PartialEq)]
pub struct Limiter {
    answers: Answers,
    heard: Vec<Heard>,
}

impl Limiter {
    fn new(answers: Answers) -> Self {
        Limiter {
            answers,
            heard: Vec::new(),
        }
    }

    fn hears(&mut self, heard: Heard) -> Answers {
        self.heard.push(heard);
        self.answers
    }
}

macro_rules! limits {
    ($($limiter:path),*) => { $(
        impl $limiter for Limiter {
            fn memory_growing(&mut self, from: usize, to: usize, most: Option<usize>) -> Result<bool, LimiterError> {
                self.hears(Heard::Memory(from, to, most)).0
            }
            fn table_growing(&mut self, from: usize, to: usize, most: Option<usize>) -> Result<bool, LimiterError> {
                self.hears(Heard::Table(from, to, most)).0
            }
            fn memory_grow_failed(&mut self, error: &MemoryError) -> Result<(), LimiterError> {
                self.hears(Heard::MemoryFailed(*error)).1
            }
            fn table_grow_failed(&mut self, error: &TableError) -> Result<(), LimiterError> {
                self.hears(Heard::TableFailed(*error)).1
            }
            fn instances(&self) -> usize {
                1
            }
            fn tables(&self) -> usize {
                2
            }
            fn memories(&self) -> usize {
                3
            }
        }
    )* };
}
limits!(ResourceLimiter, machine::ResourceLimiter);

/// The limiter of a model, if there is one.
pub type Asked = Option<Limiter>;

/// Whether a question is answered by a permission, and else the error for `Ok(false)` or that for `Err`.
pub fn ask<E>(limiter: &mut Asked, question: Heard, refused: E, denied: E) -> Result<(), E> {
    match limiter.as_mut().map_or(Ok(true), |it| it.hears(question).0) {
        Ok(true) => Ok(()),
        Ok(false) => Err(refused),
        Err(DENIED) => Err(denied),
    }
}

/// The error of a call that failed after a permission.
pub fn tell<T, E>(limiter: &mut Asked, notice: Heard, error: E, denied: E) -> Result<T, E> {
    Err(limiter
        .as_mut()
        .map_or(Ok(()), |it| it.hears(notice).1)
        .map_or(denied, |()| error))
}

/// What is written to a list of items.
pub enum Source<'a, T> {
    Filled(T),
    Items(&'a [T], u64),
}

/// Writes `len` items from `dst` on, if all lie within and are paid.
pub fn write<T: Copy, E>(
    items: &mut [T],
    dst: u64,
    len: u64,
    source: Source<T>,
    meter: Option<&mut Meter>,
    outside: E,
    unpaid: fn(u64) -> E,
) -> Result<(), E> {
    let lies_within =
        |start: u64, size| start.checked_add(len).is_some_and(|end| end <= size as u64);
    let has_source = match source {
        Source::Filled(_) => true,
        Source::Items(from, src) => lies_within(src, from.len()),
    };
    if !has_source || !lies_within(dst, items.len()) {
        return Err(outside);
    }
    if let Some(meter) = meter {
        meter.pay(len * size_of::<T>() as u64).map_err(unpaid)?;
    }
    for index in 0..len as usize {
        items[dst as usize + index] = match source {
            Source::Filled(item) => item,
            Source::Items(from, src) => from[src as usize + index],
        };
    }
    Ok(())
}

/// Makes a call and that of the model with each meter under each of some limiters. Both give the same, leave the same fuel,
/// and tell the limiter the same.
pub fn with_each<T: Debug + PartialEq>(
    what: impl Debug,
    limiters: &[Option<Answers>],
    call: impl Fn(Option<&mut Fuel>, &mut ResourceLimiterRef<'_>) -> T,
    model: impl Fn(Option<&mut Meter>, &mut Asked) -> T,
) {
    with_each_limiter(
        what,
        limiters,
        |fuel, limiter| match limiter {
            Some(limiter) => call(fuel, &mut (limiter as &mut dyn ResourceLimiter).into()),
            None => call(fuel, &mut ResourceLimiterRef::default()),
        },
        model,
    );
}

/// As `with_each`, with the limiter itself.
pub fn with_each_limiter<T: Debug + PartialEq>(
    what: impl Debug,
    limiters: &[Option<Answers>],
    call: impl Fn(Option<&mut Fuel>, Option<&mut Limiter>) -> T,
    model: impl Fn(Option<&mut Meter>, &mut Asked) -> T,
) {
    for (meter, answers) in METERS
        .iter()
        .flat_map(|meter| limiters.iter().map(move |it| (*meter, *it)))
    {
        let (mut fuel, mut paid) = (meter.map(Meter::fuel), meter);
        let [mut limiter, mut asked] = [answers.map(Limiter::new), answers.map(Limiter::new)];
        let given = call(fuel.as_mut(), limiter.as_mut());
        let expected = model(paid.as_mut(), &mut asked);
        let left = fuel.map(|it| it.get_fuel().ok());
        let expected = (expected, paid.map(|it| it.left), asked);
        assert_eq!(
            (given, left, limiter),
            expected,
            "{what:?} with {meter:?} under {answers:?}"
        );
    }
}
