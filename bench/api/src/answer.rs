//! What a call answers, as a number that is the same for both crates.

use std::fmt::Display;

/// A number to which another is added, so that each order and each value gives another one.
pub fn mix(sum: u64, number: u64) -> u64 {
    (sum.rotate_left(5) ^ number).wrapping_mul(0x517c_c1b7_2722_0a95)
}

/// The numbers of a list as one.
pub fn all(numbers: impl IntoIterator<Item = u64>) -> u64 {
    numbers.into_iter().fold(1, mix)
}

/// What a text has.
pub fn text(it: impl Display) -> u64 {
    all(it.to_string().bytes().map(u64::from))
}

/// What a function returns, as a number.
pub trait Answer {
    fn answer(&self) -> u64;
}

macro_rules! numbers {
    ($($number:ty)*) => { $(impl Answer for $number {
        fn answer(&self) -> u64 {
            *self as u64
        }
    })* };
}
numbers!(u8 u16 u32 u64 usize i8 i16 i32 i64 bool);

impl Answer for u128 {
    fn answer(&self) -> u64 {
        mix(*self as u64, (*self >> 64) as u64)
    }
}

impl Answer for f32 {
    fn answer(&self) -> u64 {
        self.to_bits().into()
    }
}

impl Answer for f64 {
    fn answer(&self) -> u64 {
        self.to_bits()
    }
}

impl Answer for () {
    fn answer(&self) -> u64 {
        0
    }
}

impl Answer for std::cmp::Ordering {
    fn answer(&self) -> u64 {
        *self as i8 as u64
    }
}

impl Answer for &'static str {
    fn answer(&self) -> u64 {
        text(self)
    }
}

impl<T: Answer, U: Answer> Answer for (T, U) {
    fn answer(&self) -> u64 {
        mix(self.0.answer(), self.1.answer())
    }
}

impl<T: Answer> Answer for Option<T> {
    fn answer(&self) -> u64 {
        self.as_ref().map_or(7, |it| mix(1, it.answer()))
    }
}

impl<T: Answer, E: Display> Answer for Result<T, E> {
    fn answer(&self) -> u64 {
        self.as_ref().map_or_else(text, |it| mix(2, it.answer()))
    }
}
