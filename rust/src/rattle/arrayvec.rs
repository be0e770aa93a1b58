//! Texts with a capacity, and what is shown in them without `core::fmt`, each of whose calls goes through a pointer.

use crate::proved::meter::{FuelError, MemoryError, TableError};
use crate::proved::script::ReplayError;
use crate::proved::store::SegmentError;
use crate::proved::typed::GlobalError;
use crate::proved::types::TrapCode;
use core::fmt::{self, Write};

/// What takes texts and numbers.
pub trait Sink: Write {
    /// The digits of a number.
    fn write_number(&mut self, number: u64) -> fmt::Result;
}

impl Sink for fmt::Formatter<'_> {
    fn write_number(&mut self, number: u64) -> fmt::Result {
        Write::write_fmt(self, format_args!("{number}"))
    }
}

/// What is shown in any sink.
pub trait Show {
    /// Shows it.
    fn show<W: Sink>(&self, f: &mut W) -> fmt::Result;
}

macro_rules! shows {
    ($(|$it:ident: $($ty:ty),*; $f:ident| $shown:expr;)*) => { $($(impl Show for $ty {
        #[inline]
        fn show<W: Sink>(&self, $f: &mut W) -> fmt::Result {
            let $it = self;
            $shown
        }
    })*)* };
}

// What scripts print; the errors the library displays by `core::fmt`.
shows! {
    |text: str; f| f.write_str(text);
    |arguments: fmt::Arguments<'_>; f| f.write_fmt(*arguments);
    |number: u8, u16, u32, u64, usize; f| f.write_number(*number as u64);
    |error: ReplayError, MemoryError, TableError, FuelError, GlobalError, SegmentError, TrapCode; f| f.write_fmt(format_args!("{error}"));
}

impl<T: Show + ?Sized> Show for &T {
    #[inline]
    fn show<W: Sink>(&self, f: &mut W) -> fmt::Result {
        (**self).show(f)
    }
}

macro_rules! pieces {
    ($($piece:ident)*) => { impl<$($piece: Show),*> Show for ($($piece,)*) {
        #[inline]
        #[allow(non_snake_case)]
        fn show<W: Sink>(&self, f: &mut W) -> fmt::Result {
            let ($($piece,)*) = self;
            $($piece.show(f)?;)*
            Ok(())
        }
    } };
}

pieces!(A B);
pieces!(A B C);
pieces!(A B C D);
pieces!(A B C D E);
pieces!(A B C D E F);

/// A text of at most `N` bytes.
pub struct ArrayString<const N: usize> {
    bytes: [u8; N],
    len: usize,
}

impl<const N: usize> ArrayString<N> {
    /// The empty text.
    pub fn new() -> Self {
        ArrayString {
            bytes: [0; N],
            len: 0,
        }
    }

    /// Appends what a value shows.
    #[inline]
    pub fn write(&mut self, value: impl Show) -> fmt::Result {
        value.show(self)
    }

    /// Appends what a value shows, and a line feed.
    #[inline]
    pub fn writeln(&mut self, value: impl Show) -> fmt::Result {
        value.show(self)?;
        self.write_str("\n")
    }

    /// How many bytes more it may have.
    #[inline]
    pub fn remaining_capacity(&self) -> usize {
        N - self.len
    }

    /// The text.
    pub fn as_str(&self) -> &str {
        core::str::from_utf8(&self.bytes[..self.len]).expect("only whole texts are appended")
    }

    /// Drops the text.
    pub fn clear(&mut self) {
        self.len = 0;
    }

    /// The next bytes, if there is room for them.
    #[inline]
    fn room(&mut self, count: usize) -> Result<&mut [u8], fmt::Error> {
        let room = self
            .bytes
            .get_mut(self.len..self.len + count)
            .ok_or(fmt::Error)?;
        self.len += count;
        Ok(room)
    }
}

impl<const N: usize> Write for ArrayString<N> {
    #[inline]
    fn write_str(&mut self, text: &str) -> fmt::Result {
        self.room(text.len())?.copy_from_slice(text.as_bytes());
        Ok(())
    }
}

impl<const N: usize> Sink for ArrayString<N> {
    #[inline]
    fn write_number(&mut self, mut number: u64) -> fmt::Result {
        let count = number.checked_ilog10().map_or(1, |log| log as usize + 1);
        for digit in self.room(count)?.iter_mut().rev() {
            *digit = b'0' + (number % 10) as u8;
            number /= 10;
        }
        Ok(())
    }
}
