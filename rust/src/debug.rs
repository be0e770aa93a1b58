//! Debug texts of what holds a guest's data: its type and its size, and nothing of its contents.

use crate::machine::{self, Buffer, LinearMemory, Region};
use crate::{ElementSegment, ElementSegmentRef, Memory, Table};
use core::fmt::{Debug, Formatter, Result};

macro_rules! without_contents {
    ($($name:literal $ty:ty $(, $region:ident)?: $($field:ident)*;)*) => { $(
        impl$(<$region: Region>)? Debug for $ty {
            fn fmt(&self, f: &mut Formatter<'_>) -> Result {
                f.debug_struct($name)$(.field(stringify!($field), &self.$field()))*.finish_non_exhaustive()
            }
        }
    )* };
}

without_contents! {
    "Memory" Memory: ty size;
    "Table" Table: ty size;
    "ElementSegment" ElementSegment: ty size;
    "ElementSegmentRef" ElementSegmentRef<'_>: ty size;
    "LinearMemory" LinearMemory<R>, R: ty size;
    "Table" machine::Table: ty size;
    "ElementSegment" machine::ElementSegment: ty size;
    "DataSegment" machine::DataSegment: size;
    "Buffer" Buffer<R>, R: len;
}
