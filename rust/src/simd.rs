//! The vector instructions of WebAssembly on a [`V128`]. Of floats only what moves bits.
//!
//! Lane 0 is the lowest. A function has the name of its instruction, with `_` for a dot. Loads and
//! stores access the address `ptr + offset` of the bytes of a memory, the forms with `_at` the given
//! one; they return [`TrapCode::MemoryOutOfBounds`] if the access ends past the bytes, and write
//! nothing then.
//!
//! # Examples
//!
//! ```
//! use wasmi_core_proved::{V128, simd};
//!
//! let a = simd::i32x4_splat(i32::MAX);
//! let b = simd::i32x4_splat(1);
//! assert_eq!(simd::i32x4_add(a, b), simd::i32x4_splat(i32::MIN));
//! assert_eq!(simd::i32x4_bitmask(simd::i32x4_gt_s(a, b)), 0b1111);
//!
//! let mut memory = [0; 24];
//! simd::v128_store(&mut memory, 4, 4, V128::from(1 << 64))?;
//! assert_eq!(memory[16], 1);
//! assert!(simd::v128_load(&memory, 9, 0).is_err());
//! # Ok::<(), wasmi_core_proved::TrapCode>(())
//! ```

use crate::proved::lanes::ImmLaneIdx as Proved;
use crate::{TrapCode, V128};

pub use crate::proved::lanewise::simd::OutOfBoundsLaneIdx;
instructions!(lanewise simd);
instructions!(vector_access simd);
instructions!(widening simd);

// Signs of lanes of floats.
macro_rules! floats {
    ($($abs:ident $neg:ident by $splat:ident $signed:ty, called $abs_name:literal $neg_name:literal;)*) => { $(
        /// The lanes without their signs.
        ///
        /// It is [`v128_and`] with a mask of the signs, and no contract speaks of floats.
        #[doc(alias = $abs_name)]
        #[must_use]
        #[inline]
        pub fn $abs(v128: V128) -> V128 {
            v128_and(v128, $splat(<$signed>::MAX))
        }

        /// The lanes with the other signs.
        ///
        /// It is [`v128_xor`] with a mask of the signs, and no contract speaks of floats.
        #[doc(alias = $neg_name)]
        #[must_use]
        #[inline]
        pub fn $neg(v128: V128) -> V128 {
            v128_xor(v128, $splat(<$signed>::MIN))
        }
    )* };
}
floats! {
    f32x4_abs f32x4_neg by i32x4_splat i32, called "f32x4.abs" "f32x4.neg";
    f64x2_abs f64x2_neg by i64x2_splat i64, called "f64x2.abs" "f64x2.neg";
}

// Indices of lanes are counted by a `u8`: the proved ones are counted by a `usize`, as arrays are.

/// The index of one of `N` lanes, from 0 to `N - 1`, lane 0 the lowest.
///
/// `N` is 2, 4, 8, 16 or 32 in the instructions of [`simd`](crate::simd). Another `N` above 0 is cut
/// to a power of two, as in the crate `wasmi_core`. Contracts see the number.
///
#[doc = examples!(root ImmLaneIdx)]
#[derive(Debug, Copy, Clone, PartialEq, Eq)]
pub struct ImmLaneIdx<const N: u8>(u8);

impl<const N: u8> ImmLaneIdx<N> {
    const MASK: u8 = (1 << N.ilog2()) - 1;
}

impl<const N: u8> From<ImmLaneIdx<N>> for u8 {
    #[inline]
    fn from(lane: ImmLaneIdx<N>) -> u8 {
        lane.0 & <ImmLaneIdx<N>>::MASK
    }
}

impl<const N: u8> TryFrom<u8> for ImmLaneIdx<N> {
    type Error = OutOfBoundsLaneIdx;

    #[inline]
    fn try_from(lane: u8) -> Result<Self, OutOfBoundsLaneIdx> {
        if lane <= Self::MASK {
            Ok(Self(lane))
        } else {
            Err(OutOfBoundsLaneIdx)
        }
    }
}

/// A number with the index of one of its lanes in a vector, of which there are 128 divided by its
/// width.
pub trait IntoLaneIdx {
    /// The index of a lane of these numbers.
    type LaneIdx: Sized + Copy + TryFrom<u8, Error = OutOfBoundsLaneIdx> + Into<u8>;
}

macro_rules! lanes {
    ($($name:ident, $count:literal: $($ty:ty),*;)*) => { $(
        #[doc = concat!("The index of one of ", stringify!($count), " lanes.")]
        pub type $name = ImmLaneIdx<$count>;

        impl $name {
            /// The same index. The mask of `u8::from` lets rustc drop the other arm.
            #[inline(always)]
            pub(crate) fn proved(self) -> Proved<$count> {
                match Proved::try_from(u8::from(self)) {
                    Ok(lane) => lane,
                    Err(_) => unreachable!(),
                }
            }
        }

        $( impl IntoLaneIdx for $ty {
            type LaneIdx = $name;
        } )*
    )* };
}
lanes! {
    ImmLaneIdx32, 32: ;
    ImmLaneIdx16, 16: i8, u8;
    ImmLaneIdx8, 8: i16, u16;
    ImmLaneIdx4, 4: i32, u32, f32;
    ImmLaneIdx2, 2: i64, u64, f64;
}
