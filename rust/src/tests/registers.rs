//! Lanes of vectors, in the form that the crate takes, beside Rust's integers: on all pairs of the edges of a lane, and of their neighbours.
use crate::rattle::simd::prelude::*;

/// Each operation on the lanes of two vectors, and on their integers.
macro_rules! lanewise {
    ($name:ident, $lane:ident, $count:literal: $($op:literal $a:ident $b:ident $vector:expr, $x:ident $y:ident $number:expr;)*) => {{
        const HALF: $lane = 1 << ($lane::BITS - 1);
        const EDGES: [$lane; 12] = [0, 1, 2, 3, $lane::MAX / 3, HALF.wrapping_sub(2), HALF.wrapping_sub(1), HALF, HALF.wrapping_add(1),
            $lane::MAX.wrapping_sub(1), $lane::MAX, !0];
        for (first, second) in (0..12).flat_map(|first| (0..12).map(move |second| (first, second))) {
            let x: [$lane; $count] = core::array::from_fn(|lane| EDGES[(first + lane) % 12]);
            let y: [$lane; $count] = core::array::from_fn(|lane| EDGES[(second + lane / 2) % 12]);
            let (a, b) = ($name::from_array(x), $name::from_array(y));
            $({
                let ($a, $b) = (a, b);
                let expected: [$lane; $count] = core::array::from_fn(|lane| {
                    let ($x, $y) = (x[lane], y[lane]);
                    $number
                });
                assert_eq!($vector.to_array(), expected, "{} of {x:?} and {y:?}", $op);
            })*
        }
    }};
}

/// What lanes of all types have.
macro_rules! integers {
    ($($name:ident $lane:ident $count:literal;)*) => { $(
        lanewise! { $name, $lane, $count:
            "+" a b a + b, x y x.wrapping_add(y);
            "-" a b a - b, x y x.wrapping_sub(y);
            "&" a b a & b, x y x & y;
            "|" a b a | b, x y x | y;
            "^" a b a ^ b, x y x ^ y;
            "!" a _b !a, x _y !x;
        }
        for amount in 0..$lane::BITS {
            lanewise! { $name, $lane, $count:
                "<<" a _b a << $name::splat(amount as $lane), x _y x << amount;
                ">>" a _b a >> $name::splat(amount as $lane), x _y x >> amount;
            }
        }
    )* };
}

#[test]
fn sums_bits_and_shifts() {
    integers! { u16x8 u16 8; u32x4 u32 4; u64x2 u64 2; i16x8 i16 8; i32x4 i32 4; }
}

macro_rules! ordered {
    ($($name:ident $lane:ident $count:literal;)*) => { $(
        lanewise! { $name, $lane, $count:
            "==" a b a.simd_eq(b).select(a, !b), x y if x == y { x } else { !y };
            "<" a b a.simd_lt(b).select(a, !b), x y if x < y { x } else { !y };
            ">" a b b.simd_lt(a).select(a, !b), x y if x > y { x } else { !y };
            "*" a b a * b, x y x.wrapping_mul(y);
            "shifted" a b a << b, x y x.wrapping_shl(y as u32);
            "shifted back" a b a >> b, x y x.wrapping_shr(y as u32);
        }
    )* };
}

#[test]
fn orders_and_products() {
    ordered! { u16x8 u16 8; u32x4 u32 4; u64x2 u64 2; }
    lanewise! { u8x16, u8, 16:
        "+" a b a + b, x y x.wrapping_add(y);
        "-" a b a - b, x y x.wrapping_sub(y);
        "&" a b a & b, x y x & y;
        "^" a b a ^ b, x y x ^ y;
        "least" a b a.simd_min(b), x y x.min(y);
        "clamped sum" a b a.saturating_add(b), x y x.saturating_add(y);
        "clamped difference" a b a.saturating_sub(b), x y x.saturating_sub(y);
        "==" a b a.simd_eq(b).select(a, b ^ u8x16::splat(9)), x y if x == y { x } else { y ^ 9 };
        "<" a b a.simd_lt(b).select(a, b ^ u8x16::splat(9)), x y if x < y { x } else { y ^ 9 };
    }
    lanewise! { u16x8, u16, 8:
        "clamped sum" a b a.saturating_add(b), x y x.saturating_add(y);
        "clamped difference" a b a.saturating_sub(b), x y x.saturating_sub(y);
    }
}

#[test]
fn bytes_are_picked() {
    for index in 0..=u8::MAX {
        let bytes: [u8; 16] = core::array::from_fn(|lane| 200 - 3 * lane as u8);
        let indices: [u8; 16] =
            core::array::from_fn(|lane| index.wrapping_add(7 * lane as u8) & 0x8f);
        let picked = u8x16::from_array(bytes).swizzle_dyn_within::<16>(u8x16::from_array(indices));
        let expected = indices.map(|index| bytes.get(usize::from(index)).copied().unwrap_or(0));
        assert_eq!(picked.to_array(), expected, "{indices:?}");
    }
}
