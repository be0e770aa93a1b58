//! The vector instructions, and the loads and stores of numbers: loops over arrays, each behind an opaque pointer.
use crate::least;
use std::cell::RefCell;
use std::collections::HashMap;
use std::hint::black_box;

/// A vector as a register of raw values holds it.
#[repr(C)]
#[derive(Clone, Copy, PartialEq)]
pub struct Words {
    low: u64,
    high: u64,
}

/// Two arrays and the array of the results, each with its length; the one that is a memory has its length in bytes.
type Loop = unsafe extern "C" fn(*const Words, usize, *const Words, usize, *mut Words, usize);

struct Row {
    name: &'static str,
    lengths: [usize; 3],
    vectors: Loop,
    words: Loop,
}

const COUNT: usize = 1024;

unsafe fn slice<'a, T>(start: *const Words, length: usize) -> &'a [T] {
    unsafe { std::slice::from_raw_parts(start.cast(), length) }
}

unsafe fn slice_mut<'a, T>(start: *mut Words, length: usize) -> &'a mut [T] {
    unsafe { std::slice::from_raw_parts_mut(start.cast(), length) }
}

mod the_crate {
    use wasmi_core as library;
    include!("loops.rs");
}

#[cfg(feature = "rust")]
mod here {
    use super::Loop;
    use wasmi_core_proved as library;
    include!("loops.rs");

    pub fn loops() -> Vec<(&'static str, Loop)> {
        tables().into_iter().flat_map(|(_, rows)| rows).map(|row| (row.name, row.words)).collect()
    }
}

#[cfg(not(feature = "rust"))]
mod here {
    use super::{Loop, Words};

    macro_rules! declared {
        ($($name:ident)*) => {
            mod libraries {
                use super::Words;
                unsafe extern "C" { $(pub fn $name(a: *const Words, a_length: usize, b: *const Words, b_length: usize, out: *mut Words, out_length: usize);)* }
            }
            pub fn loops() -> Vec<(&'static str, Loop)> {
                vec![$((stringify!($name), libraries::$name as Loop)),*]
            }
        };
    }
    include!("here.rs");
}

/// Three arrays that start at different offsets in their pages, else a store meets later loads with the same low address bits.
struct Arrays {
    all: Vec<Words>,
}

const STARTS: [usize; 3] = [0, COUNT + 40, 2 * COUNT + 80];

impl Arrays {
    fn new() -> Arrays {
        let mut state = 1_u64;
        let mut next = || {
            state = state.wrapping_add(0x9e37_79b9_7f4a_7c15);
            let mut bits = state;
            bits = (bits ^ (bits >> 30)).wrapping_mul(0xbf58_476d_1ce4_e5b9);
            bits = (bits ^ (bits >> 27)).wrapping_mul(0x94d0_49bb_1331_11eb);
            bits ^ (bits >> 31)
        };
        Arrays { all: (0..3 * COUNT + 80).map(|_| Words { low: next(), high: next() }).collect() }
    }

    fn run(&mut self, row: &Row, of: Loop) {
        let [a, b, out] = STARTS.map(|start| black_box(&mut self.all)[start..].as_mut_ptr());
        unsafe { black_box(of)(a, row.lengths[0], b, row.lengths[1], out, row.lengths[2]) }
    }

    fn answer(&mut self, row: &Row, of: Loop) -> Vec<Words> {
        self.all[STARTS[2]..].fill(Words { low: 0, high: 0 });
        self.run(row, of);
        self.all[STARTS[2]..].to_vec()
    }
}

/// Prints a line for each row: nanoseconds a turn of the crate over `V128`, of the crate over words, and here.
pub fn report(asked: &str) {
    let arrays = RefCell::new(Arrays::new());
    let loops: HashMap<_, _> = here::loops().into_iter().collect();
    for (kind, rows) in the_crate::tables() {
        for row in rows.iter().filter(|row| row.name.contains(asked)) {
            let answer = |of| arrays.borrow_mut().answer(row, of);
            let here = loops[row.name];
            let same = answer(row.vectors) == answer(here) && answer(row.words) == answer(here);
            let run = |of| arrays.borrow_mut().run(row, of);
            let [vectors, words, here] = least(COUNT, [&mut || run(row.vectors), &mut || run(row.words), &mut || run(here)]);
            println!("{kind} {} {vectors} {words} {here}{}", row.name, if same { "" } else { " DIFFERS" });
        }
    }
}
