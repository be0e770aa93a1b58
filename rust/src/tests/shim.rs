//! What the proved code stands on and isn't exported: lists, arrays, texts, errors of memory, and limiters behind `dyn`.
use crate::limiter::Dyn;
use crate::proved::meter::ResourceLimiter as Limits;
use crate::rattle::alloc::{AllocError, AllocFailed};
use crate::rattle::arrayvec::ArrayString;
use crate::rattle::rc::RcSlice;
use crate::rattle::{ArrayExt, SliceExt, TryClone, Vec, between_spaces};
use crate::{LimiterError, MemoryError, ResourceLimiter, TableError};
use core::fmt::Write;
use std::string::{String, ToString};
use std::{format, vec};

#[test]
fn lists_have_room_for_no_more() {
    answers!(
        Vec::<u64>::with_capacity(5).map(|it| (it.len(), it.capacity())) => Ok((0, 5)),
        Vec::filled(7_u64, 5).map(|it| (it.to_vec(), it.capacity())) => Ok((vec![7; 5], 5)),
        Vec::from_slice(&[1_u64, 2, 3]).map(|it| (it.to_vec(), it.capacity())) => Ok((vec![1, 2, 3], 3)),
        [1_u64, 2, 3].try_to_vec().map(|it| (it.to_vec(), it.capacity())) => Ok((vec![1, 2, 3], 3)),
        Vec::of([1_u64, 2, 3]).map(|it| (it.to_vec(), it.capacity())) => Ok((vec![1, 2, 3], 3)),
        (Vec::<u64>::new().capacity(), Vec::<u64>::default().len()) => (0, 0),
        Vec::<u64>::with_capacity(usize::MAX).map(|it| it.len()) => Err(AllocError),
        Vec::filled(0_u64, usize::MAX).map(|it| it.len()) => Err(AllocError),
    );
}

#[test]
fn lists_change() {
    let mut list = Vec::of([1_u8, 2]).expect("memory");
    assert_eq!(list.push(3), Ok(()));
    assert_eq!(list.extend_from_slice(&[4, 5]), Ok(()));
    let mut other = Vec::of([6, 7]).expect("memory");
    assert_eq!((list.append(&mut other), other.len()), (Ok(()), 0));
    assert_eq!(
        (list.resize(9, 8), list.as_slice()),
        (Ok(()), &[1, 2, 3, 4, 5, 6, 7, 8, 8][..])
    );
    assert_eq!((list.resize(3, 0), list.len()), (Ok(()), 3));
    let room = list.capacity() - list.len();
    assert_eq!(
        (list.try_reserve(room + 1), list.capacity() > 3 + room),
        (Ok(()), true)
    );
}

#[test]
fn lists_are_read_and_cleared() {
    let mut list = Vec::with_capacity(4).expect("memory");
    list.extend_from_slice(&[1_u8, 2, 3]).expect("room");
    list.push_reserved(9);
    list.slice_mut(..2).fill(0);
    list.as_mut_slice()[2] += 1;
    assert_eq!(
        list.iter_mut()
            .map(core::mem::take)
            .collect::<vec::Vec<_>>(),
        [0, 0, 4, 9]
    );
    assert_eq!(
        (list.as_slice(), format!("{list:?}")),
        (&[0; 4][..], "[0, 0, 0, 0]".into())
    );
    assert_eq!((&list).into_iter().count(), 4);
    assert_eq!(list.try_reserve(usize::MAX), Err(AllocError));
    assert_eq!(list.resize(usize::MAX, 0), Err(AllocError));
    list.clear();
    assert_eq!(list.len(), 0);
    let list = Vec::from(vec![1, 2]);
    assert_eq!(
        vec::Vec::from(Vec::of([1, 2]).expect("memory")),
        vec::Vec::from(list)
    );
    assert_eq!(
        Vec::from(vec![1, 2])
            .into_iter()
            .rev()
            .collect::<vec::Vec<_>>(),
        [2, 1]
    );
}

#[test]
#[should_panic = "room"]
fn a_list_without_room() {
    Vec::with_capacity(0).expect("memory").push_reserved(1);
}

#[test]
fn arrays_are_mapped_in_order_up_to_an_error() {
    let mut asked = vec![];
    let mut halves = |array: [u32; 4]| {
        array.try_map_all(|item| {
            asked.push(item);
            if item % 2 == 0 {
                Ok(item / 2)
            } else {
                Err(item)
            }
        })
    };
    assert_eq!(
        (halves([2, 8, 4, 6]), halves([2, 5, 3, 4])),
        (Ok([1, 4, 2, 3]), Err(5))
    );
    assert_eq!(asked, [2, 8, 4, 6, 2, 5]);
}

#[test]
fn shared_slices() {
    let slice = RcSlice::from_vec(Vec::of([1, 2, 3]).expect("memory")).expect("memory");
    let copy = slice.try_clone().expect("it is shared");
    assert_eq!(copy.as_slice(), [1, 2, 3]);
    assert!(core::ptr::eq(copy.as_slice(), slice.as_slice()));
}

#[test]
fn errors_of_memory() {
    let error = AllocError::from(AllocFailed { value: 3 });
    assert_eq!(
        (error, error.to_string()),
        (AllocError, "out of memory".into())
    );
    assert_eq!(
        std::io::Error::from(error).kind(),
        std::io::ErrorKind::OutOfMemory
    );
}

#[test]
fn texts_with_a_capacity() {
    for number in [0, 1, 9, 10, 99, 100, 1_234_567_890, u64::MAX - 1, u64::MAX] {
        let mut text = ArrayString::<25>::new();
        assert_eq!(text.write((number, " ", number as u8)), Ok(()));
        assert_eq!(text.as_str(), format!("{number} {}", number as u8));
    }
    let mut text = ArrayString::<5>::new();
    assert_eq!((text.write("abc"), text.remaining_capacity()), (Ok(()), 2));
    assert!(text.write(123_u8).is_err() && text.write_str("def").is_err());
    assert_eq!(
        (text.writeln("d"), text.remaining_capacity(), text.as_str()),
        (Ok(()), 0, "abcd\n")
    );
    assert!(text.write(format_args!("{}", 1)).is_err() && text.write("e").is_err());
    text.clear();
    assert_eq!((text.as_str(), text.remaining_capacity()), ("", 5));
}

/// Writes down what it is asked and told, and answers otherwise each time.
struct Notes(vec::Vec<String>);

impl Notes {
    fn note(&mut self, note: String) -> Result<bool, LimiterError> {
        self.0.push(note);
        match self.0.len() % 3 {
            0 => Err(LimiterError::ResourceLimiterDeniedAllocation),
            rest => Ok(rest == 1),
        }
    }
}

impl ResourceLimiter for Notes {
    fn memory_growing(
        &mut self,
        from: usize,
        to: usize,
        most: Option<usize>,
    ) -> Result<bool, LimiterError> {
        self.note(format!("memory {from} {to} {most:?}"))
    }
    fn table_growing(
        &mut self,
        from: usize,
        to: usize,
        most: Option<usize>,
    ) -> Result<bool, LimiterError> {
        self.note(format!("table {from} {to} {most:?}"))
    }
    fn memory_grow_failed(&mut self, error: &MemoryError) -> Result<(), LimiterError> {
        self.note(format!("memory {error:?}")).map(drop)
    }
    fn table_grow_failed(&mut self, error: &TableError) -> Result<(), LimiterError> {
        self.note(format!("table {error:?}")).map(drop)
    }
    fn instances(&self) -> usize {
        1
    }
    fn tables(&self) -> usize {
        2
    }
    fn memories(&self) -> usize {
        3
    }
}

#[test]
fn a_limiter_behind_dyn_is_asked_and_told_the_same() {
    let mut notes = Notes(vec![]);
    let mut lent = Dyn(&mut notes);
    assert_eq!(
        (lent.instances(), lent.tables(), lent.memories()),
        (1, 2, 3)
    );
    let denied = LimiterError::ResourceLimiterDeniedAllocation;
    assert_eq!(lent.memory_growing(1, 2, Some(3)), Ok(true));
    assert_eq!(lent.table_growing(4, 5, None), Ok(false));
    assert_eq!(
        lent.memory_grow_failed(&MemoryError::OutOfSystemMemory),
        Err(denied)
    );
    assert_eq!(lent.table_grow_failed(&TableError::GrowOutOfBounds), Ok(()));
    assert_eq!(lent.table_growing(6, 7, Some(8)), Ok(false));
    assert_eq!(lent.memory_growing(9, 10, None), Err(denied));
    let heard = [
        "memory 1 2 Some(3)",
        "table 4 5 None",
        "memory OutOfSystemMemory",
        "table GrowOutOfBounds",
        "table 6 7 Some(8)",
        "memory 9 10 None",
    ];
    assert_eq!(notes.0, heard);
}

#[test]
fn parts_are_those_of_split() {
    let lines = [
        "",
        " ",
        "  ",
        "a",
        "ab c",
        " a b ",
        "é  ü ",
        "a\tb\u{a0}c d",
    ];
    for line in lines {
        let parts: vec::Vec<_> = between_spaces(line).collect();
        assert_eq!(parts, line.split(' ').collect::<vec::Vec<_>>(), "{line:?}");
    }
}
