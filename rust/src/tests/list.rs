//! What is read of iterators that say how many items they have, that don't, and that say too few or too many.
use crate::rattle::Vec;

/// The numbers from 1 on, with one `None` after some of them, and a claim of how many there are.
struct Numbers {
    given: usize,
    end: usize,
    said: (usize, Option<usize>),
}

impl Iterator for Numbers {
    type Item = usize;

    fn next(&mut self) -> Option<usize> {
        assert!(self.given != self.end + 1, "read past the end");
        self.given += 1;
        (self.given <= self.end).then_some(self.given)
    }

    fn size_hint(&self) -> (usize, Option<usize>) {
        self.said
    }
}

#[test]
fn all_items_up_to_the_first_none_are_read_and_at_most_so_many() {
    for end in [0, 1, 4, 5, 6, 9] {
        for said in [
            (0, None),
            (0, Some(5)),
            (3, Some(3)),
            (end, Some(end)),
            (5, Some(5)),
            (100, None),
        ] {
            let mut numbers = Numbers {
                given: 0,
                end,
                said,
            };
            let mut list = Vec::new();
            assert!(list.push(0).is_ok() && list.read(&mut numbers, 5).is_ok());
            let items: std::vec::Vec<usize> = (0..=end.min(5)).collect();
            assert_eq!(list.as_slice(), items, "{end} {said:?}");
            assert!(numbers.given <= 5, "{end} {said:?}");

            // All items are read of an iterator that says how many there are.
            let numbers = Numbers {
                given: 0,
                end,
                said,
            };
            let mut list = Vec::new();
            assert!(list.read_all(numbers, 5).is_ok());
            let most = if said.1 == Some(said.0) && said.0 <= 5 {
                end
            } else {
                5
            };
            let items: std::vec::Vec<usize> = (1..=end.min(most)).collect();
            assert_eq!(list.as_slice(), items, "all {end} {said:?}");
        }
    }
}

#[test]
fn room_that_is_refused_is_an_error() {
    assert!(
        Vec::<u64>::new()
            .read(std::iter::repeat(1), usize::MAX)
            .is_err()
    );
    let many = std::iter::repeat_n(1, usize::MAX);
    assert!(Vec::<u64>::new().read_all(many, usize::MAX).is_err());
}

#[test]
fn room_for_exactly_so_many_more_items_is_made() {
    let mut list = Vec::new();
    assert!(list.push(0_u64).is_ok() && list.try_reserve_exact(99).is_ok());
    assert!(list.capacity() >= 100 && list.as_slice() == [0]);
    let (room, first) = (list.capacity(), list.as_slice().as_ptr());
    for item in 1..100 {
        list.push_reserved(item);
    }
    assert_eq!((list.capacity(), list.as_slice().as_ptr()), (room, first));
    assert!(list.try_reserve_exact(usize::MAX).is_err());
}
