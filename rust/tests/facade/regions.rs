//! `region::memory` and `region::table`: the models of memories and tables, in a region of the caller.
use super::memories::{self, ROWS, Row, bytes, pairs};
use super::model::{ANSWERS, EDGES, Source, with_each_limiter, write};
use super::tables;
use wasmi_core_proved::machine::{ResourceLimiter, ResourceLimiterRef};
use wasmi_core_proved::region::{memory, table};
use wasmi_core_proved::{Fuel, FuelCostsProvider, RefType, TableError, TableType};

/// A limiter that is lent, or none.
fn lent<L: ResourceLimiter>(limiter: Option<&mut L>) -> ResourceLimiterRef<'_, L> {
    limiter.map_or_else(ResourceLimiterRef::default, ResourceLimiterRef::from)
}

fn off() -> Fuel {
    Fuel::new(false, FuelCostsProvider::default())
}

/// Without a meter, one that is off.
fn metered<T>(fuel: Option<&mut Fuel>, call: impl FnOnce(&mut Fuel) -> T) -> T {
    call(fuel.unwrap_or(&mut off()))
}

fn lent_rows() -> impl Iterator<Item = (Row, usize)> {
    ROWS.into_iter()
        .filter_map(|row| row.3.map(|room| (row, room)))
}

#[test]
fn memories_are_made_and_grow() {
    for ((row, room), more) in lent_rows().flat_map(|it| it.0.growths().map(move |more| (it, more)))
    {
        with_each_limiter(
            ("made", row, more),
            &ANSWERS,
            |fuel, limiter| {
                let mut region = vec![7; room];
                let mut limiter = lent(limiter);
                let made = memory::make(row.ty(), &mut region, &mut limiter);
                let mut size = made.unwrap_or(0);
                let grown = made.map(|_| {
                    metered(fuel, |fuel| {
                        memory::grow(row.ty(), &mut size, &mut region, more, fuel, &mut limiter)
                    })
                });
                (grown, size, memory::pages(row.ty(), size), region)
            },
            |meter, asked| {
                let mut region = vec![7; room];
                let model = memories::Model::new(row, asked);
                let (grown, size) = model.map_or_else(
                    |error| (Err(error), 0),
                    |mut model| {
                        let grown = model.grow(more, meter, asked);
                        region[..model.bytes.len()].copy_from_slice(&model.bytes);
                        (Ok(grown), model.bytes.len())
                    },
                );
                (grown, size, (size >> row.2) as u64, region)
            },
        );
    }
}

#[test]
fn tables_are_made_and_grow() {
    for (room, more) in [3, 4, 9, 12].into_iter().flat_map(|room| {
        [0, 1, 5, 6, 8, (1 << 32) - 5, (1 << 32) - 4, u64::MAX].map(|more| (room, more))
    }) {
        for ty in [Some(9), Some(4), None].map(|most| TableType::new(RefType::Func, 4, most)) {
            with_each_limiter(
                ("made", ty, room, more),
                &ANSWERS,
                |fuel, limiter| {
                    let mut region = vec![7; room];
                    let mut limiter = lent(limiter);
                    let made = table::make(ty, &mut region, 5, &mut limiter);
                    let mut size = made.unwrap_or(0);
                    let grown = made.map(|_| {
                        metered(fuel, |fuel| {
                            table::grow(ty, &mut size, &mut region, more, 6, fuel, &mut limiter)
                        })
                    });
                    (grown, size, region)
                },
                |meter, asked| {
                    let mut region = vec![7; room];
                    let model = tables::Model::new(ty, 5, Some(room), asked);
                    let (grown, size) = model.map_or_else(
                        |error| (Err(error), 0),
                        |mut model| {
                            let grown = model.grow(more, 6, meter, asked);
                            region[..model.items.len()].copy_from_slice(&model.items);
                            (Ok(grown), model.items.len())
                        },
                    );
                    (grown, size, region)
                },
            );
        }
    }
}

/// The most bytes or elements that a type allows are allowed, and one more isn't.
#[test]
#[cfg(target_pointer_width = "64")]
fn the_greatest_memories() {
    let (bytes, pages) = (Row(4, Some(9), 0, None), Row(0, None, 16, None));
    let rows = [
        (bytes, 3, false),
        (bytes, 4, true),
        (bytes, 9, true),
        (bytes, 10, false),
        (pages, 65_535, false),
        (pages, 1 << 32, true),
        (pages, (1 << 32) + 65_536, false),
    ];
    for (row, size, is_sized) in rows {
        assert_eq!(
            memory::is_sized(row.ty(), size),
            is_sized,
            "{row:?}, {size}"
        );
    }
    for (row, size, more, asked) in [
        (bytes, 4, 0, Some((4, Some(9)))),
        (bytes, 4, 5, Some((9, Some(9)))),
        (bytes, 4, 6, None),
        (bytes, 9, u64::MAX, None),
        (pages, 65_536, 65_535, Some((1 << 32, None))),
        (pages, 65_536, 65_536, None),
    ] {
        assert_eq!(
            memory::question(row.ty(), size, more),
            asked,
            "{row:?}, {size}, {more}"
        );
    }
}

#[test]
#[cfg(target_pointer_width = "64")]
fn the_greatest_tables() {
    let all = u32::MAX as usize;
    for (most, size, is_sized) in [
        (Some(9), 9, true),
        (Some(9), 10, false),
        (None, all, true),
        (None, all + 1, false),
    ] {
        let ty = TableType::new(RefType::Func, 1, most);
        assert_eq!(table::is_sized(ty, size), is_sized, "{ty:?}, {size}");
        let asked = (size <= all).then_some((size, most.map(|most| most as usize)));
        assert_eq!(table::question(ty, size - 1, 1), asked, "{ty:?}, {size}");
    }
}

/// A call on the bytes 1, 2, 3, 4 or the references 1, 2, 3, 4, and that of the model, with each meter.
macro_rules! calls {
    ($what:expr; $items:ident, $fuel:ident => $call:expr; $meter:ident, $expected:expr) => {
        with_each_limiter(
            $what,
            &[None],
            |fuel, _| {
                let mut $items = [1, 2, 3, 4];
                (metered(fuel, |$fuel| $call), $items)
            },
            |$meter, _| {
                let mut $items = [1, 2, 3, 4];
                ($expected, $items)
            },
        )
    };
}

#[test]
fn bytes_are_filled_and_copied() {
    let (outside, unpaid, source) = (memories::OUTSIDE, memories::unpaid, bytes(5));
    for ((dst, src), len) in pairs().flat_map(|pair| EDGES.map(|len| (pair, len))) {
        calls!(("fill", dst, len); items, fuel => memory::fill(&mut items, dst, 9, len, fuel);
            meter, write(&mut items, dst, len, Source::Filled(9), meter, outside, unpaid));
        calls!(("copy_within", dst, src, len); items, fuel => memory::copy_within(&mut items, dst, src, len, fuel);
            meter, write(&mut items, dst, len, Source::Items(&[1, 2, 3, 4], src), meter, outside, unpaid));
        calls!(("copy", dst, src, len); items, fuel => memory::copy(&mut items, &source, dst, src, len, fuel);
            meter, write(&mut items, dst, len, Source::Items(&source, src), meter, outside, unpaid));
        if let (Ok(src), Ok(len)) = (u32::try_from(src), u32::try_from(len)) {
            calls!(("init", dst, src, len); items, fuel => memory::init(&mut items, &source, dst, src, len, fuel);
                meter, write(&mut items, dst, len.into(), Source::Items(&source, src.into()), meter, outside, unpaid));
        }
    }
}

#[test]
fn references_are_filled_copied_and_set() {
    let [func, host] = tables::KINDS.map(|kind| TableType::new(kind, 4, None));
    let (unpaid, source) = (tables::unpaid, [1, 2, 3, 4, 5]);
    let (filling, copying) = (TableError::FillOutOfBounds, TableError::CopyOutOfBounds);
    let initializing = TableError::InitOutOfBounds;
    for ((dst, src), len) in pairs().flat_map(|pair| EDGES.map(|len| (pair, len))) {
        calls!(("fill", dst, len); items, fuel => table::fill(func, &mut items, dst, 9, len, fuel);
            meter, write(&mut items, dst, len, Source::Filled(9), meter, filling, unpaid));
        calls!(("copy_within", dst, src, len); items, fuel => table::copy_within(func, &mut items, dst, src, len, fuel);
            meter, write(&mut items, dst, len, Source::Items(&[1, 2, 3, 4], src), meter, copying, unpaid));
        calls!(("copy", dst, src, len); items, fuel => table::copy(func, &mut items, func, &source, dst, src, len, fuel);
            meter, write(&mut items, dst, len, Source::Items(&source, src), meter, copying, unpaid));
        calls!(("init", dst, src, len); items, fuel => table::init(func, &mut items, &source, dst, src, len, fuel);
            meter, write(&mut items, dst, len, Source::Items(&source, src), meter.filter(|_| len > 0), initializing, unpaid));
    }
    let mut items = [1; 4];
    let mut fuel = off();
    let copied = table::copy(func, &mut items, host, &source, 0, 0, 1, &mut fuel);
    assert_eq!(copied, Err(TableError::ElementTypeMismatch));
    for index in EDGES {
        let mut items = [1, 2, 3, 4];
        let mut expected = items;
        let place = usize::try_from(index)
            .ok()
            .and_then(|index| expected.get_mut(index));
        let is_set = place.map(|item| *item = 9);
        assert_eq!(
            table::set(func, &mut items, index, 9),
            is_set.ok_or(TableError::SetOutOfBounds),
            "set {index}"
        );
        assert_eq!(items, expected, "set {index}");
    }
}
