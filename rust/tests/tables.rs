//! Tables under quotas: what they count, and what they take back.
#![cfg(feature = "memory64")]
use wasmi_core_proved::machine::{self, Quota};
use wasmi_core_proved::{
    Fuel, FuelCostsProvider, RawRef, RefType, TableError, TableType, TypedRawRef,
};

fn function(number: u32) -> TypedRawRef {
    TypedRawRef::new(RawRef::from(number), RefType::Func)
}

fn host(number: u32) -> TypedRawRef {
    TypedRawRef::new(RawRef::from(number), RefType::Extern)
}

fn fuel(amount: u64) -> Fuel {
    let mut fuel = Fuel::new(true, FuelCostsProvider::default());
    fuel.set_fuel(amount).unwrap();
    fuel
}

#[test]
fn a_quota_counts_elements() {
    let mut quota = Quota::new(0, 10);
    let ty = TableType::new(RefType::Extern, 4, None);
    let mut table = machine::Table::new(ty, host(1), &mut (&mut quota).into()).unwrap();
    assert_eq!(
        table.grow(7, host(2), None, &mut (&mut quota).into()),
        Err(TableError::GrowOutOfBounds)
    );
    let refused = table.grow(6, host(2), Some(&mut fuel(0)), &mut (&mut quota).into());
    assert_eq!(refused, Ok(4), "24 bytes cost nothing");
    let second = machine::Table::new(
        TableType::new(RefType::Extern, 1, None),
        host(1),
        &mut (&mut quota).into(),
    );
    assert_eq!(
        second.map(|_| ()),
        Err(TableError::ResourceLimiterDeniedAllocation)
    );
    assert_eq!((quota.held_bytes(), quota.held_elements()), (0, 10));
}

#[test]
fn a_quota_takes_back_what_fails() {
    let mut quota = Quota::new(0, u64::MAX);
    // Four times as many bytes as a `usize` counts, each of which is paid for that a `u64` counts.
    let many = 1u64 << (usize::BITS - 2);
    let cost = many.saturating_mul(4) / 64;
    let ty = TableType::new64(RefType::Func, 0, Some(many));
    let mut table = machine::Table::new(ty, function(0), &mut (&mut quota).into()).unwrap();
    let mut left = fuel(1 << 60);
    let refused = table.grow(
        2 * many,
        function(0),
        Some(&mut left),
        &mut (&mut quota).into(),
    );
    assert_eq!(refused, Err(TableError::GrowOutOfBounds));
    assert_eq!((quota.held_elements(), left.get_fuel()), (0, Ok(1 << 60)));
    let refused = table.grow(many, function(0), Some(&mut left), &mut (&mut quota).into());
    assert_eq!(refused, Err(TableError::OutOfSystemMemory));
    assert_eq!(
        (quota.held_elements(), left.get_fuel()),
        (0, Ok((1 << 60) - cost))
    );
}
