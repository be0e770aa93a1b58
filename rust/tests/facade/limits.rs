//! `ResourceLimiter`, `ResourceLimiterRef` and `Quota`.
use super::memories::Row;
use wasmi_core_proved::machine::{self, Kind, LimiterByKind, NoLimits, Quota};
use wasmi_core_proved::{
    Fuel, FuelCostsProvider, LimiterError, Memory, MemoryError, RefType, ResourceLimiter,
    ResourceLimiterRef, Table, TableError, TableType, TypedRawRef,
};

/// Permits all, with the notices that a limiter has which doesn't say otherwise.
struct Plain;

impl ResourceLimiter for Plain {
    fn memory_growing(
        &mut self,
        _: usize,
        _: usize,
        _: Option<usize>,
    ) -> Result<bool, LimiterError> {
        Ok(true)
    }
    fn table_growing(
        &mut self,
        _: usize,
        _: usize,
        _: Option<usize>,
    ) -> Result<bool, LimiterError> {
        Ok(true)
    }
    fn instances(&self) -> usize {
        1
    }
    fn tables(&self) -> usize {
        2
    }
    fn memories(&self) -> usize {
        3
    }
}

#[test]
fn a_notice_is_accepted_by_default() {
    let mut plain = Plain;
    assert_eq!(
        plain.memory_grow_failed(&MemoryError::OutOfSystemMemory),
        Ok(())
    );
    assert_eq!(
        plain.table_grow_failed(&TableError::OutOfSystemMemory),
        Ok(())
    );
    let mut limiter = ResourceLimiterRef::from(&mut plain as &mut dyn ResourceLimiter);
    let mut empty = Fuel::new(true, FuelCostsProvider::default());
    let mut memory = Memory::new(Row(0, None, 16, None).ty(), &mut limiter).expect("a memory");
    let refused = memory.grow(1, Some(&mut empty), &mut limiter);
    assert_eq!(
        refused,
        Err(MemoryError::OutOfFuel {
            required_fuel: 1024
        })
    );
    let null = TypedRawRef::null(RefType::Func);
    let mut table =
        Table::new(TableType::new(RefType::Func, 0, None), null, &mut limiter).expect("a table");
    let refused = table.grow(16, null, Some(&mut empty), &mut limiter);
    assert_eq!(refused, Err(TableError::OutOfFuel { required_fuel: 1 }));
}

#[test]
fn a_reference_leads_to_its_limiter() {
    let mut plain = Plain;
    let mut limiter = ResourceLimiterRef::from(&mut plain as &mut dyn ResourceLimiter);
    let numbers = limiter
        .as_resource_limiter()
        .map(|it| (it.instances(), it.tables(), it.memories()));
    assert_eq!(numbers, Some((1, 2, 3)));
    assert_eq!(format!("{limiter:?}"), "ResourceLimiterRef(...)");
    assert!(
        ResourceLimiterRef::default()
            .as_resource_limiter()
            .is_none()
    );
}

/// Whether a limiter permits a memory and a table, and accepts each notice.
macro_rules! permits {
    ($limiter:expr) => {
        [
            $limiter.memory_growing(0, usize::MAX, None) == Ok(true),
            $limiter.table_growing(0, usize::MAX, Some(0)) == Ok(true),
            $limiter.memory_grow_failed(&MemoryError::OutOfSystemMemory) == Ok(()),
            $limiter.table_grow_failed(&TableError::OutOfSystemMemory) == Ok(()),
        ]
    };
}

#[test]
fn no_limiter_permits_all() {
    use machine::ResourceLimiter;
    let mut none = None::<Quota>;
    assert_eq!(permits!(none), [true; 4]);
    let numbers = [none.instances(), none.tables(), none.memories()];
    assert_eq!(numbers, [usize::MAX; 3]);
    assert_eq!(permits!(NoLimits), [true; 4]);
    assert_eq!(permits!(Some(Quota::new(0, 0))), [false, false, true, true]);
    let mut none = machine::ResourceLimiterRef::<NoLimits>::default();
    assert_eq!(permits!(none), [true; 4]);
    assert!(none.as_resource_limiter().is_none());
}

/// Asks for so many bytes and elements of a quota, one after the other.
fn take(quota: &mut Quota, kind: Kind, amounts: [usize; 2]) {
    for amount in amounts {
        assert_eq!(quota.growing(kind, 0, amount), Ok(true), "{kind:?}");
    }
}

#[test]
fn a_quota_that_is_told_twice_gives_back_once() {
    let mut quota = Quota::new(200, 20);
    take(&mut quota, Kind::Bytes, [50, 50]);
    for _ in 0..2 {
        assert_eq!(
            machine::ResourceLimiter::memory_grow_failed(
                &mut quota,
                &MemoryError::OutOfSystemMemory
            ),
            Ok(())
        );
        assert_eq!(quota.held_bytes(), 50);
    }
    take(&mut quota, Kind::Elements, [5, 5]);
    for _ in 0..2 {
        assert_eq!(
            machine::ResourceLimiter::table_grow_failed(&mut quota, &TableError::OutOfSystemMemory),
            Ok(())
        );
        assert_eq!(quota.held_elements(), 5);
    }
    assert_eq!(quota.growing(Kind::Elements, 0, 16), Ok(false));
    assert_eq!((quota.held_bytes(), quota.held_elements()), (50, 5));
}
