//! What an engine does with the API that a narrower one wouldn't let it: generic values, `dyn` limiters, memories without a lifetime.
#![cfg(all(feature = "std", feature = "simd", feature = "memory64"))]
use wasmi_core_proved::*;

struct Slots([RawVal; 4]);

impl Slots {
    fn get<T>(&self, slot: usize) -> T
    where
        RawVal: ReadAs<T>,
    {
        self.0[slot].read_as()
    }
    fn set<T>(&mut self, slot: usize, value: T)
    where
        RawVal: WriteAs<T>,
    {
        self.0[slot].write_as(value);
    }
}

#[test]
fn values_of_any_type() {
    let mut slots = Slots([RawVal::default(); 4]);
    slots.set(0, -1_i8);
    slots.set(1, f32::from_bits(0x7fa0_0001));
    slots.set(3, RawRef::from(9));
    assert_eq!(
        (
            slots.get::<u64>(0),
            slots.get::<u32>(1),
            slots.get::<bool>(0)
        ),
        (255, 0x7fa0_0001, true)
    );
    assert_eq!(u32::from(slots.get::<RawRef>(3)), 9);
    #[cfg(feature = "simd")]
    {
        slots.set(2, V128::from(7_u128 << 64));
        assert_eq!(slots.get::<V128>(2).as_u128() >> 64, 7);
    }
    const ZERO: RawVal = RawVal::from_bits64(0);
    assert_eq!(ZERO.to_bits64(), 0);
}

fn typed<T: Typed + Into<RawVal>>(value: T) -> (ValType, TypedRawVal) {
    (T::TY, TypedRawVal::from(value))
}

#[test]
fn typed_values() {
    let (ty, value) = typed(1.5_f64);
    assert_eq!(
        (ty, value.ty(), f64::from(value)),
        (ValType::F64, ValType::F64, 1.5)
    );
    let (ty, value) = typed(std::num::NonZero::new(-3_i32).unwrap());
    assert_eq!((ty, i32::from(value)), (ValType::I32, -3));
    let null = TypedRawRef::from(TypedRawVal::from(TypedRawRef::null(RefType::Extern)));
    assert!(null.raw().is_null() && null.ty() == RefType::Extern);
    assert!(std::panic::catch_unwind(|| TypedRawRef::from(TypedRawVal::from(1_i32))).is_err());
}

struct Caps {
    left: usize,
}

impl ResourceLimiter for Caps {
    fn memory_growing(
        &mut self,
        current: usize,
        desired: usize,
        _: Option<usize>,
    ) -> Result<bool, LimiterError> {
        let more = desired - current;
        self.left = self.left.saturating_sub(more);
        Ok(self.left > 0)
    }
    fn table_growing(
        &mut self,
        _: usize,
        _: usize,
        _: Option<usize>,
    ) -> Result<bool, LimiterError> {
        Err(LimiterError::ResourceLimiterDeniedAllocation)
    }
    fn instances(&self) -> usize {
        1
    }
    fn tables(&self) -> usize {
        1
    }
    fn memories(&self) -> usize {
        1
    }
}

struct Instance {
    memories: Vec<Memory>,
    fuel: Fuel,
}

#[test]
fn memories() {
    let mut caps = Caps { left: 200_000 };
    let mut limiter = ResourceLimiterRef::from(&mut caps as &mut dyn ResourceLimiter);
    let mut builder = MemoryType::builder();
    builder.min(1).max(Some(4));
    let ty = builder.build().unwrap();
    let costs = FuelCostsProvider::custom(CustomFuelCosts {
        bytes_copied_per_fuel: 65_536,
        fuel_per_bytes_translated: 1,
        fuel_per_bytes_validated: 1,
    });
    let mut it = Instance {
        memories: vec![],
        fuel: Fuel::new(true, costs),
    };
    it.memories.push(Memory::new(ty, &mut limiter).unwrap());
    it.memories
        .push(Memory::new_static(ty, &mut limiter, vec![7; 65_536].leak()).unwrap());
    it.fuel.set_fuel(5).unwrap();
    assert_eq!(
        it.memories[0]
            .grow(1, Some(&mut it.fuel), &mut limiter)
            .unwrap(),
        1
    );
    assert_eq!(it.fuel.get_fuel().unwrap(), 4);
    assert!(matches!(
        it.memories[0].grow(1, None, &mut limiter),
        Err(MemoryError::OutOfBoundsGrowth)
    ));
    assert_eq!(
        it.fuel
            .consume_fuel(|costs| costs.fuel_for_copying_values::<[u64; 8192]>(3))
            .unwrap(),
        1
    );
    assert_eq!(
        (it.memories[1].data()[0], it.memories[1].data_ptr()),
        (0, it.memories[1].data().as_ptr())
    );
    let table = Table::new(
        TableType::new(RefType::Func, 1, None),
        TypedRawRef::null(RefType::Func),
        &mut limiter,
    );
    assert!(matches!(
        table,
        Err(TableError::ResourceLimiterDeniedAllocation)
    ));
    assert!(
        std::panic::catch_unwind(|| TableError::from(FuelError::FuelMeteringDisabled)).is_err()
    );
}
