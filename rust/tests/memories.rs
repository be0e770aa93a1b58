//! Memories, fuel and limiters: what is refused, in which order, and what stays.
use wasmi_core_proved::machine::{self, Quota};
use wasmi_core_proved::{
    CustomFuelCosts, Fuel, FuelCostsProvider, FuelError, LimiterError, MemoryError, MemoryType,
    ResourceLimiter, TableError,
};
#[cfg(feature = "memory64")]
use wasmi_core_proved::{Memory, ResourceLimiterRef};

const PAGE: usize = 65_536;

/// A limiter that answers what it is told to, and writes down what it is asked and told.
struct Scripted {
    answer: Result<bool, LimiterError>,
    notice: Result<(), LimiterError>,
    asked: Vec<(usize, usize, Option<usize>)>,
    told: Vec<MemoryError>,
}

const DENIED: LimiterError = LimiterError::ResourceLimiterDeniedAllocation;

impl Scripted {
    fn new(answer: Result<bool, LimiterError>) -> Self {
        Self {
            answer,
            notice: Ok(()),
            asked: Vec::new(),
            told: Vec::new(),
        }
    }
}

macro_rules! limits {
    ($($limiter:path),*) => { $(
        impl $limiter for Scripted {
            fn memory_growing(&mut self, from: usize, to: usize, most: Option<usize>) -> Result<bool, LimiterError> {
                self.asked.push((from, to, most));
                self.answer
            }

            fn table_growing(&mut self, _: usize, _: usize, _: Option<usize>) -> Result<bool, LimiterError> {
                unreachable!("no table is made")
            }

            fn memory_grow_failed(&mut self, error: &MemoryError) -> Result<(), LimiterError> {
                self.told.push(*error);
                self.notice
            }

            fn table_grow_failed(&mut self, _: &TableError) -> Result<(), LimiterError> {
                unreachable!("no table is made")
            }

            fn instances(&self) -> usize {
                1
            }

            fn tables(&self) -> usize {
                1
            }

            fn memories(&self) -> usize {
                1
            }
        }
    )* };
}
limits!(ResourceLimiter, machine::ResourceLimiter);

#[cfg(feature = "memory64")]
fn lent(limiter: &mut Scripted) -> ResourceLimiterRef<'_> {
    (limiter as &mut dyn ResourceLimiter).into()
}

/// A memory under a quota of its own.
fn under(ty: MemoryType, quota: &mut Quota) -> Result<machine::Memory<'static>, MemoryError> {
    machine::Memory::new(ty, &mut quota.into())
}

fn pages(minimum: u64, maximum: Option<u64>) -> MemoryType {
    let mut builder = MemoryType::builder();
    builder.min(minimum).max(maximum);
    builder.build().unwrap()
}

fn fuel(amount: u64) -> Fuel {
    let mut fuel = Fuel::new(true, FuelCostsProvider::default());
    fuel.set_fuel(amount).unwrap();
    fuel
}

#[test]
fn a_meter_that_is_off() {
    let mut fuel = Fuel::new(false, FuelCostsProvider::default());
    assert_eq!(fuel.set_fuel(1), Err(FuelError::FuelMeteringDisabled));
    assert_eq!(fuel.get_fuel(), Err(FuelError::FuelMeteringDisabled));
    assert_eq!(
        fuel.consume_fuel(|_| panic!("it isn't asked")),
        Err(FuelError::FuelMeteringDisabled)
    );
    assert_eq!(fuel.consume_fuel_if(|_| panic!("it isn't asked")), Ok(()));
    assert_eq!(fuel.consume_fuel_unchecked(0), Ok(0));
    assert_eq!(
        fuel.consume_fuel_unchecked(1),
        Err(FuelError::OutOfFuel { required_fuel: 1 })
    );
}

#[test]
fn a_meter_that_is_on() {
    let mut fuel = fuel(10);
    assert_eq!(fuel.consume_fuel(|_| 4), Ok(6));
    assert_eq!(fuel.consume_fuel_unchecked(1), Ok(5));
    assert_eq!(
        fuel.consume_fuel_if(|costs| costs.fuel_for_copying_values::<u32>(64)),
        Ok(())
    );
    assert_eq!(
        fuel.consume_fuel(|_| 2),
        Err(FuelError::OutOfFuel { required_fuel: 2 })
    );
    assert_eq!(fuel.get_fuel(), Ok(1));
}

#[test]
fn prices() {
    let usual = FuelCostsProvider::default();
    assert_eq!(usual.fuel_for_copying_values::<u8>(127), 1);
    assert_eq!(
        usual.fuel_for_copying_values::<u64>(u64::MAX),
        u64::MAX / 64
    );
    assert_eq!(usual.fuel_for_translating_bytes(3), 21);
    assert_eq!(usual.fuel_for_validating_bytes(u64::MAX), u64::MAX);
    let free = CustomFuelCosts {
        bytes_copied_per_fuel: 0,
        fuel_per_bytes_translated: 0,
        fuel_per_bytes_validated: 0,
    };
    let free = FuelCostsProvider::custom(free);
    assert_eq!(free.fuel_for_copying_values::<u8>(0), u64::MAX);
    assert_eq!(free.fuel_for_translating_bytes(3), 0);
}

#[test]
fn a_quota_counts_what_it_permits() {
    let mut quota = Quota::new(4 * PAGE as u64, 0);
    let mut first = under(pages(1, None), &mut quota).unwrap();
    let mut second = under(pages(2, None), &mut quota).unwrap();
    let third = under(pages(2, None), &mut quota);
    assert_eq!(
        third.map(|_| ()),
        Err(MemoryError::ResourceLimiterDeniedAllocation)
    );
    let mut fuel = fuel(1_024);
    let refused = first.grow(2, Some(&mut fuel), &mut (&mut quota).into());
    assert_eq!(refused, Err(MemoryError::OutOfBoundsGrowth));
    assert_eq!(
        first.grow(1, Some(&mut fuel), &mut (&mut quota).into()),
        Ok(1)
    );
    assert_eq!(
        second.grow(1, None, &mut (&mut quota).into()),
        Err(MemoryError::OutOfBoundsGrowth)
    );
    assert_eq!(
        (quota.held_bytes(), quota.held_elements()),
        (4 * PAGE as u64, 0)
    );
    assert_eq!(
        (first.size(), second.size(), fuel.get_fuel()),
        (2, 2, Ok(0))
    );
}

#[test]
fn a_quota_takes_back_what_fails() {
    let mut quota = Quota::new(u64::MAX, 0);
    let mut memory = under(pages(0, None), &mut quota).unwrap();
    let refused = memory.grow(3, Some(&mut fuel(3_071)), &mut (&mut quota).into());
    assert_eq!(
        refused,
        Err(MemoryError::OutOfFuel {
            required_fuel: 3_072
        })
    );
    assert_eq!(quota.held_bytes(), 0);
}

#[cfg(feature = "memory64")]
#[test]
fn a_quota_takes_back_what_the_system_refuses() {
    let mut quota = Quota::new(u64::MAX, 0);
    let mut builder = MemoryType::builder();
    builder.page_size_log2(0).memory64(true);
    let mut memory = under(builder.build().unwrap(), &mut quota).unwrap();
    let refused = memory.grow(usize::MAX as u64, None, &mut (&mut quota).into());
    assert_eq!(refused, Err(MemoryError::OutOfSystemMemory));
    assert_eq!((quota.held_bytes(), memory.size()), (0, 0));
}

#[test]
#[cfg(feature = "memory64")]
fn without_memory_the_fuel_is_taken_and_the_limiter_is_told() {
    let mut builder = MemoryType::builder();
    builder.page_size_log2(0).memory64(true);
    let mut limiter = Scripted::new(Ok(true));
    let mut memory = Memory::new(builder.build().unwrap(), &mut lent(&mut limiter)).unwrap();
    let all = usize::MAX as u64;
    let mut fuel = fuel(all / 64);
    assert_eq!(
        memory.grow(all, Some(&mut fuel), &mut lent(&mut limiter)),
        Err(MemoryError::OutOfSystemMemory)
    );
    assert_eq!(
        (limiter.told.as_slice(), fuel.get_fuel()),
        ([MemoryError::OutOfSystemMemory].as_slice(), Ok(0))
    );
    let refused = memory.grow(all, Some(&mut fuel), &mut lent(&mut limiter));
    assert_eq!(
        refused,
        Err(MemoryError::OutOfFuel {
            required_fuel: all / 64
        })
    );
}

#[test]
fn a_lent_region_is_refused_before_fuel_is_taken() {
    let mut region = vec![7; 2 * PAGE];
    let mut limiter = Scripted::new(Ok(true));
    let mut memory =
        machine::Memory::new_static(pages(1, None), &mut (&mut limiter).into(), &mut region)
            .unwrap();
    let mut fuel = fuel(2_048);
    let refused = memory.grow(2, Some(&mut fuel), &mut (&mut limiter).into());
    assert_eq!(refused, Err(MemoryError::InvalidStaticBufferSize));
    assert_eq!(limiter.told, [MemoryError::InvalidStaticBufferSize]);
    assert_eq!(
        memory.grow(1, Some(&mut fuel), &mut (&mut limiter).into()),
        Ok(1)
    );
    assert_eq!(fuel.get_fuel(), Ok(1_024));
    assert!(memory.data().iter().all(|&byte| byte == 0));
}

#[test]
fn a_region_stays_if_the_limiter_refuses() {
    let mut region = vec![7; PAGE];
    for answer in [Ok(false), Err(DENIED)] {
        let mut limiter = Scripted::new(answer);
        let made =
            machine::Memory::new_static(pages(1, None), &mut (&mut limiter).into(), &mut region);
        assert!(made.is_err());
        assert!(region.iter().all(|&byte| byte == 7));
    }
}

#[test]
#[cfg(feature = "memory64")]
fn a_minimum_beyond_the_system() {
    let mut builder = MemoryType::builder();
    builder.min(1 << 48).memory64(true);
    let mut limiter = Scripted::new(Ok(true));
    let refused = Memory::new(builder.build().unwrap(), &mut lent(&mut limiter));
    assert_eq!(refused.map(|_| ()), Err(MemoryError::MinimumSizeOverflow));
    assert!(limiter.asked.is_empty());
}
