//! What callers have to meet is tested: each assertion that a program can reach fires.
use wasmi_core_proved::machine::{
    ByteBuffer, Call, Kind, LimiterByKind, Machine, NoLimits, Quota, Replies, ResourceLimiter,
    ResourceLimiterRef, growth, run_into_reserving, run_reserving,
};
use wasmi_core_proved::{
    Fuel, FuelCostsProvider, Global, GlobalType, MemoryType, Mutability, RawVal, RefType,
    TableType, ValType, region,
};

fn nobody() -> ResourceLimiterRef<'static, NoLimits> {
    ResourceLimiterRef::default()
}

fn unmetered() -> Fuel {
    Fuel::new(false, FuelCostsProvider::default())
}

fn pages(maximum: u64) -> MemoryType {
    let mut builder = MemoryType::builder();
    builder.max(Some(maximum)).page_size_log2(0);
    builder.build().unwrap()
}

fn elements(maximum: u32) -> TableType {
    TableType::new(RefType::Func, 0, Some(maximum))
}

/// Calls that panic, with what each says.
macro_rules! panics {
    ($($what:literal: $($name:ident => $call:expr,)*)*) => { $($(
        #[test]
        #[should_panic = $what]
        fn $name() {
            let _ = $call;
        }
    )*)* };
}

panics! {
    "the reference lends no limiter":
    a_loan_of_no_limiter => nobody().into_limiter(),

    "the minimum is above the maximum":
    a_table_type => TableType::new(RefType::Func, 5, Some(2)),
    a_table_type_of_64_bits => TableType::new64(RefType::Func, 5, Some(2)),

    "the new size is below the present one":
    a_buffer_that_shrinks => ByteBuffer::new(5).unwrap().grow(4),

    "the size isn't above the old one":
    a_growth_by_no_byte => growth::decide_growth(4, 4, None, true, &mut unmetered(), &mut nobody()),

    "the desired size is below the current one":
    a_question_about_a_memory_that_shrinks => nobody().memory_growing(5, 4, None),
    a_question_about_a_table_that_shrinks => nobody().table_growing(5, 4, None),
    a_quota_that_is_asked_to_shrink => Quota::new(10, 10).growing(Kind::Bytes, 5, 4),
    a_quota_that_is_asked_about_a_memory_that_shrinks => Quota::new(10, 10).memory_growing(5, 4, None),
    a_quota_that_is_asked_about_a_table_that_shrinks => Quota::new(10, 10).table_growing(5, 4, None),

    "what the limiter holds isn't the machine's totals":
    a_limiter_with_other_holdings => {
        let mut quota = Quota::new(1 << 20, 10);
        quota.memory_growing(0, 1, None).unwrap();
        run_reserving(&mut Machine::new(unmetered()), &[Call::GetFuel], &mut quota)
    },
    a_limiter_with_other_holdings_and_kept_replies => {
        let (mut quota, mut replies) = (Quota::new(1 << 20, 10), Replies::with_capacity(1).unwrap());
        quota.memory_growing(0, 1, None).unwrap();
        let mut machine = Machine::new(unmetered());
        run_into_reserving(&mut machine, &[Call::GetFuel], &mut quota, &mut replies)
    },

    "the type allows no such size":
    a_memory_beyond_its_type =>
        region::memory::grow(pages(4), &mut 5, &mut [0; 8], 1, &mut unmetered(), &mut nobody()),
    a_question_beyond_a_type => region::memory::question(pages(4), 5, 1),
    a_table_beyond_its_type =>
        region::table::grow(elements(4), &mut 5, &mut [0; 8], 1, 0, &mut unmetered(), &mut nobody()),

    "the size is above the length of the region":
    a_memory_beyond_its_region =>
        region::memory::grow(pages(20), &mut 9, &mut [0; 8], 1, &mut unmetered(), &mut nobody()),
    a_table_beyond_its_region =>
        region::table::grow(elements(20), &mut 9, &mut [0; 8], 1, 0, &mut unmetered(), &mut nobody()),
}

#[test]
#[should_panic]
#[cfg(debug_assertions)]
fn a_pointer_to_a_constant() {
    let ty = GlobalType::new(ValType::I32, Mutability::Const);
    Global::new(RawVal::from(1), ty).get_raw_ptr();
}
