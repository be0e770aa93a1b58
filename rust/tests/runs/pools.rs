//! Machines alone and in pools, and what is held of dropped memories and tables.
use super::{MemoryCall, StaticCall, StaticReply, Step, call_of, split, unmetered};
use std::slice;
use wasmi_core_proved::machine::{
    Call, Machine, MemoryError, Quota, Reserving, TableError, run_reserving,
};
use wasmi_core_proved::pool::{Pool, PoolError};

static PAGE: [Step; 1] = [(StaticCall::NewPages(1, None), StaticReply::Made(0))];

#[test]
fn ample_memory_pool_runs() {
    let (calls, expected) = split(&PAGE).unwrap();
    let mut pool = Pool::new(65536, 0);
    let tenant = pool.add(unmetered()).ok();
    assert_eq!(tenant, Some(0), "the tenant");
    let replies = pool.run(0, &calls);
    assert_eq!(replies, Ok(expected), "the replies");
    assert_eq!(pool.held_bytes(0), Some(65536), "the bytes");
}

#[test]
fn a_pool_takes_many_machines() {
    let (calls, expected) = split(&PAGE).unwrap();
    let mut pool = Pool::new(65536, 0);
    for index in 0..1024 {
        let tenant = pool.add(unmetered()).ok();
        assert_eq!(tenant, Some(index), "the tenant");
    }
    assert_eq!(pool.len(), 1024, "the tenants");
    let replies = pool.run(1023, &calls);
    assert_eq!(replies, Ok(expected), "the replies");
    assert_eq!(pool.held_bytes(1023), Some(65536), "the last one's bytes");
    assert_eq!(pool.held_bytes(1024), None, "no bytes more");
}

#[test]
fn removed_tenants_give_their_bytes_back() {
    let (calls, expected) = split(&PAGE).unwrap();
    let mut pool = Pool::new(10 * 65536, 0);
    for index in 0..10 {
        assert_eq!(pool.add(unmetered()).ok(), Some(index), "the tenant");
        assert_eq!(pool.run(index, &calls).as_ref(), Ok(&expected), "a page");
    }
    for index in 10..1000 {
        let removed = pool.remove(index - 10).map(|machine| machine.total_bytes());
        assert_eq!(removed, Some(65536), "what it has");
        assert_eq!(pool.held_by_all().bytes, 9 * 65536, "what all hold");
        assert_eq!(pool.add(unmetered()).ok(), Some(index), "the index");
        assert_eq!(pool.run(index, &calls).as_ref(), Ok(&expected), "a page");
    }
    assert_eq!(pool.len(), 1000, "the indices");
    assert!(!pool.is_empty(), "tenants were added");
}

#[test]
fn no_call_finds_a_removed_tenant() {
    let (calls, expected) = split(&PAGE).unwrap();
    let mut pool = Pool::new(65536, 0);
    for _ in 0..3 {
        assert!(pool.add(unmetered()).is_ok(), "a tenant");
    }
    assert!(pool.is_in_place(2) && !pool.is_in_place(3), "three tenants");
    assert!(pool.remove(1).is_some(), "the tenant in the middle");
    assert!(pool.is_in_place(0) && !pool.is_in_place(1), "it is gone");
    assert!(!pool.is_in_place(2), "the one after it");
    assert!(pool.remove(1).is_none(), "no second one");
    assert!(pool.remove(3).is_none(), "none was added there");
    assert_eq!(pool.run(1, &calls), Err(PoolError::NoTenant), "no run");
    assert!(pool.machine(1).is_none(), "no machine");
    assert_eq!(pool.held_bytes(1), None, "no bytes");
    assert_eq!(pool.held_elements(1), None, "no elements");
    assert_eq!(pool.run(2, &calls), Ok(expected), "its index stays");
    assert_eq!(pool.add(unmetered()).ok(), Some(3), "no index twice");
}

/// Calls that a pool permits, denies and refuses.
static CALLS: [StaticCall; 7] = [
    StaticCall::NewPages(1, None),
    StaticCall::Memory(0, MemoryCall::Store(5)),
    StaticCall::Memory(0, MemoryCall::Load(5)),
    StaticCall::Memory(0, MemoryCall::Load(65536)),
    StaticCall::Memory(0, MemoryCall::Grow(1)),
    StaticCall::Memory(2, MemoryCall::Drop),
    StaticCall::GetFuel,
];

/// Each call on each of four indices does by `step` what it does by `run`.
fn steps_as_runs(stepped: &mut Pool, ran: &mut Pool, calls: &[Call]) {
    for (index, call) in (0..4).flat_map(|index| calls.iter().map(move |call| (index, call))) {
        let (reply, replies) = (
            stepped.step(index, call),
            ran.run(index, slice::from_ref(call)),
        );
        match (&reply, &replies) {
            (Ok(reply), Ok(replies)) => assert_eq!(replies.as_slice(), slice::from_ref(reply)),
            (reply, replies) => assert_eq!(reply.as_ref().err(), replies.as_ref().err()),
        }
        assert_eq!(
            stepped.held_bytes(index),
            ran.held_bytes(index),
            "the bytes"
        );
        assert_eq!(
            stepped.held_by_all().bytes,
            ran.held_by_all().bytes,
            "what all hold"
        );
    }
}

#[test]
fn a_step_is_a_run_of_one_call() {
    let calls: Vec<Call> = CALLS.iter().map(|row| call_of(*row).unwrap()).collect();
    let (mut stepped, mut ran) = (Pool::new(5 * 65536, 0), Pool::new(5 * 65536, 0));
    for pool in [&mut stepped, &mut ran] {
        for _ in 0..4 {
            assert!(pool.add(unmetered()).is_ok(), "a tenant");
        }
    }
    steps_as_runs(&mut stepped, &mut ran, &calls);
    for pool in [&mut stepped, &mut ran] {
        assert!(pool.remove(1).is_some(), "a tenant in the middle");
    }
    steps_as_runs(&mut stepped, &mut ran, &calls);
    assert_eq!(
        stepped.step(1, &calls[0]),
        Err(PoolError::NoTenant),
        "none is left there"
    );
    assert_eq!(stepped.held_by_all().bytes, 5 * 65536, "the cap is reached");
}

/// Runs calls under a limiter that holds what the machine has, and compares the replies, and what
/// both have then.
fn reserves<L: Reserving>(machine: &mut Machine, steps: &[Step], limiter: &mut L) {
    let (calls, expected) = split(steps).unwrap();
    let replies = run_reserving(machine, &calls, limiter).ok();
    assert_eq!(replies, Some(expected), "replies");
    let held = (
        limiter.held_bytes() as u128,
        limiter.held_elements() as u128,
    );
    let totals = (machine.total_bytes(), machine.total_elements());
    assert_eq!(held, totals, "what is held");
}

const MEMORY_DENIED: StaticReply =
    StaticReply::Memory(MemoryError::ResourceLimiterDeniedAllocation);

static MEMORIES: [Step; 8] = [
    (StaticCall::NewPages(1, None), StaticReply::Made(0)),
    (StaticCall::Memory(0, MemoryCall::Drop), StaticReply::Done),
    (StaticCall::NewPages(1, None), StaticReply::Made(1)),
    (StaticCall::NewPages(1, None), MEMORY_DENIED),
    (StaticCall::Memory(0, MemoryCall::Drop), StaticReply::NoSuch),
    (StaticCall::Memory(2, MemoryCall::Drop), StaticReply::NoSuch),
    (
        StaticCall::Memory(0, MemoryCall::Grow(0)),
        StaticReply::NoSuch,
    ),
    (
        StaticCall::Memory(0, MemoryCall::Read(0, 0)),
        StaticReply::NoSuch,
    ),
];

#[test]
fn dropped_memories_are_held() {
    let mut quota = Quota::new(131072, 0);
    let mut machine = unmetered();
    reserves(&mut machine, &MEMORIES, &mut quota);
    assert_eq!(machine.total_bytes(), 131072, "the bytes");
    assert!(machine.memory(0).is_none(), "one is gone");
    drop(machine);
}

static TABLES: [Step; 6] = [
    (StaticCall::NewTable(2), StaticReply::Made(0)),
    (StaticCall::DropTable(0), StaticReply::Done),
    (StaticCall::DropTable(0), StaticReply::NoSuch),
    (StaticCall::GrowTable(0, 1), StaticReply::NoSuch),
    (
        StaticCall::NewTable(2),
        StaticReply::Table(TableError::ResourceLimiterDeniedAllocation),
    ),
    (StaticCall::NewTable(1), StaticReply::Made(1)),
];

#[test]
fn dropped_tables_are_held() {
    let mut quota = Quota::new(65536, 3);
    let mut machine = unmetered();
    reserves(&mut machine, &TABLES, &mut quota);
    assert_eq!(machine.total_elements(), 3, "the elements");
    drop(machine);
}

/// A guest's memory under fuel and a cap, calls one by one and in lists, other threads, pools.
mod machines {
    use wasmi_core_proved::machine::{
        ByteList, Call, Machine, NoLimits, Quota, Reply, run, run_reserving,
    };
    use wasmi_core_proved::machine::{
        Fuel, FuelCostsProvider, FuelError, MemoryError, MemoryType, ResourceLimiterRef,
    };
    use wasmi_core_proved::pool::{Pool, PoolError};

    const PAGE: u64 = 65_536;

    fn machine(is_metered: bool) -> Machine<'static> {
        Machine::new(Fuel::new(is_metered, FuelCostsProvider::default()))
    }

    fn pages(minimum: u64, maximum: Option<u64>) -> MemoryType {
        let mut builder = MemoryType::builder();
        builder.min(minimum).max(maximum);
        builder.build().unwrap()
    }

    fn grow(pages: u64) -> Call {
        Call::GrowMemory { memory: 0, pages }
    }

    fn refused(error: MemoryError) -> Reply {
        Reply::Memory(error)
    }

    #[test]
    fn a_memory_grows_under_fuel_and_a_cap() {
        let (mut machine, mut quota) = (machine(true), Quota::new(4 * PAGE, 0));
        let calls = [
            Call::NewMemory(pages(1, Some(8))),
            grow(2),
            Call::SetFuel(8_000),
            grow(2),
            grow(2),
            Call::GetFuel,
            Call::NewMemory(pages(2, None)),
            Call::DropMemory(0),
            grow(0),
        ];
        let replies = run_reserving(&mut machine, &calls, &mut quota).unwrap();
        let expected = [
            Reply::Made(0),
            refused(MemoryError::OutOfFuel {
                required_fuel: 2_048,
            }),
            Reply::Done,
            Reply::Number(1),
            refused(MemoryError::OutOfBoundsGrowth),
            Reply::Number(5_952),
            refused(MemoryError::ResourceLimiterDeniedAllocation),
            Reply::Done,
            Reply::NoSuch,
        ];
        assert_eq!(replies.as_slice(), expected);
        assert_eq!(
            (quota.held_bytes(), machine.total_bytes()),
            (3 * PAGE, 3 * u128::from(PAGE))
        );
    }

    #[test]
    fn calls_one_by_one_are_a_run() {
        let calls = || {
            [
                Call::NewMemory(pages(1, None)),
                Call::Write {
                    memory: 0,
                    offset: 65_533,
                    bytes: vec![1, 2, 3].into(),
                },
                Call::Read {
                    memory: 0,
                    offset: 65_532,
                    len: 4,
                },
                Call::Read {
                    memory: 0,
                    offset: 65_533,
                    len: 4,
                },
                grow(1),
                Call::SetFuel(1),
            ]
        };
        let mut first = machine(false);
        let replies = run(
            &mut first,
            &calls(),
            &mut ResourceLimiterRef::<NoLimits>::default(),
        )
        .unwrap();
        let mut second = machine(false);
        let one_by_one: Vec<_> = calls()
            .iter()
            .map(|call| second.step(call, &mut ResourceLimiterRef::<NoLimits>::default()))
            .collect();
        let read = ByteList::from(wasmi_core_proved::machine::Vec::from(vec![0, 1, 2, 3]));
        let expected = [
            Reply::Made(0),
            Reply::Done,
            Reply::Bytes(read),
            refused(MemoryError::OutOfBoundsAccess),
            Reply::Number(1),
            Reply::Fuel(FuelError::FuelMeteringDisabled),
        ];
        assert_eq!(
            (replies.as_slice(), one_by_one.as_slice()),
            (expected.as_slice(), expected.as_slice())
        );
    }

    #[test]
    fn a_machine_goes_to_another_thread() {
        let mut machine = machine(false);
        let limiter = || ResourceLimiterRef::<NoLimits>::default();
        machine.step(&Call::NewMemory(pages(1, None)), &mut limiter());
        let machine = std::thread::spawn(move || {
            let bytes = b"there".to_vec().into();
            machine.step(
                &Call::Write {
                    memory: 0,
                    offset: 0,
                    bytes,
                },
                &mut limiter(),
            );
            machine
        })
        .join()
        .unwrap();
        assert_eq!(&machine.memory(0).unwrap().data()[..5], b"there");
    }

    #[test]
    fn machines_on_two_threads() {
        let threads = [1, 2].map(|count| {
            std::thread::spawn(move || {
                let (mut machine, mut quota) = (machine(false), Quota::new(2 * PAGE, 0));
                let mut calls = vec![Call::NewMemory(pages(0, None))];
                calls.extend((0..count).map(|_| grow(1)));
                run_reserving(&mut machine, &calls, &mut quota).unwrap();
                machine.total_bytes()
            })
        });
        let totals = threads.map(|thread| thread.join().unwrap());
        assert_eq!(totals, [1, 2].map(|pages| u128::from(pages * PAGE)));
    }

    #[test]
    fn machines_in_a_pool() {
        let mut pool = Pool::new(2 * PAGE, 0);
        for _ in 0..2 {
            pool.add(machine(false))
                .map_err(|(error, _)| error)
                .unwrap();
        }
        let run = |pool: &mut Pool<'_>, tenant| {
            pool.run(tenant, &[Call::NewMemory(pages(1, None)), grow(1)])
        };
        assert_eq!(
            run(&mut pool, 0).unwrap().as_slice(),
            [Reply::Made(0), Reply::Number(1)]
        );
        let denied = refused(MemoryError::ResourceLimiterDeniedAllocation);
        assert_eq!(
            run(&mut pool, 1).unwrap().as_slice(),
            [denied, Reply::NoSuch]
        );
        assert_eq!(
            (pool.held_bytes(0), pool.held_bytes(1)),
            (Some(2 * PAGE), Some(0))
        );
        assert_eq!(run(&mut pool, 2).map(|_| ()), Err(PoolError::NoTenant));
    }
}
