//! Writes of slices, beside the call `Write` with a list of the same bytes.
use super::{
    MemoryCall, StaticCall, StaticReply, Step, call_of, reply_of, runs_to, split, unmetered,
};
use std::slice;
use wasmi_core_proved::machine::{Machine, MemoryError, NoLimits, Reply, ResourceLimiterRef};
use wasmi_core_proved::pool::{Pool, PoolError};

const PAST: StaticReply = StaticReply::Memory(MemoryError::OutOfBoundsAccess);

/// A memory that is dropped, and two of 8 bytes.
static MEMORIES: [Step; 4] = [
    (StaticCall::NewBytes(8), StaticReply::Made(0)),
    (StaticCall::NewBytes(8), StaticReply::Made(1)),
    (StaticCall::NewBytes(8), StaticReply::Made(2)),
    (StaticCall::Memory(0, MemoryCall::Drop), StaticReply::Done),
];

/// A memory, an offset, bytes, and the reply to a write of them.
static WRITES: [(usize, usize, &[u8], StaticReply); 14] = [
    (1, 0, &[1, 2, 3], StaticReply::Done),
    (2, 5, &[4, 5, 6], StaticReply::Done),
    (1, 0, &[7, 8, 9, 10, 11, 12, 13, 14], StaticReply::Done),
    (1, 6, &[15, 16, 17], PAST),
    (1, 8, &[18], PAST),
    (1, 9, &[], PAST),
    (1, 8, &[], StaticReply::Done),
    (1, 0, &[], StaticReply::Done),
    (1, usize::MAX, &[19], PAST),
    (1, 1, &[20; 8], PAST),
    (0, 0, &[21], StaticReply::NoSuch),
    (0, 9, &[22], StaticReply::NoSuch),
    (3, 0, &[], StaticReply::NoSuch),
    (usize::MAX, 0, &[23], StaticReply::NoSuch),
];

/// The bytes of both memories.
fn bytes_of<'a>(machine: &'a Machine) -> [Option<&'a [u8]>; 3] {
    [0, 1, 2].map(|index| machine.memory(index).map(|memory| memory.data()))
}

#[test]
fn a_write_is_the_call() {
    let (mut written, mut called) = (unmetered(), unmetered());
    for machine in [&mut written, &mut called] {
        runs_to(machine, &MEMORIES);
    }
    let mut nobody = ResourceLimiterRef::<NoLimits>::default();
    for (memory, offset, bytes, expected) in WRITES {
        let call = call_of(StaticCall::Memory(memory, MemoryCall::Write(offset, bytes))).unwrap();
        let reply = written.write(memory, offset, bytes);
        assert_eq!(reply, reply_of(expected).unwrap(), "the reply");
        assert_eq!(reply, called.step(&call, &mut nobody), "that of the call");
        assert_eq!(bytes_of(&written), bytes_of(&called), "the bytes");
    }
    let last: [Option<&[u8]>; 3] = [
        None,
        Some(&[7, 8, 9, 10, 11, 12, 13, 14]),
        Some(&[0, 0, 0, 0, 0, 4, 5, 6]),
    ];
    assert_eq!(bytes_of(&written), last, "both memories");
}

#[test]
fn a_write_on_a_tenant_is_the_step() {
    let (calls, made) = split(&MEMORIES).unwrap();
    let (mut written, mut stepped) = (Pool::new(48, 0), Pool::new(48, 0));
    for pool in [&mut written, &mut stepped] {
        for tenant in 0..2 {
            assert_eq!(pool.add(unmetered()).ok(), Some(tenant), "the tenant");
            assert_eq!(pool.run(tenant, &calls).as_ref(), Ok(&made), "memories");
        }
    }
    for (memory, offset, bytes, expected) in WRITES {
        let call = call_of(StaticCall::Memory(memory, MemoryCall::Write(offset, bytes))).unwrap();
        let reply = written.write(1, memory, offset, bytes);
        assert_eq!(reply, Ok(reply_of(expected).unwrap()), "the reply");
        assert_eq!(reply, stepped.step(1, &call), "that of the step");
        for tenant in 0..2 {
            let bytes = [&written, &stepped].map(|pool| pool.machine(tenant).map(bytes_of));
            assert_eq!(bytes[0], bytes[1], "the bytes of each tenant");
        }
    }
    let zeros: [Option<&[u8]>; 3] = [None, Some(&[0; 8]), Some(&[0; 8])];
    let first = written.machine(0).map(bytes_of);
    assert_eq!(first, Some(zeros), "the first tenant's stay");
    assert_eq!(written.held_by_all().bytes, 48, "what is held");
    for tenant in [2, usize::MAX] {
        let refused = written.write(tenant, 1, 0, slice::from_ref(&1));
        assert_eq!(refused, Err(PoolError::NoTenant), "no tenant");
    }
    assert!(written.remove(0).is_some(), "a tenant");
    assert_eq!(
        written.write(0, 1, 0, &[1]),
        Err(PoolError::NoTenant),
        "gone"
    );
    assert_eq!(
        written.write(1, 1, 0, &[1]),
        Ok(Reply::Done),
        "its index stays"
    );
}
