//! Bulk instructions on memories: what is written, what is refused, and what it costs.
use super::{ample_memory, memory_type, metered_at};
use wasmi_core_proved::machine::{Fuel, Memory, MemoryError};

const OUTSIDE: Result<(), MemoryError> = Err(MemoryError::OutOfBoundsAccess);

/// What is written over a part of a memory.
#[derive(Clone, Copy)]
enum Write {
    /// This byte.
    Fill { to: u64, value: u8, len: u64 },
    /// A part of the memory itself.
    Within { to: u64, from: u64, len: u64 },
    /// A part of another memory, of the bytes 1 to 6.
    Copy { to: u64, from: u64, len: u64 },
    /// A part of a data segment, 6 to 8.
    Init { to: u64, from: u32, len: u32 },
}

/// A write on the memory that the steps before it left, at a unit of fuel for two bytes: how it
/// ends, and the fuel and the bytes then.
struct Step {
    what: &'static str,
    write: Write,
    outcome: Result<(), MemoryError>,
    left: u64,
    bytes: [u8; 6],
}

static STEPS: [Step; 9] = [
    Step {
        what: "all of another memory",
        write: Write::Copy {
            to: 0,
            from: 0,
            len: 6,
        },
        outcome: Ok(()),
        left: 2,
        bytes: [1, 2, 3, 4, 5, 6],
    },
    Step {
        what: "up",
        write: Write::Within {
            to: 1,
            from: 0,
            len: 3,
        },
        outcome: Ok(()),
        left: 1,
        bytes: [1, 1, 2, 3, 5, 6],
    },
    Step {
        what: "past the end",
        write: Write::Fill {
            to: 5,
            value: 9,
            len: 2,
        },
        outcome: OUTSIDE,
        left: 1,
        bytes: [1, 1, 2, 3, 5, 6],
    },
    Step {
        what: "up to the end",
        write: Write::Fill {
            to: 4,
            value: 9,
            len: 2,
        },
        outcome: Ok(()),
        left: 0,
        bytes: [1, 1, 2, 3, 9, 9],
    },
    Step {
        what: "more than is left",
        write: Write::Within {
            to: 0,
            from: 2,
            len: 4,
        },
        outcome: Err(MemoryError::OutOfFuel { required_fuel: 2 }),
        left: 0,
        bytes: [1, 1, 2, 3, 9, 9],
    },
    Step {
        what: "past the segment, before the fuel",
        write: Write::Init {
            to: 0,
            from: 2,
            len: 2,
        },
        outcome: OUTSIDE,
        left: 0,
        bytes: [1, 1, 2, 3, 9, 9],
    },
    Step {
        what: "a byte of the segment, for nothing",
        write: Write::Init {
            to: 0,
            from: 1,
            len: 1,
        },
        outcome: Ok(()),
        left: 0,
        bytes: [7, 1, 2, 3, 9, 9],
    },
    Step {
        what: "no byte, at both ends",
        write: Write::Init {
            to: 6,
            from: 3,
            len: 0,
        },
        outcome: Ok(()),
        left: 0,
        bytes: [7, 1, 2, 3, 9, 9],
    },
    Step {
        what: "the greatest length",
        write: Write::Copy {
            to: 1,
            from: 1,
            len: u64::MAX,
        },
        outcome: OUTSIDE,
        left: 0,
        bytes: [7, 1, 2, 3, 9, 9],
    },
];

/// Writes over a part of a memory.
fn perform(
    memory: &mut Memory,
    other: &Memory,
    write: Write,
    fuel: Option<&mut Fuel>,
) -> Result<(), MemoryError> {
    match write {
        Write::Fill { to, value, len } => memory.fill(to, value, len, fuel),
        Write::Within { to, from, len } => memory.copy_within(to, from, len, fuel),
        Write::Copy { to, from, len } => Memory::copy(memory, to, other, from, len, fuel),
        Write::Init { to, from, len } => memory.init(&[6, 7, 8], to, from, len, fuel),
    }
}

/// A memory of six bytes.
fn six_bytes() -> Memory<'static> {
    ample_memory(memory_type(6, None, 0, false))
}

#[test]
fn bulk_instructions_write_or_change_nothing() {
    let mut meter = metered_at(2, 5);
    let mut memory = six_bytes();
    let mut other = six_bytes();
    assert_eq!(other.write(0, &[1, 2, 3, 4, 5, 6]), Ok(()), "a write");
    for step in &STEPS {
        let outcome = perform(&mut memory, &other, step.write, Some(&mut meter));
        let answer = (outcome, meter.get_fuel());
        assert_eq!(answer, (step.outcome, Ok(step.left)), "{}", step.what);
        let mut bytes = [0; 6];
        assert_eq!(memory.read(0, &mut bytes), Ok(()), "{}", step.what);
        assert_eq!(bytes, step.bytes, "{}", step.what);
    }
}

/// The crate's memories, beside slices: the order of errors, and what is charged.
mod slices {
    use wasmi_core_proved::{
        Fuel, FuelCostsProvider, Memory, MemoryError, MemoryType, ResourceLimiterRef,
    };

    /// A memory of these bytes.
    fn memory_of(bytes: &[u8]) -> Memory {
        let mut builder = MemoryType::builder();
        builder.min(bytes.len() as u64).page_size_log2(0);
        let ty = builder.build().expect("a valid type");
        let mut memory = Memory::new(ty, &mut ResourceLimiterRef::default()).expect("memory");
        memory.write(0, bytes).expect("as many bytes");
        memory
    }

    fn counted(len: usize) -> Vec<u8> {
        (0..len).map(|byte| (byte % 251) as u8 + 1).collect()
    }

    fn fuel(amount: u64) -> Fuel {
        let mut fuel = Fuel::new(true, FuelCostsProvider::default());
        fuel.set_fuel(amount).expect("the meter is on");
        fuel
    }

    /// What a slice becomes if a part of another list is written over it, or nothing past an end.
    fn copied(bytes: &[u8], dst: usize, source: &[u8], src: usize, len: usize) -> Option<Vec<u8>> {
        let part = source.get(src..src.checked_add(len)?)?;
        let mut bytes = bytes.to_vec();
        bytes
            .get_mut(dst..dst.checked_add(len)?)?
            .copy_from_slice(part);
        Some(bytes)
    }

    fn compare(
        memory: &Memory,
        result: Result<(), MemoryError>,
        old: &[u8],
        expected: Option<Vec<u8>>,
    ) {
        match expected {
            Some(bytes) => {
                assert!(result.is_ok());
                assert_eq!(memory.data(), bytes);
            }
            None => {
                assert!(matches!(result, Err(MemoryError::OutOfBoundsAccess)));
                assert_eq!(memory.data(), old);
            }
        }
    }

    #[test]
    fn every_small_range_is_a_slices() {
        let (old, other) = (counted(6), [101, 102, 103, 104]);
        let places = || {
            (0..8)
                .flat_map(|dst| (0..8).flat_map(move |src| (0..8).map(move |len| (dst, src, len))))
        };
        for (dst, src, len) in places() {
            let (to, from, many) = (dst as u64, src as u64, len as u64);

            let mut memory = memory_of(&old);
            let result = memory.copy_within(to, from, many, None);
            compare(&memory, result, &old, copied(&old, dst, &old, src, len));

            let mut memory = memory_of(&old);
            let result = Memory::copy(&mut memory, to, &memory_of(&other), from, many, None);
            compare(&memory, result, &old, copied(&old, dst, &other, src, len));

            let mut memory = memory_of(&old);
            let result = memory.init(&other, to, src as u32, len as u32, None);
            compare(&memory, result, &old, copied(&old, dst, &other, src, len));

            let mut memory = memory_of(&old);
            let result = memory.fill(to, 77, many, None);
            compare(
                &memory,
                result,
                &old,
                copied(&old, dst, &vec![77; len], 0, len),
            );
        }
    }

    #[test]
    fn great_ranges_that_overlap() {
        let old = counted(20_000);
        for (dst, src) in [
            (0, 1),
            (1, 0),
            (0, 5_000),
            (5_000, 0),
            (0, 9_000),
            (9_000, 0),
            (100, 4_196),
        ] {
            for len in [4_095, 4_096, 4_097, 8_192, 8_193, 11_000] {
                let mut memory = memory_of(&old);
                let result = memory.copy_within(dst as u64, src as u64, len as u64, None);
                compare(&memory, result, &old, copied(&old, dst, &old, src, len));
            }
        }
    }

    #[test]
    fn the_greatest_numbers_are_out_of_bounds() {
        let old = counted(6);
        let mut memory = memory_of(&old);
        let other = memory_of(&old);
        let most = u64::MAX;
        let results = [
            memory.fill(most, 1, 1, None),
            memory.fill(1, 1, most, None),
            memory.fill(most, 1, most, None),
            memory.copy_within(0, most, 1, None),
            memory.copy_within(most, 0, 1, None),
            memory.copy_within(0, 0, most, None),
            Memory::copy(&mut memory, 0, &other, most, most, None),
            memory.init(&old, most, 0, 1, None),
            memory.init(&old, 0, u32::MAX, u32::MAX, None),
        ];
        for result in results {
            assert!(matches!(result, Err(MemoryError::OutOfBoundsAccess)));
        }
        assert_eq!(memory.data(), old);
    }

    #[test]
    fn bounds_come_before_fuel_and_fuel_before_the_bytes() {
        let old = counted(1000);
        let mut memory = memory_of(&old);
        let other = memory_of(&old);
        let mut meter = fuel(9);
        for result in [
            memory.fill(0, 1, 640, Some(&mut meter)),
            memory.copy_within(0, 1, 640, Some(&mut meter)),
            Memory::copy(&mut memory, 0, &other, 1, 640, Some(&mut meter)),
            memory.init(&old, 0, 1, 640, Some(&mut meter)),
        ] {
            assert!(matches!(
                result,
                Err(MemoryError::OutOfFuel { required_fuel: 10 })
            ));
        }
        for result in [
            memory.fill(361, 1, 640, Some(&mut meter)),
            memory.copy_within(0, 361, 640, Some(&mut meter)),
            Memory::copy(&mut memory, 0, &other, 361, 640, Some(&mut meter)),
            memory.init(&old[..639], 0, 0, 640, Some(&mut meter)),
        ] {
            assert!(matches!(result, Err(MemoryError::OutOfBoundsAccess)));
        }
        assert_eq!((memory.data(), meter.get_fuel().ok()), (&old[..], Some(9)));
        assert!(memory.fill(0, 1, 639, Some(&mut meter)).is_ok());
        assert_eq!(
            (memory.data()[638..640].to_vec(), meter.get_fuel().ok()),
            (vec![1, old[639]], Some(0))
        );
    }
}
