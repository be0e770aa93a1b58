//! Programs of the interpreter of `wasmi_example_callers`, and a memory under its limiter.
use crate::machine::{
    Call, CustomFuelCosts, Fuel, FuelCostsProvider, Machine, Memory, MemoryError, MemoryType,
    NoLimits, Quota, RawVal, Reply, ResourceLimiter, ResourceLimiterRef, TrapCode, run_lending,
};
use crate::proved::tests::example_callers::interpreter::{Ending, Instruction, Outcome, execute};
use crate::proved::tests::example_callers::limiter::AtMost;

/// A machine with so much fuel, of which one is taken for 64 copied bytes, or with a meter that is off.
fn machine(fuel: Option<u64>) -> Machine<'static> {
    let costs = CustomFuelCosts {
        bytes_copied_per_fuel: 64,
        fuel_per_bytes_translated: 7,
        fuel_per_bytes_validated: 2,
    };
    let mut meter = Fuel::new(fuel.is_some(), FuelCostsProvider::custom(costs));
    if let Some(fuel) = fuel {
        meter.set_fuel(fuel).expect("the meter is on");
    }
    Machine::new(meter)
}

fn memory_type(minimum: u64, page_size_log2: u8) -> MemoryType {
    let mut builder = MemoryType::builder();
    builder.min(minimum).page_size_log2(page_size_log2);
    builder.build().expect("a memory type")
}

/// Makes a memory on a machine that has none.
fn make<L: ResourceLimiter>(machine: &mut Machine, ty: MemoryType, limiter: &mut L) {
    let replies = run_lending(machine, &[Call::NewMemory(ty)], limiter);
    assert_eq!(replies.expect("memory")[..], [Reply::Made(0)]);
}

/// The pages of the memory of index 0.
fn memory_size(machine: &Machine) -> Option<u64> {
    machine.memory(0).map(Memory::size)
}

/// Executes at most 1,000 instructions of a program, and compares how it ends.
fn ends<L: ResourceLimiter>(
    program: &[Instruction],
    machine: &mut Machine,
    limiter: &mut L,
    expected: Outcome,
) {
    let outcome = execute(program, machine, limiter, 1000);
    assert_eq!(outcome, expected, "the outcome");
}

/// The factorial of 20. Local 0 counts down, and local 2 is -1.
static FACTORIAL: [Instruction; 7] = [
    Instruction::Constant { dst: 0, number: 20 },
    Instruction::Constant { dst: 1, number: 1 },
    Instruction::Constant {
        dst: 2,
        number: u64::MAX,
    },
    Instruction::Multiply {
        dst: 1,
        lhs: 1,
        rhs: 0,
    },
    Instruction::Add {
        dst: 0,
        lhs: 0,
        rhs: 2,
    },
    Instruction::BranchIf {
        condition: 0,
        target: 3,
    },
    Instruction::Return(1),
];

#[test]
fn a_factorial() {
    let mut machine = machine(None);
    let expected = Outcome {
        ending: Some(Ending::Returned(RawVal::from(2432902008176640000u64))),
        place: 6,
        executed: 63,
    };
    ends(&FACTORIAL, &mut machine, &mut NoLimits, expected);
}

#[test]
fn each_instruction_is_charged() {
    let mut machine = machine(Some(100));
    let returned = Outcome {
        ending: Some(Ending::Returned(RawVal::from(2432902008176640000u64))),
        place: 6,
        executed: 63,
    };
    ends(&FACTORIAL, &mut machine, &mut NoLimits, returned);
    assert_eq!(machine.fuel().get_fuel(), Ok(36));
    let out_of_fuel = Outcome {
        ending: Some(Ending::OutOfFuel),
        place: 3,
        executed: 36,
    };
    ends(&FACTORIAL, &mut machine, &mut NoLimits, out_of_fuel);
    assert_eq!(machine.fuel().get_fuel(), Ok(0));
}

/// Moves the address of `CHECKSUM` to the next word.
const NEXT_WORD: Instruction = Instruction::Add {
    dst: 0,
    lhs: 0,
    rhs: 4,
};

/// Counts a turn of a loop of `CHECKSUM`.
const COUNT_DOWN: Instruction = Instruction::Add {
    dst: 1,
    lhs: 1,
    rhs: 5,
};

/// The sum of 32 words of a memory, byte by byte. The first loop writes to the words the bytes of
/// their indices, the second adds them up. Local 0 is the address, local 1 counts down, local 2 is
/// the word, local 3 has the bytes 1, local 4 is 8, local 5 is -1, and local 6 is the sum.
static CHECKSUM: [Instruction; 17] = [
    Instruction::Constant {
        dst: 3,
        number: 0x0101_0101_0101_0101,
    },
    Instruction::Constant { dst: 4, number: 8 },
    Instruction::Constant {
        dst: 5,
        number: u64::MAX,
    },
    Instruction::Constant { dst: 1, number: 32 },
    Instruction::Store {
        ptr: 0,
        offset: 0,
        value: 2,
    },
    Instruction::Add {
        dst: 2,
        lhs: 2,
        rhs: 3,
    },
    NEXT_WORD,
    COUNT_DOWN,
    Instruction::BranchIf {
        condition: 1,
        target: 4,
    },
    Instruction::Constant { dst: 0, number: 0 },
    Instruction::Constant { dst: 1, number: 32 },
    Instruction::Load {
        dst: 2,
        ptr: 0,
        offset: 0,
    },
    Instruction::AddBytes {
        dst: 6,
        lhs: 6,
        rhs: 2,
    },
    NEXT_WORD,
    COUNT_DOWN,
    Instruction::BranchIf {
        condition: 1,
        target: 11,
    },
    Instruction::Return(6),
];

#[test]
fn a_checksum_over_a_memory() {
    let mut machine = machine(None);
    make(&mut machine, memory_type(256, 0), &mut NoLimits);
    // The sum of the numbers from 0 to 31 is 496, and 240 modulo 256.
    let expected = Outcome {
        ending: Some(Ending::Returned(RawVal::from(0xF0F0_F0F0_F0F0_F0F0u64))),
        place: 16,
        executed: 326,
    };
    ends(&CHECKSUM, &mut machine, &mut NoLimits, expected);
}

/// Grows a memory by two pages, and returns a copy of the result. Local 0 is how many pages, local
/// 1 the result, local 2 its copy, and local 3 the size afterwards.
static GROWTH: [Instruction; 5] = [
    Instruction::Constant { dst: 0, number: 2 },
    Instruction::Grow { dst: 1, pages: 0 },
    Instruction::Copy { dst: 2, src: 1 },
    Instruction::Size { dst: 3 },
    Instruction::Return(2),
];

/// How `GROWTH` ends, from its last instruction on.
fn growth_ends(ending: Ending) -> Outcome {
    Outcome {
        ending: Some(ending),
        place: 4,
        executed: 4,
    }
}

/// What `GROWTH` returns for a memory of one page under a quota, and the pages and bytes after it.
struct UnderQuota {
    cap: u64,
    result: u64,
    pages: u64,
    bytes: u64,
}

/// One byte decides about the growth. The result is the old size, or -1.
static UNDER_QUOTAS: [UnderQuota; 3] = [
    UnderQuota {
        cap: 65536,
        result: u64::MAX,
        pages: 1,
        bytes: 65536,
    },
    UnderQuota {
        cap: 196607,
        result: u64::MAX,
        pages: 1,
        bytes: 65536,
    },
    UnderQuota {
        cap: 196608,
        result: 1,
        pages: 3,
        bytes: 196608,
    },
];

#[test]
fn a_growth_under_a_quota() {
    for row in &UNDER_QUOTAS {
        let mut machine = machine(None);
        let mut quota = Quota::new(row.cap, 0);
        make(&mut machine, memory_type(1, 16), &mut quota);
        let result = RawVal::from(row.result);
        let expected = growth_ends(Ending::Returned(result));
        ends(&GROWTH, &mut machine, &mut quota, expected);
        assert_eq!(memory_size(&machine), Some(row.pages), "the size");
        assert_eq!(quota.held_bytes(), row.bytes, "the bytes");
        for (local, value) in [RawVal::from(2u64), result, result, RawVal::from(row.pages)]
            .iter()
            .enumerate()
        {
            assert_eq!(machine.register(local as u8), Some(*value), "a local");
        }
    }
}

/// What `GROWTH` returns for a memory of one page on a meter with so much fuel, unless it is out of
/// fuel, and the fuel and the pages after it.
struct OnMeter {
    fuel: u64,
    returned: Option<u64>,
    left: u64,
    pages: u64,
}

/// Two pages are 131,072 bytes and cost 2,048, and each of the five instructions costs 1. A growth
/// that can't be paid is refused, and costs its instruction alone.
static ON_METERS: [OnMeter; 3] = [
    OnMeter {
        fuel: 2053,
        returned: Some(1),
        left: 0,
        pages: 3,
    },
    OnMeter {
        fuel: 2052,
        returned: None,
        left: 0,
        pages: 3,
    },
    OnMeter {
        fuel: 2049,
        returned: Some(u64::MAX),
        left: 2044,
        pages: 1,
    },
];

#[test]
fn a_growth_on_a_meter() {
    for row in &ON_METERS {
        let mut machine = machine(Some(row.fuel));
        make(&mut machine, memory_type(1, 16), &mut NoLimits);
        let ending = match row.returned {
            Some(number) => Ending::Returned(RawVal::from(number)),
            None => Ending::OutOfFuel,
        };
        let expected = growth_ends(ending);
        ends(&GROWTH, &mut machine, &mut NoLimits, expected);
        assert_eq!(machine.fuel().get_fuel(), Ok(row.left), "the fuel");
        assert_eq!(memory_size(&machine), Some(row.pages), "the size");
    }
}

/// One instruction takes its fuel before it does anything, and only where it is one. There is no
/// memory.
#[test]
fn fuel_is_taken_for_an_instruction() {
    let constant = Instruction::Constant { dst: 0, number: 7 };
    let grow = Instruction::Grow { dst: 0, pages: 1 };
    for (instruction, fuel, ending, executed, left) in [
        (constant, 0, Ending::OutOfFuel, 0, 0),
        (constant, 1, Ending::Undefined, 1, 0),
        (Instruction::Return(16), 0, Ending::Undefined, 0, 0),
        (grow, 0, Ending::OutOfFuel, 0, 0),
        (grow, 1, Ending::Refused(Reply::NoSuch), 0, 0),
    ] {
        let mut machine = machine(Some(fuel));
        let expected = Outcome {
            ending: Some(ending),
            place: executed as usize,
            executed,
        };
        ends(&[instruction], &mut machine, &mut NoLimits, expected);
        assert_eq!(machine.fuel().get_fuel(), Ok(left), "the fuel");
        let number = if executed == 0 { 0 } else { 7u64 };
        assert_eq!(machine.register(0), Some(RawVal::from(number)), "the local");
    }
}

#[test]
fn programs_that_end_otherwise() {
    let past_the_end = Instruction::Load {
        dst: 0,
        ptr: 0,
        offset: 249,
    };
    let trap = Reply::Trap(TrapCode::MemoryOutOfBounds);
    for (instruction, ending, place, executed) in [
        (Instruction::Branch(0), None, 0, 1000),
        (Instruction::Branch(1), Some(Ending::Undefined), 1, 1),
        (Instruction::Return(16), Some(Ending::Undefined), 0, 0),
        (past_the_end, Some(Ending::Refused(trap)), 0, 0),
        (
            Instruction::Grow { dst: 16, pages: 0 },
            Some(Ending::Undefined),
            0,
            0,
        ),
        (
            Instruction::Constant { dst: 16, number: 0 },
            Some(Ending::Refused(Reply::NoSuch)),
            0,
            0,
        ),
    ] {
        let mut machine = machine(None);
        make(&mut machine, memory_type(256, 0), &mut NoLimits);
        let expected = Outcome {
            ending,
            place,
            executed,
        };
        ends(&[instruction], &mut machine, &mut NoLimits, expected);
    }
}

#[test]
fn a_memory_under_a_limiter() {
    let mut limiter = AtMost { bytes: 65536 };
    let mut lent = ResourceLimiterRef::from(&mut limiter);
    let mut memory = Memory::new(memory_type(1, 16), &mut lent).expect("a page");
    let refused = memory.grow(1, None, &mut lent).err();
    let written = memory.write(65535, &[44]).err();
    let expected = [Some(MemoryError::OutOfBoundsGrowth), None];
    assert_eq!([refused, written], expected, "a growth and a write");
    assert_eq!(memory.data().get(65535), Some(&44), "the byte");
}
