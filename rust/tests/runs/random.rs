//! Creations and growths of memories, lent ones among them, and of tables, under a limiter that
//! answers by random numbers.
use super::{
    MemoryCall, StaticCall, StaticReply, Step, memory_size, meter, runs_under, table_size,
};
use wasmi_core_proved::machine::{
    Kind, LimiterByKind, LimiterError, Machine, MemoryError, TableError, Vec,
};

const REFUSAL: LimiterError = LimiterError::ResourceLimiterDeniedAllocation;

/// Answers questions by the bits of one number, two for each, and notices by the bits of another,
/// one for each.
#[derive(Clone, Copy, Debug, PartialEq, Eq)]
struct RandomAnswers {
    answers: u64,
    accepts: u64,
    questions: u32,
    notices: u32,
}

impl RandomAnswers {
    fn new(answers: u64, accepts: u64) -> Self {
        RandomAnswers {
            answers,
            accepts,
            questions: 0,
            notices: 0,
        }
    }

    fn answer(&mut self) -> Result<bool, LimiterError> {
        let bits = self.answers & 3;
        self.answers = self.answers.rotate_right(2);
        self.questions = self.questions.saturating_add(1);
        match bits {
            0 => Ok(false),
            1 => Err(REFUSAL),
            _ => Ok(true),
        }
    }

    fn notice_answer(&mut self) -> Result<(), LimiterError> {
        let bit = self.accepts & 1;
        self.accepts = self.accepts.rotate_right(1);
        self.notices = self.notices.saturating_add(1);
        if bit == 0 { Ok(()) } else { Err(REFUSAL) }
    }

    /// The reply to what is asked for.
    fn reply(&mut self, replies: Replies) -> StaticReply {
        match (self.answer(), replies.failed) {
            (Ok(true), None) => replies.permitted,
            (Ok(true), Some(failed)) => match self.notice_answer() {
                Ok(()) => failed,
                Err(_) => replies.refused,
            },
            (Ok(false), _) => replies.denied,
            (Err(_), _) => replies.refused,
        }
    }
}

/// The replies to what is asked for, by what becomes of it.
#[derive(Clone, Copy)]
struct Replies {
    permitted: StaticReply,
    denied: StaticReply,
    /// The limiter answers, or accepts the notice, by an error.
    refused: StaticReply,
    /// What is permitted fails, where it does.
    failed: Option<StaticReply>,
}

impl LimiterByKind for RandomAnswers {
    fn growing(&mut self, _: Kind, _: usize, _: usize) -> Result<bool, LimiterError> {
        self.answer()
    }

    fn grow_failed(&mut self, _kind: Kind) -> Result<(), LimiterError> {
        self.notice_answer()
    }
}

/// Random numbers, and how many of 32 growths by one page they permit.
const RANDOM_NUMBERS: [(u64, u64, u64); 4] = [
    (0x243F_6A88_85A3_08D3, 0x1319_8A2E_0370_7344, 16),
    (0xA409_3822_299F_31D0, 0x082E_FA98_EC4E_6C89, 14),
    (0x4528_21E6_38D0_1377, 0xBE54_66CF_34E9_0C6C, 12),
    (0xC0AC_29B7_C97C_50DD, 0x3F84_D5B5_B547_0917, 15),
];

/// The bytes of the spare region.
const REGION: u64 = 3;

/// A memory or a table as it is foretold, and the replies where it can't be made or grown.
#[derive(Clone, Copy)]
struct Instance {
    /// Pages or elements.
    size: u64,
    /// By how much it grows.
    growth: u64,
    /// How large it can be.
    most: u64,
    /// How large it can be where a meter that is on has no fuel.
    most_metered: u64,
    /// The limiter denies a growth; it refuses, or denies a creation; the size is out of reach.
    denied: StaticReply,
    refused: StaticReply,
    too_large: StaticReply,
}

/// A memory with pages of 64 KiB.
const OWNED: Instance = Instance {
    size: 1,
    growth: 1,
    most: u64::MAX,
    most_metered: 1,
    denied: StaticReply::Memory(MemoryError::OutOfBoundsGrowth),
    refused: StaticReply::Memory(MemoryError::ResourceLimiterDeniedAllocation),
    too_large: StaticReply::Memory(MemoryError::OutOfFuel {
        required_fuel: 1024,
    }),
};

/// A memory in the spare region, with pages of one byte, which cost nothing.
const LENT: Instance = Instance {
    size: 2,
    most: REGION,
    most_metered: REGION,
    too_large: StaticReply::Memory(MemoryError::InvalidStaticBufferSize),
    ..OWNED
};

/// A table, of which 16 elements can't be paid for.
const TABLE: Instance = Instance {
    size: 2,
    growth: 16,
    most: u64::MAX,
    most_metered: 2,
    denied: StaticReply::Table(TableError::GrowOutOfBounds),
    refused: StaticReply::Table(TableError::ResourceLimiterDeniedAllocation),
    too_large: StaticReply::Table(TableError::OutOfFuel { required_fuel: 1 }),
};

impl Instance {
    /// The reply where a size is out of reach.
    fn failed(&self, size: u64, is_metered: bool) -> Option<StaticReply> {
        let most = if is_metered {
            self.most_metered
        } else {
            self.most
        };
        (size > most).then_some(self.too_large)
    }

    /// The reply to the growth.
    fn grow(&mut self, random: &mut RandomAnswers, is_metered: bool) -> StaticReply {
        let size = self.size.saturating_add(self.growth);
        let reply = random.reply(Replies {
            permitted: StaticReply::Number(self.size),
            denied: self.denied,
            refused: self.refused,
            failed: self.failed(size, is_metered),
        });
        if let StaticReply::Number(_) = reply {
            self.size = size;
        }
        reply
    }
}

/// A machine as it is foretold.
struct Foretold {
    random: RandomAnswers,
    is_metered: bool,
    has_region: bool,
    memories: Vec<Instance>,
    tables: Vec<Instance>,
}

/// The reply to the creation of one instance more.
fn create(
    instances: &mut Vec<Instance>,
    instance: Instance,
    random: &mut RandomAnswers,
    is_metered: bool,
) -> StaticReply {
    let reply = random.reply(Replies {
        permitted: StaticReply::Made(instances.len()),
        denied: instance.refused,
        refused: instance.refused,
        failed: instance.failed(instance.size, is_metered),
    });
    if let StaticReply::Made(_) = reply {
        instances.push(instance).ok().unwrap();
    }
    reply
}

/// The reply to the growth of the instance at an index.
fn grow(
    instances: &mut [Instance],
    index: usize,
    random: &mut RandomAnswers,
    is_metered: bool,
) -> StaticReply {
    match instances.get_mut(index) {
        Some(instance) => instance.grow(random, is_metered),
        None => StaticReply::NoSuch,
    }
}

impl Foretold {
    /// The reply to the creation of a memory.
    fn new_memory(&mut self, memory: Instance) -> StaticReply {
        create(
            &mut self.memories,
            memory,
            &mut self.random,
            self.is_metered,
        )
    }

    /// The reply to the creation of a memory in the spare region, which it spends.
    fn new_lent_memory(&mut self, size: u64) -> StaticReply {
        if !self.has_region {
            return StaticReply::NoRegion;
        }
        self.has_region = false;
        self.new_memory(Instance { size, ..LENT })
    }

    /// The call that three random bits choose, and its reply.
    fn step(&mut self, bits: u64) -> Step {
        let index = (bits & 1) as usize;
        match bits {
            0 => (StaticCall::NewPages(1, None), self.new_memory(OWNED)),
            1 => (StaticCall::NewLentBytes(2), self.new_lent_memory(2)),
            2 => (StaticCall::NewLentBytes(4), self.new_lent_memory(4)),
            3 => (
                StaticCall::NewTable(2),
                create(&mut self.tables, TABLE, &mut self.random, self.is_metered),
            ),
            4 | 5 => (
                StaticCall::Memory(index, MemoryCall::Grow(1)),
                grow(&mut self.memories, index, &mut self.random, self.is_metered),
            ),
            _ => (
                StaticCall::GrowTable(index, 16),
                grow(&mut self.tables, index, &mut self.random, self.is_metered),
            ),
        }
    }
}

/// 64 calls by three bits each of a random number, with the replies that are foretold.
fn steps_of(foretold: &mut Foretold, calls: u64) -> Vec<Step> {
    let mut calls = calls;
    let mut steps = Vec::new();
    for _call in 0..64 {
        let step = foretold.step(calls & 7);
        steps.push(step).ok().unwrap();
        calls = calls.rotate_right(3);
    }
    steps
}

/// Compares what the machine has with what is foretold.
fn has_what_is_foretold(machine: &Machine, foretold: &Foretold) {
    for (index, memory) in foretold.memories.iter().enumerate() {
        assert_eq!(memory_size(machine, index), Some(memory.size), "pages");
    }
    for (index, table) in foretold.tables.iter().enumerate() {
        assert_eq!(table_size(machine, index), Some(table.size), "elements");
    }
    let memory = memory_size(machine, foretold.memories.len());
    assert_eq!(memory, None, "no memory more");
    let table = table_size(machine, foretold.tables.len());
    assert_eq!(table, None, "no table more");
}

/// Runs the calls of a random number under a limiter with these answers.
fn runs_as_foretold(is_metered: bool, random: RandomAnswers, calls: u64) {
    let mut foretold = Foretold {
        random,
        is_metered,
        has_region: true,
        memories: Vec::new(),
        tables: Vec::new(),
    };
    let steps = steps_of(&mut foretold, calls);
    let fuel = meter(is_metered);
    let mut region = [7; REGION as usize];
    let mut machine = Machine::with_region(fuel, &mut region);
    let mut limiter = random;
    runs_under(&mut machine, &steps, &mut limiter);
    assert_eq!(limiter, foretold.random, "the limiter");
    has_what_is_foretold(&machine, &foretold);
    drop(machine);
}

/// Random numbers that choose the calls.
const RANDOM_CALLS: [u64; 4] = [
    0x9216_D5D9_8979_FB1B,
    0xD131_0BA6_98DF_B5AC,
    0x24A1_9947_B391_6CF7,
    0x6369_20D8_7157_4E69,
];

#[test]
fn random_answers_leave_creations_as_they_are_told() {
    for (answers, accepts, _permitted) in RANDOM_NUMBERS {
        for calls in RANDOM_CALLS {
            let random = RandomAnswers::new(answers, accepts);
            runs_as_foretold(false, random, calls);
            runs_as_foretold(true, random, calls);
        }
    }
}
