//! Random operands of calls.
use conformance::archives::{Limits, PlainCall};
use conformance::instructions::Words;
use conformance::random::Random;
use conformance::structs::kinds;

/// What no machine has room for: bytes or pages of 64 KiB from 2^63 bytes on.
const HOPELESS: &[u64] = &[1 << 63, (1 << 63) + 1, u64::MAX - 1, u64::MAX];
const KIB_64: u8 = 16;

pub fn limits(random: &mut Random) -> Limits {
    Limits {
        bytes: random.pick(&[0, 300, 65536, 200_000, 1 << 20, u64::MAX, u64::MAX]),
        elements: random.pick(&[0, 10, 100, 1000, 1000, u64::MAX, u64::MAX]),
        bytes_copied_per_fuel: random.pick(&[0, 1, 3, 64, 64, u32::MAX]),
        fuel_per_bytes_translated: 7,
        fuel_per_bytes_validated: 2,
        is_metered: random.pick(&[0, 1]),
        is_unlimited: random.pick(&[0, 0, 1, 255]),
    }
}

/// The words of a vector, or of a number that is likely at an edge.
pub fn words(random: &mut Random) -> Words {
    let (lo, hi) = match random.below(3) {
        0 => (random.lane(32), 0),
        1 => (random.lane(64), random.lane(64)),
        _ => random.vector(),
    };
    Words { lo, hi }
}

/// An address and an offset, mostly within a memory of a length.
pub fn address(random: &mut Random, len: u64) -> (u64, u64) {
    match random.below(8) {
        0 => (random.edge(), random.edge()),
        1 => (random.below(60).wrapping_neg(), random.below(120)),
        _ => {
            let sum = random.below(len + 20);
            let offset = random.below(sum + 1);
            (sum - offset, offset)
        }
    }
}

/// Draws calls.
pub struct Draw<'r> {
    pub random: &'r mut Random,
    kinds: u64,
}

impl<'r> Draw<'r> {
    pub fn new(random: &'r mut Random) -> Self {
        Self { random, kinds: kinds() }
    }

    pub fn index(&mut self) -> usize {
        self.random.pick(&[0, 0, 0, 0, 0, 0, 0, 0, 1, 1, 1, 1, 2, 3, 4, usize::MAX])
    }

    /// A number below 300, small ones more often.
    pub fn small(&mut self) -> u64 {
        let bound = self.random.pick(&[3, 10, 40, 300]);
        self.random.below(bound)
    }

    /// A number that is mostly small.
    pub fn amount(&mut self) -> u64 {
        if self.random.chance(12) { self.random.edge() } else { self.small() }
    }

    /// A place in a table, or how many elements are written, which mostly fit.
    fn place(&mut self) -> u64 {
        if self.random.chance(6) { self.random.edge() } else { self.random.below(12) }
    }

    /// How many pages or elements a memory or a table has or gets.
    fn size(&mut self, log2: u8) -> u64 {
        match (self.random.below(40), log2) {
            (0, _) => self.random.pick(HOPELESS),
            (1, KIB_64) => self.random.pick(&[1 << 47, 1 << 48, (1 << 48) + 1]),
            (_, KIB_64) => self.random.below(4),
            _ => self.small(),
        }
    }

    fn register(&mut self) -> u8 {
        if self.random.chance(4) { 16 + self.random.below(240) as u8 } else { self.random.below(16) as u8 }
    }

    /// A kind of calls: one of those that drop something more seldom than the others, and now and then none.
    fn kind(&mut self) -> u16 {
        match self.random.below(self.kinds) as u16 {
            _ if self.random.chance(2) => self.random.edge() as u16,
            4 | 11 | 17 | 32 if self.random.chance(80) => self.random.pick(&[2, 9, 10, 14, 15, 16, 31]),
            kind => kind,
        }
    }

    /// A call of any kind, each field of which is filled.
    pub fn call(&mut self) -> PlainCall {
        let kind = self.kind();
        self.call_of(kind)
    }

    /// A call of a kind.
    pub fn call_of(&mut self, kind: u16) -> PlainCall {
        let log2 = self.random.pick(&[0, 0, 0, KIB_64, KIB_64, 12]);
        let count = match kind {
            2 | 9 => self.size(log2),
            3 | 10 => self.size(0) / 40,
            12..=16 | 31 => self.place(),
            _ => self.amount(),
        };
        let most = self.size(log2);
        let (ptr, offset) = address(self.random, 100);
        PlainCall {
            kind,
            op: if self.random.chance(2) { self.random.next() as u16 } else { self.op(kind) },
            lane: self.random.below(18) as u8,
            dst: self.register(),
            a: self.register(),
            b: self.register(),
            c: self.register(),
            ty: self.ty(kind),
            is_mutable: self.random.pick(&[0, 1]),
            is_64: self.random.pick(&[0, 1]),
            has_maximum: self.random.pick(&[0, 0, 1]),
            page_size_log2: log2,
            reference: self.random.next() as u32,
            index: self.index(),
            source: self.index(),
            count,
            maximum: if self.random.chance(90) { most.max(count) } else { most },
            ptr,
            offset,
            to: self.place(),
            from: self.place(),
            value: words(self.random),
            lanes: std::array::from_fn(|_| self.random.below(32) as u8),
        }
    }

    fn op(&mut self, kind: u16) -> u16 {
        let count = match kind {
            5 => 26,
            6 => 9,
            7 | 8 => 5,
            23 => 64,
            24 => 163,
            25 => 7,
            26 | 27 => 7,
            _ => 1,
        };
        self.random.below(count) as u16
    }

    fn ty(&mut self, kind: u16) -> u8 {
        match kind {
            9..=16 if self.random.chance(90) => self.random.pick(&[5, 5, 5, 6]),
            _ => self.random.below(8) as u8,
        }
    }
}
