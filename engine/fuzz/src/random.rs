//! Random choices from a seed, and modules damaged by them: the same seed gives the same choices everywhere.

/// A generator of numbers (SplitMix64).
pub struct Random(u64);

impl Random {
    pub fn new(seed: u64) -> Random {
        Random(seed)
    }

    pub fn bits(&mut self) -> u64 {
        self.0 = self.0.wrapping_add(0x9e37_79b9_7f4a_7c15);
        let mut bits = self.0;
        bits = (bits ^ bits >> 30).wrapping_mul(0xbf58_476d_1ce4_e5b9);
        bits = (bits ^ bits >> 27).wrapping_mul(0x94d0_49bb_1331_11eb);
        bits ^ bits >> 31
    }

    /// A number below `bound`, which is above 0.
    pub fn below(&mut self, bound: usize) -> usize {
        (self.bits() >> 16) as usize % bound
    }

    /// Whether something of one chance in `count` happens.
    pub fn once_in(&mut self, count: usize) -> bool {
        self.below(count) == 0
    }

    pub fn of<'a, T>(&mut self, items: &'a [T]) -> &'a T {
        &items[self.below(items.len())]
    }

    /// A number of 64 bits, more often one at which instructions change their behaviour.
    pub fn number(&mut self) -> u64 {
        let edges = [0, 1, u64::MAX, 1 << 31, 1 << 63, (1 << 31) - 1, (1 << 63) - 1, 0xffff_ffff, 0x8000_0000_8000, 64];
        match self.below(4) {
            0 => *self.of(&edges),
            1 => self.bits() % 200,
            2 => (self.bits() as i64 >> self.below(64)) as u64,
            _ => self.bits(),
        }
    }

    /// The bits of a float whose fraction has so many bits: often a NaN, quiet or not, an infinity or a zero.
    pub fn float(&mut self, fraction: u32) -> u64 {
        let (sign, exponent) = if fraction == 23 { (1 << 31, 0xff << 23) } else { (1 << 63, 0x7ff << 52) };
        let payload = self.bits() & ((1 << fraction) - 1);
        let bits = match self.below(6) {
            0 => exponent,
            1 => exponent | payload,
            2 => exponent | payload >> 1 | 1,
            3 => 0,
            _ => self.bits() & (exponent | payload),
        };
        if self.once_in(2) { bits | sign } else { bits }
    }
}

/// A module that is damaged: bytes changed, left out, doubled, taken from another module, or instructions exchanged.
pub fn mutant(bytes: &[u8], other: &[u8], random: &mut Random) -> Vec<u8> {
    let mut bytes = bytes.to_vec();
    for _ in 0..1 + random.below(3) {
        if bytes.len() < 9 {
            return bytes;
        }
        // The head of eight bytes stays in most cases.
        let from = if random.once_in(50) { 0 } else { 8 };
        let at = from + random.below(bytes.len() - from);
        let end = (at + 1 + random.below(6)).min(bytes.len());
        if random.once_in(2) && exchange(&mut bytes, random) {
            continue;
        }
        match random.below(12) {
            0..=3 => bytes[at] ^= 1 << random.below(8),
            4 | 5 => bytes[at] = random.bits() as u8,
            6 => bytes[at] = bytes[at].wrapping_add([1, 0xff][random.below(2)]),
            7 => bytes.truncate(at),
            8 => drop(bytes.drain(at..end)),
            9 => {
                let doubled = bytes[at..end].to_vec();
                drop(bytes.splice(at..at, doubled));
            }
            10 => {
                let start = random.below(other.len());
                let stop = (start + 1 + random.below(40)).min(other.len());
                drop(bytes.splice(at..end, other[start..stop].to_vec()));
            }
            _ => {
                let last = bytes.len() - 1;
                bytes.swap(at, last);
            }
        }
    }
    bytes
}

/// The codes of instructions with the same operands and results.
const ALIKE: [std::ops::RangeInclusive<u8>; 9] = [
    0x46..=0x4f,
    0x51..=0x5a,
    0x67..=0x69,
    0x6a..=0x78,
    0x79..=0x7b,
    0x7c..=0x8a,
    0x2c..=0x2f,
    0x30..=0x35,
    0x3c..=0x3e,
];

/// Exchanges an instruction for one that is alike, if the byte that is tried is a code. Such modules are mostly accepted.
fn exchange(bytes: &mut [u8], random: &mut Random) -> bool {
    let at = 8 + random.below(bytes.len() - 8);
    let Some(codes) = ALIKE.iter().find(|it| it.contains(&bytes[at])) else { return false };
    bytes[at] = codes.start() + random.below(usize::from(codes.end() - codes.start()) + 1) as u8;
    true
}
