//! Random numbers by a seed (splitmix64), and operands that are likely at an edge.

pub struct Random(u64);

impl Random {
    pub fn new(seed: u64) -> Self {
        Self(seed)
    }

    pub fn next(&mut self) -> u64 {
        self.0 = self.0.wrapping_add(0x9E37_79B9_7F4A_7C15);
        let mut mixed = self.0;
        mixed = (mixed ^ (mixed >> 30)).wrapping_mul(0xBF58_476D_1CE4_E5B9);
        mixed = (mixed ^ (mixed >> 27)).wrapping_mul(0x94D0_49BB_1331_11EB);
        mixed ^ (mixed >> 31)
    }

    /// A number below a bound, or 0.
    pub fn below(&mut self, bound: u64) -> u64 {
        self.next() % bound.max(1)
    }

    /// An index of a list.
    pub fn index(&mut self, len: usize) -> usize {
        self.below(len as u64) as usize
    }

    pub fn chance(&mut self, percent: u64) -> bool {
        self.below(100) < percent
    }

    pub fn pick<T: Copy>(&mut self, items: &[T]) -> T {
        items[self.index(items.len())]
    }

    /// A number near 0, of any length, or near an edge of sizes and widths.
    pub fn edge(&mut self) -> u64 {
        match self.below(4) {
            0 => self.below(300),
            1 => self.next() >> self.below(64),
            _ => self.pick(EDGES).wrapping_add(self.below(5)).wrapping_sub(2),
        }
    }

    /// A lane of a width that is likely at an edge.
    pub fn lane(&mut self, width: u32) -> u64 {
        let greatest = u64::MAX >> (64 - width);
        let top = 1_u64 << (width - 1);
        let lane = match self.below(16) {
            0 | 1 => 0,
            2 => 1,
            3 => greatest,
            4 => top,
            5 => top - 1,
            6 => top + 1,
            7 => top - 2,
            8 => 0x5555_5555_5555_5555,
            9 => 0xAAAA_AAAA_AAAA_AAAA,
            10 => greatest - 1,
            11 => self.below(20),
            12 => 1 << self.below(u64::from(width)),
            13 => (1_u64 << self.below(u64::from(width))) - 1,
            14 => self.below(20).wrapping_neg(),
            _ => self.next(),
        };
        lane & greatest
    }

    /// The two words of a vector of lanes: one in all, two in turn, two halves, or others.
    pub fn vector(&mut self) -> (u64, u64) {
        let width = self.pick(&[8_u32, 8, 16, 16, 32, 64]);
        let (count, style, first, second) = (128 / width, self.below(5), self.lane(width), self.lane(width));
        let mut vector: u128 = 0;
        for index in 0..count {
            let lane = match style {
                0 => first,
                1 if index % 2 == 0 => first,
                2 if index * 2 < count => first,
                1 | 2 => second,
                _ => self.lane(width),
            };
            vector |= u128::from(lane) << (width * index);
        }
        (vector as u64, (vector >> 64) as u64)
    }
}

#[rustfmt::skip]
const EDGES: &[u64] = &[
    0, 1, 2, 255, 256, 65535, 65536, 65537, 1 << 31, (1 << 32) - 1, 1 << 32, (1 << 32) + 1,
    1 << 47, 1 << 48, (1 << 48) + 1, 1 << 61, 1 << 62, 1 << 63, u64::MAX - 1, u64::MAX,
];
