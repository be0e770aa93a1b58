//! Compares the instructions of a copy of the Rust crate `wasmi_core` with the proved ones, on edge and random operands.
//!
//! usage: oracle [COUNT]: how many operands each instruction gets, a million if there is no number. It prints for each instruction that
//! differs the first operands on which it does. The exit status is 1 if one differs, and 2 if nothing is compared.
use conformance::instructions::{Answer, Answers, FORMS_DIFFER, Operands, Row, Words, here, theirs};
use std::process::ExitCode;

/// What an instruction gives: of both its forms, and the memory afterwards.
#[derive(PartialEq)]
struct Outcome {
    answers: Answers,
    memory: [u8; MEMORY],
}

impl Outcome {
    fn new(function: fn(&mut Operands<MEMORY>) -> Answers, operands: &Operands<MEMORY>) -> Self {
        let mut operands = operands.clone();
        Self { answers: function(&mut operands), memory: operands.memory }
    }

    /// What one of the two forms gives.
    fn answer(&self, form: usize) -> Option<Answer> {
        self.answers.map(|answers| answers[form])
    }

    fn status(&self, form: usize) -> String {
        match self.answer(form) {
            Some(Ok(_)) => "done".into(),
            Some(Err(2)) => "trap MemoryOutOfBounds".into(),
            Some(Err(5)) => "trap IntegerDivisionByZero".into(),
            Some(Err(6)) => "trap IntegerOverflow".into(),
            Some(Err(FORMS_DIFFER)) => "another memory than at ptr + offset".into(),
            Some(Err(other)) => format!("status {other}"),
            None => "no such lane".into(),
        }
    }

    /// The bytes of the value or of the memory, the lowest first.
    fn bytes(&self, kind: &str, form: usize) -> Vec<u8> {
        match self.answer(form) {
            _ if kind.starts_with("store") => self.memory.to_vec(),
            answer => answer.unwrap_or(Err(0)).unwrap_or_default().bits().to_le_bytes().to_vec(),
        }
    }
}

fn shown(words: Words) -> String {
    format!("0x{:032x}", words.bits())
}

/// What an instruction of a kind takes of its operands.
fn taken(kind: &str, it: &Operands<MEMORY>) -> String {
    let ([a, b, c], access) = (it.words.map(shown), format!("ptr {}, offset {}", it.ptr, it.offset));
    match kind {
        "unary" => a,
        "binary" => format!("{a}, {b}"),
        "ternary" => format!("{a}, {b}, {c}"),
        "extract_lane" => format!("lane {} of {a}", it.lane),
        "replace_lane" => format!("lane {} of {a}, {b}", it.lane),
        "load" => access,
        "store" => format!("{access}, {a}"),
        "shuffle" => format!("lanes {:?} of {a}, {b}", it.lanes),
        _ => format!("lane {} of {a}, {access}", it.lane),
    }
}

fn print_difference(row: &Row<MEMORY>, operands: &Operands<MEMORY>, proved: &Outcome, engine: &Outcome) {
    let is_second = proved.answer(0) == engine.answer(0) && proved.memory == engine.memory;
    let form = usize::from(is_second);
    println!("{}{} differs on {}", row.name, ["", "_at"][form], taken(row.kind, operands));
    match (proved.status(form), engine.status(form)) {
        (here, there) if here == there => println!("    both: {here}"),
        (here, there) => println!("    proved: {here}; engine: {there}"),
    }
    for (place, (here, there)) in proved.bytes(row.kind, form).into_iter().zip(engine.bytes(row.kind, form)).enumerate()
    {
        if here != there {
            println!("    byte {place}: proved {here:02x}, engine {there:02x}");
        }
    }
}

/// The instructions of both sides.
fn pairs() -> Vec<(Row<MEMORY>, Row<MEMORY>)> {
    let shuffle = |function| Row { kind: "shuffle", number: 0, name: "i8x16_shuffle", function };
    let mut pairs: Vec<_> = here::functions().into_iter().zip(theirs::functions()).collect();
    pairs.push((shuffle(here::shuffle), shuffle(theirs::shuffle)));
    pairs
}

fn main() -> ExitCode {
    let count = std::env::args().nth(1).map_or(Ok(1_000_000), |word| word.parse::<usize>());
    let Some(count) = count.ok().filter(|count| *count > 0) else {
        eprintln!("The argument is how many operands each instruction gets, a number above 0.");
        return ExitCode::from(2);
    };
    let pairs = pairs();
    let (mut draw, mut compared, mut differing) = (Draw(0x9e37_79b9_7f4a_7c15), 0_u64, Vec::new());
    for _ in 0..count.div_ceil(BATCH) {
        let [all, of_lanes] = draw.operands();
        for (proved, engine) in &pairs {
            let operands = if ["load_lane", "store_lane"].contains(&proved.kind) { &of_lanes } else { &all };
            for it in operands {
                compared += 1;
                let (here, there) = (Outcome::new(proved.function, it), Outcome::new(engine.function, it));
                if here != there && !differing.contains(&proved.name) {
                    differing.push(proved.name);
                    print_difference(proved, it, &here, &there);
                }
            }
        }
    }
    println!("{} instructions, {compared} answers compared, {} instructions differ", pairs.len(), differing.len());
    ExitCode::from(u8::from(!differing.is_empty()))
}

/// How many operands are tried at once.
pub const BATCH: usize = 1000;
/// The bytes of the memory that loads and stores are tried on.
pub const MEMORY: usize = 64;

/// The most lanes that a vector has.
const LANES: usize = 16;

/// A generator of operands: xorshift, with the seed of its state.
pub struct Draw(pub u64);

impl Draw {
    fn bits(&mut self) -> u64 {
        self.0 ^= self.0 << 13;
        self.0 ^= self.0 >> 7;
        self.0 ^= self.0 << 17;
        self.0
    }

    /// A word that is random, an amount, or of one to eight lanes that are edges of their width.
    fn word(&mut self) -> u64 {
        match self.bits() % 10 {
            kind @ 0..4 => self.edges(8 << kind),
            4 => self.amount(),
            5 => self.bits() >> 32,
            _ => self.bits(),
        }
    }

    /// An amount by which to shift or rotate: a width, or one less or more.
    fn amount(&mut self) -> u64 {
        let width = 8 << (self.bits() % 4);
        width - 1 + self.bits() % 3
    }

    /// Lanes of a width, each an edge of it or random.
    fn edges(&mut self, width: u32) -> u64 {
        let ones = u64::MAX >> (64 - width);
        let mut word = 0;
        for lane in 0..64 / width {
            let edge = match self.bits() % 10 {
                0 => 0,
                1 => 1,
                2 => ones,
                3 => ones >> 1,
                4 => (ones >> 1) + 1,
                5 => (ones >> 1) + 2,
                6 => u64::from(width) - 1,
                7 => u64::from(width),
                8 => u64::from(width) + 1,
                _ => self.bits() & ones,
            };
            word |= edge << (lane * width);
        }
        word
    }

    fn words(&mut self) -> Words {
        Words { lo: self.word(), hi: self.word() }
    }

    fn batch(&mut self) -> Vec<Words> {
        (0..BATCH).map(|_| self.words()).collect()
    }

    /// Operands of values, shuffles and accesses, and others of accesses to one lane. A batch has operands for each lane, and several offsets.
    pub fn operands(&mut self) -> [Vec<Operands<MEMORY>>; 2] {
        let (a, b, c) = (self.batch(), self.batch(), self.batch());
        let lanes: Vec<[u8; LANES]> = a.iter().map(|_| self.lanes()).collect();
        let [mut all, mut of_lanes] = [Vec::new(), Vec::new()];
        for start in (0..BATCH).step_by(BATCH / LANES) {
            let range = start..BATCH.min(start + BATCH / LANES);
            let lane = (start / (BATCH / LANES) % LANES) as u8;
            let (memory, ptrs) = (self.memory(), range.clone().map(|_| self.pointer()).collect::<Vec<_>>());
            let offset = self.offset();
            let of = |index| Operands {
                words: [a[index], b[index], c[index]],
                lane,
                lanes: lanes[index],
                memory,
                ptr: 0,
                offset,
            };
            all.extend(range.clone().zip(ptrs).map(|(index, ptr)| Operands { ptr, ..of(index) }));
            let memory = self.memory();
            of_lanes.extend(range.map(|index| Operands {
                memory,
                ptr: self.pointer(),
                offset: self.offset(),
                ..of(index)
            }));
        }
        [all, of_lanes]
    }

    /// A pointer that is mostly near the memory's end or in it.
    fn pointer(&mut self) -> u64 {
        match self.bits() % 16 {
            0 => self.bits(),
            1 => u64::MAX - self.bits() % 32,
            _ => self.bits() % (MEMORY as u64 + 8),
        }
    }

    /// An offset that is mostly small, and else past what 32 bits or 64 reach with a pointer.
    fn offset(&mut self) -> u64 {
        let small = self.bits() % 80;
        match self.bits() % 16 {
            0 => (1 << 32) + small,
            1 => u64::MAX - small,
            _ => small,
        }
    }

    /// A memory of random bytes.
    fn memory(&mut self) -> [u8; MEMORY] {
        let mut memory = [0; MEMORY];
        for word in memory.chunks_mut(8) {
            word.copy_from_slice(&self.bits().to_le_bytes());
        }
        memory
    }

    /// The indices of a shuffle, each below 32.
    fn lanes(&mut self) -> [u8; 16] {
        std::array::from_fn(|_| (self.bits() % 32) as u8)
    }
}
