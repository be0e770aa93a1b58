//! The functions of all instructions, of the Rust crate and of the proved one, by their kinds, numbers and names.

/// Two words of a value, as include/*.h have them.
#[derive(Clone, Copy, Debug, Default, PartialEq, Eq)]
#[repr(C)]
pub struct Words {
    pub lo: u64,
    pub hi: u64,
}

impl Words {
    pub fn new(bits: u128) -> Self {
        Self { lo: bits as u64, hi: (bits >> 64) as u64 }
    }

    pub fn bits(self) -> u128 {
        u128::from(self.lo) | u128::from(self.hi) << 64
    }
}

/// A value, or the trap in its place by its number.
pub type Answer = Result<Words, u8>;

/// What stands for the trap of a store at an address that leaves another memory than the one at `ptr + offset`.
pub const FORMS_DIFFER: u8 = 254;

/// The answers of the two forms of a function, or twice that of the only one; none if there is no such lane.
pub type Answers = Option<[Answer; 2]>;

/// What an instruction may take, with a memory of so many bytes. The lanes are those of a shuffle.
#[derive(Clone, Debug)]
pub struct Operands<const N: usize> {
    pub words: [Words; 3],
    pub lane: u8,
    pub lanes: [u8; 16],
    pub memory: [u8; N],
    pub ptr: u64,
    pub offset: u64,
}

/// An instruction, and its function on operands.
pub struct Row<const N: usize> {
    pub kind: &'static str,
    pub number: u16,
    pub name: &'static str,
    pub function: fn(&mut Operands<N>) -> Answers,
}

pub mod theirs {
    use wasmi_core as library;
    include!("functions.rs");
}

pub mod here {
    use wasmi_core_proved as library;
    include!("functions.rs");
}
