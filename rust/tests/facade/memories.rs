//! `Memory`.
use super::model::{ANSWERS, Asked, EDGES, Heard, Meter, Source, ask, tell, with_each, write};
use wasmi_core_proved::{Memory, MemoryError, MemoryType, ResourceLimiterRef};

pub const REFUSED: MemoryError = MemoryError::OutOfBoundsGrowth;
pub const DENIED: MemoryError = MemoryError::ResourceLimiterDeniedAllocation;
pub const OUTSIDE: MemoryError = MemoryError::OutOfBoundsAccess;

pub fn unpaid(required_fuel: u64) -> MemoryError {
    MemoryError::OutOfFuel { required_fuel }
}

/// A minimum and a maximum in pages, the logarithm of the bytes of a page, and the bytes of the buffer that is lent, if one
/// is. Sizes stay small, and no maximum stands for that of 32-bit addresses.
#[derive(Clone, Copy, Debug)]
pub struct Row(pub u64, pub Option<u64>, pub u8, pub Option<usize>);

pub const ROWS: [Row; 9] = [
    Row(4, Some(9), 0, None),
    Row(4, None, 0, None),
    Row(0, Some(2), 0, None),
    Row(1, Some(3), 16, None),
    Row(4, Some(9), 0, Some(7)),
    Row(4, None, 0, Some(12)),
    Row(4, Some(9), 0, Some(3)),
    Row(1, Some(2), 16, Some(131_071)),
    Row(1, None, 16, Some(65_536)),
];

/// Pages to grow by, up to what 32-bit addresses allow and past it.
const MORE: [u64; 13] = [
    0,
    1,
    2,
    3,
    5,
    6,
    8,
    65_535,
    65_536,
    (1 << 32) - 4,
    (1 << 32) - 3,
    1 << 33,
    u64::MAX,
];

impl Row {
    /// Pages to grow by, but for sizes that would take gigabytes and those that the target can't count.
    pub fn growths(self) -> impl Iterator<Item = u64> {
        let is_bounded =
            cfg!(target_pointer_width = "64") && (self.1.is_some() || self.3.is_some());
        MORE.into_iter()
            .filter(move |&more| is_bounded || more << self.2 < 1 << 20 || more > 1 << 32)
    }

    pub fn ty(self) -> MemoryType {
        let mut builder = MemoryType::builder();
        builder.min(self.0).max(self.1).page_size_log2(self.2);
        builder.build().expect("a valid type")
    }
}

/// The bytes of a memory of a row.
#[derive(Clone, Debug)]
pub struct Model {
    pub row: Row,
    pub bytes: Vec<u8>,
}

impl Model {
    pub fn pages(&self, pages: u64) -> usize {
        (pages as usize) << self.row.2
    }

    fn most(&self) -> Option<usize> {
        self.row.1.map(|most| self.pages(most))
    }

    fn has_room(&self, size: usize) -> bool {
        self.row.3.is_none_or(|room| size <= room)
    }

    pub fn size(&self) -> u64 {
        (self.bytes.len() >> self.row.2) as u64
    }

    pub fn new(row: Row, limiter: &mut Asked) -> Result<Self, MemoryError> {
        let mut model = Model {
            row,
            bytes: Vec::new(),
        };
        let size = model.pages(row.0);
        ask(
            limiter,
            Heard::Memory(0, size, model.most()),
            DENIED,
            DENIED,
        )?;
        if !model.has_room(size) {
            let error = MemoryError::InvalidStaticBufferSize;
            return tell(limiter, Heard::MemoryFailed(error), error, DENIED);
        }
        model.bytes = vec![0; size];
        Ok(model)
    }

    pub fn grow(
        &mut self,
        more: u64,
        meter: Option<&mut Meter>,
        limiter: &mut Asked,
    ) -> Result<u64, MemoryError> {
        let (old, most) = (self.size(), self.row.1.unwrap_or((1 << 32) >> self.row.2));
        if more == 0 {
            return Ok(old);
        }
        let desired = old
            .checked_add(more)
            .filter(|&desired| desired <= most)
            .ok_or(REFUSED)?;
        let desired = self.pages(desired);
        ask(
            limiter,
            Heard::Memory(self.bytes.len(), desired, self.most()),
            REFUSED,
            DENIED,
        )?;
        let error = if !self.has_room(desired) {
            Err(MemoryError::InvalidStaticBufferSize)
        } else {
            meter
                .map_or(Ok(()), |meter| meter.pay(self.pages(more) as u64))
                .map_err(unpaid)
        };
        if let Err(error) = error {
            return tell(limiter, Heard::MemoryFailed(error), error, DENIED);
        }
        self.bytes.resize(desired, 0);
        Ok(old)
    }
}

fn new(row: Row, limiter: &mut ResourceLimiterRef<'_>) -> Result<Memory, MemoryError> {
    match row.3 {
        Some(room) => Memory::new_static(row.ty(), limiter, vec![7; room].leak()),
        None => Memory::new(row.ty(), limiter),
    }
}

/// What is seen of a memory, and of a model.
type Seen = (Vec<u8>, usize, u64, MemoryType, MemoryType);

fn seen(memory: &mut Memory) -> Seen {
    let bytes = memory.data().to_vec();
    assert_eq!(memory.data_mut(), bytes);
    assert!(std::ptr::eq(memory.data_ptr(), memory.data().as_ptr()));
    (
        bytes,
        memory.data_size(),
        memory.size(),
        memory.ty(),
        memory.dynamic_ty(),
    )
}

fn seen_of(model: &Model) -> Seen {
    let Row(_, most, page, room) = model.row;
    let now = Row(model.size(), most, page, room).ty();
    (
        model.bytes.clone(),
        model.bytes.len(),
        model.size(),
        model.row.ty(),
        now,
    )
}

/// Bytes that differ.
pub fn bytes(len: usize) -> Vec<u8> {
    (1..=len).map(|it| (it % 251) as u8).collect()
}

/// A memory with the bytes 1, 2, 3, 4, and its model.
fn filled() -> (Memory, Model) {
    let mut memory = new(ROWS[0], &mut ResourceLimiterRef::default()).expect("a memory");
    memory.data_mut().copy_from_slice(&bytes(4));
    (
        memory,
        Model {
            row: ROWS[0],
            bytes: bytes(4),
        },
    )
}

#[test]
fn creations() {
    for row in ROWS {
        let made =
            |limiter: &mut ResourceLimiterRef<'_>| new(row, limiter).map(|mut it| seen(&mut it));
        with_each(
            row,
            &ANSWERS,
            |_, limiter| made(limiter),
            |_, asked| Model::new(row, asked).map(|it| seen_of(&it)),
        );
    }
}

#[test]
fn growths() {
    for row in ROWS.iter().filter(|row| row.3 != Some(3)) {
        for more in row.growths() {
            with_each(
                (row, more),
                &ANSWERS,
                |fuel, limiter| {
                    let mut memory =
                        new(*row, &mut ResourceLimiterRef::default()).expect("a memory");
                    memory.data_mut().fill(9);
                    (memory.grow(more, fuel, limiter), seen(&mut memory))
                },
                |meter, asked| {
                    let mut model = Model::new(*row, &mut None).expect("a memory");
                    model.bytes.fill(9);
                    (model.grow(more, meter, asked), seen_of(&model))
                },
            );
        }
    }
}

/// A call on a memory and on its model, with each meter.
macro_rules! calls {
    ($what:expr; $memory:ident, $fuel:ident => $call:expr; $bytes:ident, $meter:ident => $expected:expr) => {
        with_each(
            $what,
            &[None],
            |$fuel, _| {
                let (mut $memory, _) = filled();
                ($call, seen(&mut $memory))
            },
            |$meter, _| {
                let (_, mut model) = filled();
                let $bytes = &mut model.bytes;
                ($expected, seen_of(&model))
            },
        )
    };
}

#[test]
fn fillings() {
    for (dst, len) in pairs() {
        calls!(("fill", dst, len);
            memory, fuel => memory.fill(dst, 9, len, fuel);
            bytes, meter => write(bytes, dst, len, Source::Filled(9), meter, OUTSIDE, unpaid));
    }
}

/// Pairs of edges.
pub fn pairs() -> impl Iterator<Item = (u64, u64)> {
    EDGES
        .into_iter()
        .flat_map(|first| EDGES.map(|second| (first, second)))
}

#[test]
fn copies() {
    let (other, source) = (filled().0, bytes(4));
    for ((dst, src), len) in pairs().flat_map(|pair| EDGES.map(|len| (pair, len))) {
        calls!(("copy_within", dst, src, len);
            memory, fuel => memory.copy_within(dst, src, len, fuel);
            bytes, meter => write(bytes, dst, len, Source::Items(&source, src), meter, OUTSIDE, unpaid));
        calls!(("copy", dst, src, len);
        memory, fuel => {
            memory.data_mut().fill(9);
            Memory::copy(&mut memory, dst, &other, src, len, fuel)
        };
        bytes, meter => {
            bytes.fill(9);
            write(bytes, dst, len, Source::Items(&source, src), meter, OUTSIDE, unpaid)
        });
    }
}

#[test]
fn initializations() {
    // Long enough for a source whose low 16 bits are those of another.
    let segment = bytes(65_540);
    for (dst, (src, len)) in EDGES
        .into_iter()
        .flat_map(|dst| pairs().map(move |pair| (dst, pair)))
    {
        let [Ok(src), Ok(len)] = [u32::try_from(src), u32::try_from(len)] else {
            continue;
        };
        calls!(("init", dst, src, len);
            memory, fuel => memory.init(&segment, dst, src, len, fuel);
            bytes, meter => write(bytes, dst, len.into(), Source::Items(&segment, src.into()), meter, OUTSIDE, unpaid));
    }
}

#[test]
fn reads_and_writes() {
    for (offset, len) in pairs().filter(|pair| pair.1 < 65_538) {
        let (offset, len) = (offset as usize, len as usize);
        let range = offset..offset.saturating_add(len);
        let (mut memory, mut model) = filled();
        let (mut read, mut expected) = (vec![9; len], vec![9; len]);
        let is_within = model
            .bytes
            .get(range.clone())
            .map(|bytes| expected.copy_from_slice(bytes));
        assert_eq!(
            memory.read(offset, &mut read),
            is_within.ok_or(OUTSIDE),
            "read {range:?}"
        );
        assert_eq!(read, expected, "read {range:?}");
        if let Some(bytes) = model.bytes.get_mut(range.clone()) {
            bytes.fill(8);
        }
        assert_eq!(
            memory.write(offset, &vec![8; len]),
            is_within.ok_or(OUTSIDE),
            "write {range:?}"
        );
        assert_eq!(seen(&mut memory), seen_of(&model), "write {range:?}");
    }
}

/// The text of a memory has its type and its size, and nothing of its bytes.
#[test]
fn debug_texts() {
    let (mut memory, _) = filled();
    let before = format!("{memory:?}");
    assert!(before.starts_with("Memory { ty: ") && before.ends_with(", size: 4, .. }"));
    memory.data_mut().fill(171);
    assert_eq!(format!("{memory:?}"), before);
}
