//! Memories whose state lies with the caller, in the static library; beside `Memory` of the Rust crate on a borrowed buffer, under its limiter behind `dyn`;
//! and beside its `region::memory` on a region of the same length.
use crate::calls::Draw;
use crate::limits::Asked;
use crate::limits::{Meters, quotas};
use crate::{Tally, numbers};
use conformance::archives::*;
use conformance::random::Random;
use wasmi_core_proved::machine::{self, Quota};
use wasmi_core_proved::{Memory, MemoryError, MemoryType, ResourceLimiter, ResourceLimiterRef, region};

/// A buffer that is lent for any time, and freed when this ends.
struct Buffer(*mut [u8]);

impl Buffer {
    fn new(len: usize) -> Self {
        Self(Box::into_raw(vec![7; len].into_boxed_slice()))
    }
}

impl Drop for Buffer {
    fn drop(&mut self) {
        // SAFETY: the pointer is that of a box, and the memory that had the buffer has ended.
        drop(unsafe { Box::from_raw(self.0) })
    }
}

/// The same memory three times. The first is the library's; the second is made on a buffer that ends after it.
struct Thrice {
    plain: PlainMemory,
    region: Vec<u8>,
    meters: Meters,
    quota: PlainQuota,
    asked: Asked,
    memory: Memory,
    _buffer: Buffer,
    ty: MemoryType,
    size: usize,
    bytes: Vec<u8>,
    lent: Quota,
}

/// A status with a number, where it has one.
type Status = (u8, u64);

fn status<T: Into<u64>>(result: Result<T, MemoryError>) -> Status {
    match result {
        Ok(number) => (0, number.into()),
        Err(error) => {
            let reply = numbers::of_memory(error);
            (reply.status, reply.number)
        }
    }
}

fn memory_type(random: &mut Random) -> (PlainMemory, Option<MemoryType>) {
    let log2 = random.pick(&[0, 0, 0, 16]);
    let minimum = if log2 == 0 { random.below(200) } else { random.below(2) };
    let maximum = minimum + if log2 == 0 { random.below(200) } else { random.below(3) };
    let [has_maximum, is_64] = [random.below(2) as u8, random.below(2) as u8];
    let mut builder = MemoryType::builder();
    builder.min(minimum).max((has_maximum != 0).then_some(maximum)).page_size_log2(log2).memory64(is_64 != 0);
    (PlainMemory { minimum, maximum, size: 0, has_maximum, is_64, page_size_log2: log2 }, builder.build().ok())
}

impl Thrice {
    /// None if the memory is refused, by the same status on each side; or what differs.
    fn new(random: &mut Random) -> Result<Option<Self>, String> {
        let (mut plain, ty) = memory_type(random);
        let ty = ty.expect("a type of memories");
        let room = random.pick(&[0, 100, 200, 300, 65536, 200_000]) as usize;
        let (mut region, mut bytes) = (vec![7; room], vec![7; room]);
        let (mut quota, [own, mut lent]) = quotas(random);
        let mut asked = Asked::new(Some(own), 1, 0);
        let buffer = Buffer::new(room);
        let lent_buffer: &'static mut [u8] = unsafe { &mut *buffer.0 };
        let there = unsafe { wasmi_memory_new(&mut plain, region.as_mut_ptr(), room, &mut quota) };
        let made =
            Memory::new_static(ty, &mut ResourceLimiterRef::from(&mut asked as &mut dyn ResourceLimiter), lent_buffer);
        let here = region::memory::make(ty, &mut bytes, &mut machine::ResourceLimiterRef::from(&mut lent));
        let statuses = [there, status(made.as_ref().map(|_| 0_u64).map_err(|it| *it)).0, status(here.map(|_| 0_u64)).0];
        if statuses != [there; 3] {
            return Err(format!("a new memory {plain:?}: {statuses:?}"));
        }
        let (Ok(memory), Ok(size)) = (made, here) else { return Ok(None) };
        let meters = Meters::new(random);
        Ok(Some(Self { plain, region, meters, quota, asked, memory, _buffer: buffer, ty, size, bytes, lent }))
    }

    /// A growth under the quota: the three statuses with their numbers.
    fn grow(&mut self, pages: u64) -> [Status; 3] {
        let (at, len, mut number) = (self.region.as_mut_ptr(), self.region.len(), 0);
        let meters = &mut self.meters;
        let first = unsafe {
            wasmi_memory_grow(&mut self.plain, at, len, pages, &mut meters.plain, &mut self.quota, &mut number)
        };
        let mut limiter = ResourceLimiterRef::from(&mut self.asked as &mut dyn ResourceLimiter);
        let second = self.memory.grow(pages, Some(&mut meters.fuel), &mut limiter);
        let mut limiter = machine::ResourceLimiterRef::from(&mut self.lent);
        let (size, bytes) = (&mut self.size, &mut self.bytes);
        let third = region::memory::grow(self.ty, size, bytes, pages, &mut meters.other, &mut limiter);
        [(first, number), status(second), status(third)]
    }

    /// A growth by the answers of a limiter: the statuses of the library and of `Memory`, and how often each asks and tells.
    fn settle(&mut self, pages: u64, answers: [u8; 2]) -> [(Status, u8, u8); 2] {
        let current = self.plain.size;
        let [answer, notice_answer] = answers;
        let desired = region::memory::question(self.ty, self.size, pages).map_or(0, |(desired, _)| desired);
        let mut settled = Answers { current, answer, notice_answer, asked: 0, told: 0, desired };
        let (at, len, mut number) = (self.region.as_mut_ptr(), self.region.len(), 0);
        let meters = &mut self.meters;
        let first = unsafe {
            wasmi_memory_settle(&mut self.plain, at, len, pages, &mut meters.plain, &mut settled, &mut number)
        };
        let mut asked = Asked::new(None, answer, notice_answer);
        let mut limiter = ResourceLimiterRef::from(&mut asked as &mut dyn ResourceLimiter);
        let second = self.memory.grow(pages, Some(&mut meters.fuel), &mut limiter);
        // The third grows as far as the second did, by a limiter without a say.
        let mut none = machine::ResourceLimiterRef::<machine::NoLimits>::default();
        if second.is_ok() {
            let (size, bytes) = (&mut self.size, &mut self.bytes);
            let _ = region::memory::grow(self.ty, size, bytes, pages, &mut meters.other, &mut none);
        }
        [((first, number), settled.asked, settled.told), (status(second), asked.asked, asked.told)]
    }

    fn read(&self, offset: usize, len: usize) -> bool {
        let [mut first, mut second, mut third] = [(); 3].map(|()| vec![9; len]);
        let (at, room) = (self.region.as_ptr(), self.region.len());
        let there = unsafe { wasmi_memory_read(&self.plain, at, room, offset, first.as_mut_ptr(), len) };
        let here = self.memory.read(offset, &mut second).map(|()| 0_u64);
        let other = region::memory::read_bytes(&self.bytes[..self.size], offset, &mut third).map(|()| 0_u64);
        [there; 2] == [status(here).0, status(other).0] && first == second && first == third
    }

    fn write(&mut self, offset: usize, bytes: &[u8]) -> bool {
        let (at, room) = (self.region.as_mut_ptr(), self.region.len());
        let there = unsafe { wasmi_memory_write(&self.plain, at, room, offset, bytes.as_ptr(), bytes.len()) };
        let here = self.memory.write(offset, bytes).map(|()| 0_u64);
        let other = region::memory::write_bytes(&mut self.bytes[..self.size], offset, bytes).map(|()| 0_u64);
        [there; 2] == [status(here).0, status(other).0]
    }

    /// Whether the three have the same size and bytes, and the same is left in the meters and quotas.
    fn same_state(&self) -> bool {
        let (size, mut pages) = (self.plain.size, 0);
        let done = unsafe { wasmi_memory_size(&self.plain, self.region.as_ptr(), self.region.len(), &mut pages) };
        let held = [self.quota.held_bytes, self.quota.held_elements];
        let quota = self.asked.quota.as_ref().expect("a quota");
        done == 0
            && [pages; 2] == [self.memory.size(), region::memory::pages(self.ty, self.size)]
            && [size; 2] == [self.memory.data_size(), self.size]
            && self.region[..size] == *self.memory.data()
            && self.region == self.bytes
            && self.meters.same()
            && (self.quota.is_on == 0 || held == [quota.held_bytes(), quota.held_elements()])
    }

    /// One step of a sequence: what differs, if anything.
    fn step(&mut self, draw: &mut Draw) -> Option<String> {
        let page = if self.plain.page_size_log2 == 0 { 20 } else { 2 };
        let pages = if draw.random.chance(10) { draw.random.edge() } else { draw.random.below(page) };
        let (offset, len) = (draw.amount() as usize, draw.small() as usize);
        let what = match draw.random.below(10) {
            0..3 => {
                let statuses = self.grow(pages);
                (statuses != [statuses[0]; 3]).then(|| format!("a growth by {pages}: {statuses:?}"))
            }
            3 | 4 if self.quota.is_on == 0 => {
                let answers = [draw.random.pick(&[0, 1, 1, 1, 2]), draw.random.pick(&[0, 0, 1])];
                let [there, here] = self.settle(pages, answers);
                (there != here)
                    .then(|| format!("a growth by {pages} that is answered {answers:?}: {there:?}, {here:?}"))
            }
            5 => self.meters.step(draw),
            6 | 7 => (!self.read(offset, len)).then(|| format!("a read of {len} at {offset}")),
            _ => {
                let bytes: Vec<u8> = (0..len).map(|_| draw.random.next() as u8).collect();
                (!self.write(offset, &bytes)).then(|| format!("a write of {len} at {offset}"))
            }
        };
        what.or_else(|| (!self.same_state()).then(|| "another state".into()))
    }
}

/// Tries so many memories, each with some thirty calls.
pub fn compare(seed: u64, count: u64) -> Tally {
    let mut random = Random::new(seed);
    let mut tally = Tally::default();
    let mut made = 0;
    for _ in 0..count {
        let mut thrice = match Thrice::new(&mut random) {
            Ok(Some(thrice)) => thrice,
            Ok(None) => continue,
            Err(what) => {
                tally.add(false, || what);
                continue;
            }
        };
        made += 1;
        for _ in 0..30 {
            let what = thrice.step(&mut Draw::new(&mut random));
            let differs = what.is_some();
            tally.add(!differs, || format!("{:?}: {}", thrice.plain, what.unwrap_or_default()));
            if differs {
                break;
            }
        }
    }
    println!("memories, seed {seed}: {made} memories, {} calls, {} differ", tally.tried, tally.differ);
    tally
}
