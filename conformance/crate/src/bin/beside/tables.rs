//! Tables whose state lies with the caller, in the static library; beside `Table` of the Rust crate, under its limiter behind `dyn`; and beside its
//! `region::table` on a region of the same length.
use crate::calls::Draw;
use crate::limits::Asked;
use crate::limits::{Meters, quotas};
use crate::{Tally, numbers};
use conformance::archives::*;
use conformance::random::Random;
use conformance::structs::reference_type;
use wasmi_core_proved::machine::{self, Quota};
use wasmi_core_proved::{
    ElementSegment, ElementSegmentRef, RawRef, RefType, ResourceLimiter, ResourceLimiterRef, Table, TableError,
    TableType, TypedRawRef, region,
};

/// The elements of a region. No type reaches further, so that an own table has room where a region has.
const ROOM: usize = 300;

/// The same table three times.
struct Thrice {
    plain: PlainTable,
    region: Vec<u32>,
    table: Table,
    ty: TableType,
    size: usize,
    elements: Vec<u32>,
}

/// What the tables of a sequence share.
struct Shared {
    meters: Meters,
    quota: PlainQuota,
    asked: Asked,
    lent: Quota,
}

/// A status with a number, where it has one.
type Status = (u8, u64);

fn status<T: Into<u64>>(result: Result<T, TableError>) -> Status {
    match result {
        Ok(number) => (0, number.into()),
        Err(error) => {
            let reply = numbers::of_table(error);
            (reply.status, reply.number)
        }
    }
}

fn done(result: Result<(), TableError>) -> Status {
    status(result.map(|()| 0_u64))
}

fn typed(reference: u32, ty: RefType) -> TypedRawRef {
    TypedRawRef::new(RawRef::from(reference), ty)
}

fn table_type(random: &mut Random) -> (PlainTable, TableType) {
    let minimum = random.below(100);
    let maximum = minimum + random.below(200);
    let (ty, is_64) = (random.pick(&[5, 5, 6]), random.below(2) as u8);
    let element = reference_type(ty).expect("a type of references");
    let made = match is_64 {
        0 => TableType::new(element, minimum as u32, Some(maximum as u32)),
        _ => TableType::new64(element, minimum, Some(maximum)),
    };
    (PlainTable { minimum, maximum, size: 0, has_maximum: 1, is_64, ty }, made)
}

impl Thrice {
    /// None if the table is refused, by the same status on each side; or what differs.
    fn new(random: &mut Random, shared: &mut Shared) -> Result<Option<Self>, String> {
        let (mut plain, ty) = table_type(random);
        let reference = random.next() as u32;
        let [mut region, mut elements] = [(); 2].map(|()| vec![7; ROOM]);
        let there = unsafe { wasmi_table_new(&mut plain, region.as_mut_ptr(), ROOM, reference, &mut shared.quota) };
        let mut limiter = ResourceLimiterRef::from(&mut shared.asked as &mut dyn ResourceLimiter);
        let table = Table::new(ty, typed(reference, ty.element()), &mut limiter);
        let mut limiter = machine::ResourceLimiterRef::from(&mut shared.lent);
        let size = region::table::make(ty, &mut elements, reference, &mut limiter);
        let statuses = [there, done(table.as_ref().map(drop).map_err(|it| *it)).0, done(size.map(drop)).0];
        if statuses != [there; 3] {
            return Err(format!("a new table {plain:?}: {statuses:?}"));
        }
        let (Ok(table), Ok(size)) = (table, size) else { return Ok(None) };
        Ok(Some(Self { plain, region, table, ty, size, elements }))
    }

    fn grow(&mut self, delta: u64, reference: u32, shared: &mut Shared) -> [Status; 3] {
        let (at, len, mut number) = (self.region.as_mut_ptr(), self.region.len(), 0);
        let Shared { meters, quota, asked, lent } = shared;
        let first = unsafe {
            wasmi_table_grow(&mut self.plain, at, len, delta, reference, &mut meters.plain, quota, &mut number)
        };
        let mut limiter = ResourceLimiterRef::from(asked as &mut dyn ResourceLimiter);
        let second = self.table.grow(delta, typed(reference, self.ty.element()), Some(&mut meters.fuel), &mut limiter);
        let mut limiter = machine::ResourceLimiterRef::from(lent);
        let (size, elements) = (&mut self.size, &mut self.elements);
        let third = region::table::grow(self.ty, size, elements, delta, reference, &mut meters.other, &mut limiter);
        [(first, number), status(second), status(third)]
    }

    /// A growth by the answers of a limiter: the statuses of the library and of `Table`, and how often each asks and tells.
    fn settle(&mut self, delta: u64, answers: [u8; 2], meters: &mut Meters) -> [(Status, u8, u8); 2] {
        let current = self.plain.size;
        let [answer, notice_answer] = answers;
        let desired = region::table::question(self.ty, self.size, delta).map_or(0, |(desired, _)| desired);
        let mut settled = Answers { current, answer, notice_answer, asked: 0, told: 0, desired };
        let (at, len, mut number) = (self.region.as_mut_ptr(), self.region.len(), 0);
        let plain = &mut meters.plain;
        let first = unsafe { wasmi_table_settle(&mut self.plain, at, len, delta, 5, plain, &mut settled, &mut number) };
        let mut asked = Asked::new(None, answer, notice_answer);
        let mut limiter = ResourceLimiterRef::from(&mut asked as &mut dyn ResourceLimiter);
        let second = self.table.grow_raw(delta, RawRef::from(5), Some(&mut meters.fuel), &mut limiter);
        let mut none = machine::ResourceLimiterRef::<machine::NoLimits>::default();
        if second.is_ok() {
            let (size, elements) = (&mut self.size, &mut self.elements);
            let _ = region::table::grow(self.ty, size, elements, delta, 5, &mut meters.other, &mut none);
        }
        [((first, number), settled.asked, settled.told), (status(second), asked.asked, asked.told)]
    }

    fn get(&self, index: u64) -> bool {
        let mut reference = 0;
        let there = unsafe { wasmi_table_get(&self.plain, self.region.as_ptr(), ROOM, index, &mut reference) };
        match self.table.get(index) {
            Some(element) => (there, reference, self.ty.element()) == (0, element.raw().into(), element.ty()),
            None => there == 21,
        }
    }

    fn set(&mut self, index: u64, reference: u32) -> [Status; 3] {
        let there = unsafe { wasmi_table_set(&self.plain, self.region.as_mut_ptr(), ROOM, index, reference) };
        let here = self.table.set(index, typed(reference, self.ty.element()));
        let other = region::table::set(self.ty, &mut self.elements[..self.size], index, reference);
        [(there, 0), done(here), done(other)]
    }

    fn fill(&mut self, range: &Range, reference: u32, meters: &mut Meters) -> [Status; 3] {
        let (at, mut number, ty) = (self.region.as_mut_ptr(), 0, self.ty);
        let there =
            unsafe { wasmi_table_fill(&self.plain, at, ROOM, range, reference, &mut meters.plain, &mut number) };
        let value = typed(reference, ty.element());
        let here = self.table.fill(range.to, value, range.count, Some(&mut meters.fuel));
        let own = &mut self.elements[..self.size];
        let other = region::table::fill(ty, own, range.to, reference, range.count, &mut meters.other);
        [(there, number), done(here), done(other)]
    }

    fn copy_within(&mut self, range: &Range, meters: &mut Meters) -> [Status; 3] {
        let (at, mut number) = (self.region.as_mut_ptr(), 0);
        let there = unsafe { wasmi_table_copy_within(&self.plain, at, ROOM, range, &mut meters.plain, &mut number) };
        let Range { to, from, count } = *range;
        let here = self.table.copy_within(to, from, count, Some(&mut meters.fuel));
        let own = &mut self.elements[..self.size];
        let other = region::table::copy_within(self.ty, own, to, from, count, &mut meters.other);
        [(there, number), done(here), done(other)]
    }

    fn copy_from(&mut self, source: &Self, range: &Range, meters: &mut Meters) -> [Status; 3] {
        let (at, mut number) = (self.region.as_mut_ptr(), 0);
        let (from_at, plain) = (source.region.as_ptr(), &mut meters.plain);
        let there = unsafe {
            wasmi_table_copy_from(&self.plain, at, ROOM, &source.plain, from_at, ROOM, range, plain, &mut number)
        };
        let Range { to, from, count } = *range;
        let here = Table::copy(&mut self.table, to, &source.table, from, count, Some(&mut meters.fuel));
        let (own, others) = (&mut self.elements[..self.size], &source.elements[..source.size]);
        let other = region::table::copy(self.ty, own, source.ty, others, to, from, count, &mut meters.other);
        [(there, number), done(here), done(other)]
    }

    fn init(&mut self, items: &[u32], range: &Range, meters: &mut Meters) -> [Status; 3] {
        let (at, mut number, plain) = (self.region.as_mut_ptr(), 0, &mut meters.plain);
        let there =
            unsafe { wasmi_table_init(&self.plain, at, ROOM, items.as_ptr(), items.len(), range, plain, &mut number) };
        let Range { to, from, count } = *range;
        let segment = ElementSegment::new(self.ty.element(), items.iter().map(|item| RawRef::from(*item)));
        let (short_from, short_count) = (from as u32, count as u32);
        let element = ElementSegmentRef::from(&segment);
        let here = self.table.init(element, to, short_from, short_count, Some(&mut meters.fuel));
        let own = &mut self.elements[..self.size];
        let other = region::table::init(self.ty, own, items, to, from, count, &mut meters.other);
        [(there, number), done(here), done(other)]
    }

    fn same_state(&self) -> bool {
        let size = self.plain.size;
        let elements = (0..size as u64).map(|index| self.table.get(index).map(|it| u32::from(it.raw())));
        [size as u64, size as u64] == [self.table.size(), self.size as u64]
            && elements.eq(self.region[..size].iter().map(|item| Some(*item)))
            && self.region == self.elements
    }
}

impl Shared {
    fn new(random: &mut Random) -> Self {
        let (quota, [own, lent]) = quotas(random);
        Self { meters: Meters::new(random), quota, asked: Asked::new(Some(own), 1, 0), lent }
    }

    fn same_state(&self) -> bool {
        let held = [self.quota.held_bytes, self.quota.held_elements];
        let quota = self.asked.quota.as_ref().expect("a quota");
        self.meters.same() && (self.quota.is_on == 0 || held == [quota.held_bytes(), quota.held_elements()])
    }
}

/// One step of a sequence on two tables: what differs, if anything.
fn step(first: &mut Thrice, second: &mut Thrice, shared: &mut Shared, draw: &mut Draw) -> Option<String> {
    let range = Range { to: draw.amount(), from: draw.amount(), count: draw.amount() };
    // A segment's places are of 32 bits.
    let short = Range { to: range.to, from: u64::from(range.from as u32), count: u64::from(range.count as u32) };
    let (index, reference) = (draw.amount(), draw.random.next() as u32);
    let delta = if draw.random.chance(10) { draw.random.edge() } else { draw.random.below(30) };
    let meters = &mut shared.meters;
    let statuses = match draw.random.below(12) {
        0..3 => first.grow(delta, reference, shared),
        3 | 4 if shared.quota.is_on == 0 => {
            let answers = [draw.random.pick(&[0, 1, 1, 1, 2]), draw.random.pick(&[0, 0, 1])];
            let [there, here] = first.settle(delta, answers, meters);
            if there != here {
                return Some(format!("a growth by {delta} that is answered {answers:?}: {there:?}, {here:?}"));
            }
            [(0, 0); 3]
        }
        5 => return meters.step(draw),
        6 => return (!first.get(index)).then(|| format!("the element {index}")),
        7 => first.set(index, reference),
        8 => first.fill(&range, reference, meters),
        9 => first.copy_within(&range, meters),
        10 => first.copy_from(second, &range, meters),
        _ => {
            let items: Vec<u32> = (0..draw.small()).map(|_| draw.random.next() as u32).collect();
            first.init(&items, &short, meters)
        }
    };
    (statuses != [statuses[0]; 3]).then(|| format!("{range:?}, {index}, by {delta}: {statuses:?}"))
}

/// The two tables of a sequence, unless one is refused; or what differs.
fn two(random: &mut Random, shared: &mut Shared) -> Result<Option<[Thrice; 2]>, String> {
    let (first, second) = (Thrice::new(random, shared)?, Thrice::new(random, shared)?);
    Ok(first.zip(second).map(|both| both.into()))
}

/// Tries so many pairs of tables, each with some thirty calls.
pub fn compare(seed: u64, count: u64) -> Tally {
    let mut random = Random::new(seed);
    let mut tally = Tally::default();
    let mut made = 0;
    for _ in 0..count {
        let mut shared = Shared::new(&mut random);
        let [mut first, mut second] = match two(&mut random, &mut shared) {
            Ok(Some(both)) => both,
            Ok(None) => continue,
            Err(what) => {
                tally.add(false, || what);
                continue;
            }
        };
        made += 2;
        for _ in 0..30 {
            let what = step(&mut first, &mut second, &mut shared, &mut Draw::new(&mut random));
            let same = what.is_none() && first.same_state() && shared.same_state();
            tally.add(same, || format!("{:?}: {}", first.plain, what.unwrap_or("another state".into())));
            std::mem::swap(&mut first, &mut second);
            if !same {
                break;
            }
        }
    }
    println!("tables, seed {seed}: {made} tables, {} calls, {} differ", tally.tried, tally.differ);
    tally
}
