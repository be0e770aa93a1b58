//! The machine of a run: the crate's own memories, tables, element segments, globals and meter, data segments as lists of
//! bytes, and sixteen registers.
use crate::calls::{Call, Reply, Reply::*};
use std::ops::Range;
use wasmi_core::{
    ElementSegment, Fuel, FuelError, Global, Memory, MemoryError, MemoryType, RawVal, ReadAs, RefType, ResourceLimiter,
    ResourceLimiterRef, Table, V128, simd,
};

/// A memory, and the length of the region that is lent to it.
struct Lent {
    memory: Memory,
    region: Option<usize>,
}

enum Slot<T> {
    Live(T),
    Gone,
}

/// The live value of a slot, or the reply that there is none.
macro_rules! live {
    ($slot:expr) => {
        match $slot {
            Some(Slot::Live(value)) => value,
            _ => return Said("no such"),
        }
    };
}

/// The value of an index, or the reply that there is none.
macro_rules! found {
    ($value:expr) => {
        match $value {
            Some(value) => value,
            None => return Said("no such"),
        }
    };
}

/// What is given, or the reply of its error.
macro_rules! given {
    ($result:expr) => {
        match $result {
            Ok(value) => value,
            Err(error) => return error.into(),
        }
    };
}

/// The places of so many bytes from one on, if they lie within a list of so many.
fn range_of(from: u64, len: u64, size: usize) -> Option<Range<usize>> {
    let end = from.checked_add(len).filter(|&end| end <= size as u64)?;
    Some(from as usize..end as usize)
}

/// Takes the fuel for so many bytes. A meter that is off takes nothing.
fn charged(fuel: &mut Fuel, len: u64) -> Result<(), MemoryError> {
    match fuel.consume_fuel_if(|costs| costs.fuel_for_copying_values::<u8>(len)) {
        Err(FuelError::OutOfFuel { required_fuel }) => Err(MemoryError::OutOfFuel { required_fuel }),
        Ok(_) | Err(FuelError::FuelMeteringDisabled) => Ok(()),
    }
}

/// What there is of a memory.
#[derive(Copy, Clone)]
pub struct LiveMemory {
    pub index: u64,
    pub len: u64,
    pub page_size: u64,
    pub is_lent: bool,
}

pub struct Machine {
    pub fuel: Fuel,
    memories: Vec<Slot<Lent>>,
    tables: Vec<Slot<Table>>,
    segments: Vec<ElementSegment>,
    data_segments: Vec<Vec<u8>>,
    globals: Vec<Global>,
    registers: [RawVal; 16],
    region: Option<&'static mut [u8]>,
}

/// The crate's `Memory::grow` panics for a maximum of 2^48 pages of 64 KiB, which is 2^64 bytes. Growth to 2^48 pages is
/// out of bounds either way, so one page less stands in for it; only the number that a limiter is told as the maximum
/// differs, which no limiter of a script looks at.
fn growable(ty: MemoryType) -> MemoryType {
    if ty.page_size_log2() != 16 || ty.maximum() != Some(1 << 48) || ty.minimum() == 1 << 48 {
        return ty;
    }
    let mut b = MemoryType::builder();
    b.memory64(ty.is_64()).min(ty.minimum()).max(Some((1 << 48) - 1)).page_size_log2(16);
    b.build().expect("a valid type")
}

fn limiter_ref<'a>(limiter: Option<&'a mut dyn ResourceLimiter>) -> ResourceLimiterRef<'a> {
    match limiter {
        Some(limiter) => ResourceLimiterRef::from(limiter),
        None => ResourceLimiterRef::default(),
    }
}

impl Machine {
    pub fn new(fuel: Fuel, region: Option<&'static mut [u8]>) -> Self {
        Self {
            fuel,
            memories: Vec::new(),
            tables: Vec::new(),
            segments: Vec::new(),
            data_segments: Vec::new(),
            globals: Vec::new(),
            registers: [RawVal::from_bits64(0); 16],
            region,
        }
    }

    pub fn live_memories(&self) -> Vec<LiveMemory> {
        let live = self.memories.iter().enumerate().filter_map(|(index, slot)| match slot {
            Slot::Live(Lent { memory, region }) => Some(LiveMemory {
                index: index as u64,
                len: memory.data_size() as u64,
                page_size: u64::from(memory.ty().page_size()),
                is_lent: region.is_some(),
            }),
            Slot::Gone => None,
        });
        live.collect()
    }

    /// The index, size and element type of each live table.
    pub fn live_tables(&self) -> Vec<(u64, u64, &'static str)> {
        let live = self.tables.iter().enumerate().filter_map(|(index, slot)| match slot {
            Slot::Live(table) => {
                let kind = if table.ty().element() == RefType::Func { "func" } else { "extern" };
                Some((index as u64, table.size(), kind))
            }
            Slot::Gone => None,
        });
        live.collect()
    }

    /// The number of items in each element segment.
    pub fn segments(&self) -> Vec<u64> {
        self.segments.iter().map(|segment| u64::from(segment.size())).collect()
    }

    /// The number of bytes in each data segment.
    pub fn data_segments(&self) -> Vec<u64> {
        self.data_segments.iter().map(|bytes| bytes.len() as u64).collect()
    }

    /// The bytes that a call may ask the system for: the whole size of what it makes or grows.
    pub fn asked_by(&self, call: &Call) -> u128 {
        match *call {
            Call::NewMemory(ty) => u128::from(ty.minimum()) * u128::from(ty.page_size()),
            Call::GrowMemory { memory, pages } => match self.memories.get(memory) {
                Some(Slot::Live(Lent { memory, region: None })) => {
                    u128::from(pages) * u128::from(memory.ty().page_size()) + memory.data_size() as u128
                }
                _ => 0,
            },
            Call::NewTable { ref ty, .. } => u128::from(ty.minimum()) * 4,
            Call::GrowTable { table, delta, .. } => match self.tables.get(table) {
                Some(Slot::Live(table)) => (u128::from(delta) + u128::from(table.size())) * 4,
                _ => 0,
            },
            _ => 0,
        }
    }

    fn register(&self, r: u8) -> Option<RawVal> {
        self.registers.get(usize::from(r)).copied()
    }

    fn vector(&self, r: u8) -> Option<V128> {
        self.register(r).map(|value| value.read_as())
    }

    fn put(&mut self, r: u8, value: impl Into<RawVal>) -> Reply {
        self.registers[usize::from(r)] = value.into();
        Done
    }

    #[inline(always)]
    pub fn step(&mut self, call: &Call, limiter: Option<&mut dyn ResourceLimiter>) -> Reply {
        let mut limiter = limiter_ref(limiter);
        match *call {
            Call::SetFuel(n) => {
                given!(self.fuel.set_fuel(n));
                Done
            }
            Call::GetFuel => Number(given!(self.fuel.get_fuel())),
            Call::NewMemory(ty) => {
                let memory = given!(Memory::new(growable(ty), &mut limiter));
                self.memories.push(Slot::Live(Lent { memory, region: None }));
                Made("memory", self.memories.len() - 1)
            }
            Call::NewLentMemory(ty) => {
                let Some(region) = self.region.take() else { return Said("no region") };
                let len = region.len();
                let memory = given!(Memory::new_static(growable(ty), &mut limiter, region));
                self.memories.push(Slot::Live(Lent { memory, region: Some(len) }));
                Made("memory", self.memories.len() - 1)
            }
            Call::GrowMemory { memory, pages } => {
                let Lent { memory, region } = live!(self.memories.get_mut(memory));
                // A lent region that is too short is met after the permission and before the charge here, and after the
                // charge in the crate (docs/DIFFERENCES.md). Without a meter the crate comes to that refusal too.
                let desired = || (u128::from(memory.size()) + u128::from(pages)) * u128::from(memory.ty().page_size());
                let short = region.is_some_and(|len| desired() > len as u128);
                let fuel = (!short).then_some(&mut self.fuel);
                Number(given!(memory.grow(pages, fuel, &mut limiter)))
            }
            Call::DropMemory(i) => {
                let slot = found!(self.memories.get_mut(i).filter(|slot| matches!(slot, Slot::Live(_))));
                *slot = Slot::Gone;
                Done
            }
            Call::Read { memory, offset, len } => {
                let data = live!(self.memories.get(memory)).memory.data();
                if offset.checked_add(len).is_none_or(|end| end > data.len()) {
                    return Memory(MemoryError::OutOfBoundsAccess);
                }
                let mut bytes = Vec::new();
                if bytes.try_reserve_exact(len).is_err() {
                    return Said("no room");
                }
                bytes.extend_from_slice(&data[offset..offset + len]);
                Bytes(bytes)
            }
            Call::Write { memory, offset, ref bytes } => {
                given!(live!(self.memories.get_mut(memory)).memory.write(offset, bytes));
                Done
            }
            Call::Load { op, memory, ptr, offset } => {
                Value(given!(op.load(live!(self.memories.get(memory)).memory.data(), ptr, offset)))
            }
            Call::Store { op, memory, ptr, offset, value } => {
                let data = live!(self.memories.get_mut(memory)).memory.data_mut();
                given!(op.store(data, ptr, offset, RawVal::from_bits64(value)));
                Done
            }
            // The crate has no bulk writes of memories: a plain model of the standard's, charged as its writes of tables are.
            Call::FillMemory { memory, dst, value, len } => {
                let data = live!(self.memories.get_mut(memory)).memory.data_mut();
                let Some(range) = range_of(dst, len, data.len()) else { return Memory(MemoryError::OutOfBoundsAccess) };
                given!(charged(&mut self.fuel, len));
                data[range].fill(value);
                Done
            }
            Call::CopyMemory { dst_memory, dst, src_memory, src, len } => {
                let source = live!(self.memories.get(src_memory)).memory.data();
                let bytes = range_of(src, len, source.len()).map(|range| source[range].to_vec());
                let data = live!(self.memories.get_mut(dst_memory)).memory.data_mut();
                let (Some(bytes), Some(range)) = (bytes, range_of(dst, len, data.len())) else {
                    return Memory(MemoryError::OutOfBoundsAccess);
                };
                given!(charged(&mut self.fuel, len));
                data[range].copy_from_slice(&bytes);
                Done
            }
            // As the standard's, of the bytes of a segment, of which a dropped one has none.
            Call::InitMemory { memory, segment, dst, src, len } => {
                let data = live!(self.memories.get_mut(memory)).memory.data_mut();
                let source = found!(self.data_segments.get(segment));
                let (from, to) = (range_of(src.into(), len.into(), source.len()), range_of(dst, len.into(), data.len()));
                let (Some(from), Some(to)) = (from, to) else { return Memory(MemoryError::OutOfBoundsAccess) };
                given!(charged(&mut self.fuel, len.into()));
                data[to].copy_from_slice(&source[from]);
                Done
            }
            Call::NewTable { ty, init } => {
                let table = given!(Table::new(ty, init, &mut limiter));
                self.tables.push(Slot::Live(table));
                Made("table", self.tables.len() - 1)
            }
            Call::GrowTable { table, delta, init } => {
                let table = live!(self.tables.get_mut(table));
                Number(given!(table.grow(delta, init, Some(&mut self.fuel), &mut limiter)))
            }
            Call::DropTable(i) => {
                let slot = found!(self.tables.get_mut(i).filter(|slot| matches!(slot, Slot::Live(_))));
                *slot = Slot::Gone;
                Done
            }
            Call::GetElement { table, index } => Reference(live!(self.tables.get(table)).get(index)),
            Call::SetElement { table, index, value } => {
                given!(live!(self.tables.get_mut(table)).set(index, value));
                Done
            }
            Call::InitTable { table, segment, dst, src, len } => {
                let table = live!(self.tables.get_mut(table));
                let segment = found!(self.segments.get(segment));
                given!(table.init(segment.as_ref(), dst, src, len, Some(&mut self.fuel)));
                Done
            }
            Call::CopyTable { dst_table, dst, src_table, src, len } => {
                let fuel = Some(&mut self.fuel);
                given!(if dst_table == src_table {
                    live!(self.tables.get_mut(dst_table)).copy_within(dst, src, len, fuel)
                } else {
                    let Ok([Slot::Live(to), Slot::Live(from)]) = self.tables.get_disjoint_mut([dst_table, src_table])
                    else {
                        return Said("no such");
                    };
                    Table::copy(to, dst, from, src, len, fuel)
                });
                Done
            }
            Call::FillTable { table, dst, value, len } => {
                let table = live!(self.tables.get_mut(table));
                given!(table.fill(dst, value, len, Some(&mut self.fuel)));
                Done
            }
            Call::NewSegment { ty, ref items } => {
                self.segments.push(ElementSegment::new(ty, items.iter().copied()));
                Made("segment", self.segments.len() - 1)
            }
            Call::DropItems(i) => {
                found!(self.segments.get_mut(i)).drop_items();
                Done
            }
            Call::NewData(ref bytes) => {
                self.data_segments.push(bytes.clone());
                Made("data", self.data_segments.len() - 1)
            }
            Call::DropData(i) => {
                *found!(self.data_segments.get_mut(i)) = Vec::new();
                Done
            }
            Call::NewGlobal { value, ty } => {
                self.globals.push(Global::new(value, ty));
                Made("global", self.globals.len() - 1)
            }
            Call::SetGlobal { global, value } => {
                given!(found!(self.globals.get_mut(global)).set(value));
                Done
            }
            Call::GetGlobal(i) => Value(*found!(self.globals.get(i)).get_raw()),
            Call::SetRegister { dst, value } => {
                found!(self.register(dst));
                self.put(dst, value)
            }
            Call::GetRegister(a) => Value(found!(self.register(a))),
            Call::Make { op, dst, a } => {
                found!(self.register(dst));
                let value = op(found!(self.register(a)));
                self.put(dst, value)
            }
            Call::Unary { op, dst, a } => {
                found!(self.register(dst));
                let value = op(found!(self.vector(a)));
                self.put(dst, value)
            }
            Call::Binary { op, dst, a, b } => {
                found!(self.register(dst));
                let value = op(found!(self.vector(a)), found!(self.vector(b)));
                self.put(dst, value)
            }
            Call::Ternary { op, dst, a, b, c } => {
                found!(self.register(dst));
                let value = op(found!(self.vector(a)), found!(self.vector(b)), found!(self.vector(c)));
                self.put(dst, value)
            }
            Call::Shift { op, dst, a, amount } => {
                found!(self.register(dst));
                let value = op(found!(self.vector(a)), amount);
                self.put(dst, value)
            }
            Call::Test { op, a } => Value(op(found!(self.vector(a)))),
            Call::Extract { op, a, lane } => Value(op(found!(self.vector(a)), lane).expect("a tested lane")),
            Call::Replace { op, dst, a, lane, item } => {
                found!(self.register(dst));
                let value = op(found!(self.vector(a)), lane, found!(self.register(item))).expect("a tested lane");
                self.put(dst, value)
            }
            Call::Shuffle { dst, a, b, lanes } => {
                found!(self.register(dst));
                let lanes = lanes.map(|l| l.try_into().ok().expect("a tested lane"));
                let value = simd::i8x16_shuffle(found!(self.vector(a)), found!(self.vector(b)), lanes);
                self.put(dst, value)
            }
            Call::VectorLoad { op, dst, memory, ptr, offset } => {
                found!(self.register(dst));
                let value = given!(op(live!(self.memories.get(memory)).memory.data(), ptr, offset));
                self.put(dst, value)
            }
            Call::LoadLane { op, dst, a, lane, memory, ptr, offset } => {
                found!(self.register(dst));
                let old = found!(self.vector(a));
                let value = given!(
                    op(live!(self.memories.get(memory)).memory.data(), ptr, offset, old, lane).expect("a tested lane")
                );
                self.put(dst, value)
            }
            Call::VectorStore { a, memory, ptr, offset } => {
                let value = found!(self.vector(a));
                given!(simd::v128_store(live!(self.memories.get_mut(memory)).memory.data_mut(), ptr, offset, value));
                Done
            }
            Call::StoreLane { op, a, lane, memory, ptr, offset } => {
                let value = found!(self.vector(a));
                let data = live!(self.memories.get_mut(memory)).memory.data_mut();
                given!(op(data, ptr, offset, value, lane).expect("a tested lane"));
                Done
            }
        }
    }
}

/// The replies to calls in turn, under no limiter.
pub fn run(machine: &mut Machine, calls: &[Call]) -> Vec<Reply> {
    let mut replies = Vec::with_capacity(calls.len());
    for call in calls {
        replies.push(machine.step(call, None));
    }
    replies
}
