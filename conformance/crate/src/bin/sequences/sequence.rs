// Random calls on memories, tables and a meter under a limiter of random answers, and what each gives. This file is a part
// of two modules, in which `library` is the Rust crate and the proved one.
use library::{
    ElementSegment, Fuel, FuelCostsProvider, LimiterError, Memory, MemoryError, MemoryType, RawRef, RefType,
    ResourceLimiter, ResourceLimiterRef, Table, TableError, TableType, TypedRawRef,
};
use std::fmt::{Debug, Display};

struct Random(u64);

impl Random {
    fn below(&mut self, bound: u64) -> u64 {
        self.0 ^= self.0 << 13;
        self.0 ^= self.0 >> 7;
        self.0 ^= self.0 << 17;
        (self.0 >> 11) % bound
    }

    /// A small number mostly, or an edge.
    fn number(&mut self) -> u64 {
        match self.below(12) {
            0 => u64::MAX - self.below(2),
            1 => (1 << 32) - 2 + self.below(3),
            2 => 1 << 63,
            3 => 60 + self.below(8),
            _ => self.below(6),
        }
    }

    fn maximum(&mut self) -> Option<u32> {
        (self.below(2) == 0).then(|| 3 + self.below(80) as u32)
    }

    fn reference(&mut self) -> TypedRawRef {
        let ty = if self.below(8) == 0 { RefType::Extern } else { RefType::Func };
        TypedRawRef::new(RawRef::from(self.below(100) as u32), ty)
    }
}

/// Permits mostly, up to some thousand pages of bytes or elements, and writes down what it is asked and told.
struct Whims {
    random: Random,
    lines: Vec<String>,
}

impl Whims {
    fn asked(&mut self, what: &str, from: usize, to: usize, most: Option<usize>) -> Result<bool, LimiterError> {
        self.lines.push(format!("asked: {what} from {from} to {to}, at most {most:?}"));
        match self.random.below(8) {
            0 => Err(LimiterError::ResourceLimiterDeniedAllocation),
            // What the system surely has no memory for is permitted too.
            1..6 => Ok(to < 1 << 23 || to > 1 << 52),
            _ => Ok(false),
        }
    }

    fn told(&mut self, what: &str, error: &dyn Display) -> Result<(), LimiterError> {
        self.lines.push(format!("told: {what} {error}"));
        if self.random.below(4) == 0 { Err(LimiterError::ResourceLimiterDeniedAllocation) } else { Ok(()) }
    }
}

impl ResourceLimiter for Whims {
    fn memory_growing(&mut self, from: usize, to: usize, most: Option<usize>) -> Result<bool, LimiterError> {
        self.asked("memory", from, to, most)
    }

    fn table_growing(&mut self, from: usize, to: usize, most: Option<usize>) -> Result<bool, LimiterError> {
        self.asked("table", from, to, most)
    }

    fn memory_grow_failed(&mut self, error: &MemoryError) -> Result<(), LimiterError> {
        self.told("memory", error)
    }

    fn table_grow_failed(&mut self, error: &TableError) -> Result<(), LimiterError> {
        self.told("table", error)
    }

    fn instances(&self) -> usize {
        1
    }

    fn tables(&self) -> usize {
        1
    }

    fn memories(&self) -> usize {
        1
    }
}

struct Host {
    random: Random,
    whims: Whims,
    fuel: Fuel,
    is_metered: bool,
}

/// The limiter, or none where so much may be had of the system.
macro_rules! lent {
    ($host:expr, $amount:expr) => {
        if $host.random.below(4) == 0 && $amount < 1_000 {
            ResourceLimiterRef::default()
        } else {
            ResourceLimiterRef::from(&mut $host.whims as &mut dyn ResourceLimiter)
        }
    };
}

/// The meter, or none.
macro_rules! meter {
    ($host:expr) => {
        if $host.random.below(4) == 0 { None } else { Some(&mut $host.fuel) }
    };
}

fn said<T: Debug, E: Display>(host: &mut Host, call: &str, result: Result<T, E>) {
    let result = match result {
        Ok(value) => format!("{value:?}"),
        Err(error) => error.to_string(),
    };
    host.whims.lines.push(format!("{call}: {result}"));
}

fn new_memory(host: &mut Host) -> Option<Memory> {
    let mut builder = MemoryType::builder();
    let minimum = if host.random.below(8) == 0 { host.random.number() } else { host.random.below(3) };
    builder.min(minimum).max(host.random.maximum().map(u64::from)).memory64(host.random.below(2) == 0);
    builder.page_size_log2([0, 16, 16, 3][host.random.below(4) as usize]);
    let made = builder.build().and_then(|ty| Memory::new(ty, &mut lent!(host, minimum)));
    let size = made.as_ref().map(Memory::size).map_err(|error| *error);
    said(host, "new memory", size);
    made.ok()
}

fn new_table(host: &mut Host) -> Option<Table> {
    let (minimum, maximum) = (host.random.below(4), host.random.maximum());
    let ty = match host.random.below(3) {
        0 => TableType::new64(RefType::Func, minimum, maximum.map(u64::from)),
        _ => TableType::new(RefType::Func, minimum as u32, maximum),
    };
    let init = host.random.reference();
    let made = Table::new(ty, init, &mut lent!(host, minimum));
    let size = made.as_ref().map(Table::size).map_err(|error| *error);
    said(host, "new table", size);
    made.ok()
}

fn step_memory(host: &mut Host, memory: &mut Memory) {
    let (offset, value) = (host.random.number() as usize, host.random.below(256) as u8);
    match host.random.below(4) {
        0 => {
            let result = memory.write(offset, &[value; 3]);
            said(host, "write", result);
        }
        1 => {
            let mut bytes = [value; 3];
            let result = memory.read(offset, &mut bytes).map(|()| bytes);
            said(host, "read", result);
        }
        _ => {
            let pages = host.random.number();
            let grown = memory.grow(pages, meter!(host), &mut lent!(host, pages));
            said(host, "grow memory", grown);
        }
    }
    let sum: u64 = memory.data().iter().map(|&byte| u64::from(byte)).sum();
    let ty = memory.dynamic_ty();
    host.whims.lines.push(format!(
        "{} pages, {} bytes, sum {sum}, {:?}",
        memory.size(),
        memory.data_size(),
        ty.maximum()
    ));
}

fn step_table(host: &mut Host, table: &mut Table, other: &Table) {
    let (to, from, count) = (host.random.number(), host.random.number(), host.random.number());
    let value = host.random.reference();
    let result = match host.random.below(7) {
        0 => table.set(to, value),
        1 => table.fill(to, value, count, meter!(host)),
        2 => table.copy_within(to, from, count, meter!(host)),
        3 => Table::copy(table, to, other, from, count, meter!(host)),
        4 => {
            let segment = ElementSegment::new(value.ty(), (0..9).map(RawRef::from));
            table.init(segment.as_ref(), to, from as u32, count as u32, meter!(host))
        }
        _ => {
            let grown = table.grow(count, value, meter!(host), &mut lent!(host, count));
            said(host, "grow table", grown);
            Ok(())
        }
    };
    said(host, "table", result);
    let elements: Vec<Option<u32>> = (0..9).map(|index| table.get(index).map(|it| u32::from(it.raw()))).collect();
    host.whims.lines.push(format!("{} elements: {elements:?}", table.size()));
}

/// The lines of a sequence of calls, which a seed other than 0 determines.
pub fn lines(seed: u64, steps: usize) -> Vec<String> {
    let whims = Whims { random: Random(seed ^ 0x5555), lines: Vec::new() };
    let mut random = Random(seed);
    let is_metered = random.below(4) != 0;
    let fuel = Fuel::new(is_metered, FuelCostsProvider::default());
    let mut host = Host { random, whims, fuel, is_metered };
    let (mut memory, mut table) = (new_memory(&mut host), new_table(&mut host));
    let other = new_table(&mut host);
    for _ in 0..steps {
        match host.random.below(8) {
            0 => {
                let amount = if host.random.below(8) == 0 { u64::MAX } else { host.random.below(5_000) };
                let result = host.fuel.set_fuel(amount);
                said(&mut host, "set fuel", result);
            }
            1 => {
                let amount = host.random.number();
                let result = host.fuel.consume_fuel(|costs| costs.fuel_for_copying_values::<u32>(amount));
                said(&mut host, "consume fuel", result);
            }
            it => match (&mut memory, &mut table, &other) {
                (Some(memory), _, _) if it < 5 => step_memory(&mut host, memory),
                (_, Some(table), Some(other)) => step_table(&mut host, table, other),
                _ => {}
            },
        }
        let left = host.is_metered.then(|| host.fuel.get_fuel().map_err(|error| error.to_string()));
        host.whims.lines.push(format!("fuel {left:?}"));
    }
    host.whims.lines
}
