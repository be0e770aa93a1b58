//! A run of a script: its machines, the limiter that its headers name (a quota, a list of answers, or a tenant of a pool), and what it prints.
use crate::calls::{Call, Reply};
use crate::machine::Machine;
use crate::parse::Headers;
use std::fmt::Write;
use wasmi_core::{
    CustomFuelCosts, Fuel, FuelCostsProvider, LimiterError, MemoryError, RawVal, RefType, ResourceLimiter, TableError,
    V128,
};

fn print_raw(text: &mut String, value: RawVal) {
    let bits = V128::from(value).as_u128();
    let _ = writeln!(text, "raw {} {}", bits as u64, (bits >> 64) as u64);
}

fn print(text: &mut String, reply: &Reply) {
    let _ = match reply {
        Reply::Done => writeln!(text, "done"),
        Reply::Made(kind, index) => writeln!(text, "{kind} {index}"),
        Reply::Value(value) => return print_raw(text, *value),
        Reply::Number(number) => writeln!(text, "value {number}"),
        Reply::Bytes(bytes) => {
            text.push_str("bytes");
            for byte in bytes {
                let _ = write!(text, " {byte}");
            }
            writeln!(text)
        }
        Reply::Reference(None) => writeln!(text, "none"),
        Reply::Reference(Some(reference)) => {
            let kind = if reference.ty() == RefType::Func { "func" } else { "extern" };
            writeln!(text, "{kind} {}", u32::from(reference.raw()))
        }
        Reply::Memory(error) => writeln!(text, "error {error}"),
        Reply::Table(error) => writeln!(text, "error {error}"),
        Reply::Fuel(error) => writeln!(text, "error {error}"),
        Reply::Global(error) => writeln!(text, "error {error}"),
        Reply::Trap(error) => writeln!(text, "error {error}"),
        Reply::Said(said) => writeln!(text, "{said}"),
    };
}

fn meter(rate: Option<u32>) -> Fuel {
    let Some(bytes_copied_per_fuel) = rate else {
        return Fuel::new(false, FuelCostsProvider::default());
    };
    let costs = CustomFuelCosts { bytes_copied_per_fuel, fuel_per_bytes_translated: 7, fuel_per_bytes_validated: 2 };
    Fuel::new(true, FuelCostsProvider::custom(costs))
}

/// The bytes that a `region` line lends; none for want of memory.
fn region(len: usize, byte: u8) -> Option<*mut [u8]> {
    let mut bytes: Vec<u8> = Vec::new();
    bytes.try_reserve_exact(len).ok()?;
    bytes.resize(len, byte);
    Some(Box::into_raw(bytes.into_boxed_slice()))
}

pub struct Session {
    pub machines: Vec<Machine>,
    pub printed: String,
    holdings: Option<Holdings>,
    answers: Option<Answers>,
    is_pool: bool,
    region: Option<*mut [u8]>,
}

impl Session {
    /// None for want of memory for the region, or for reserved slots of some kind that no machine has.
    pub fn new(headers: &Headers) -> Option<Self> {
        if headers.has_hopeless_slots() {
            return None;
        }
        let rate = headers.meter.flatten();
        let region = match headers.region {
            Some((len, byte)) => Some(region(len, byte)?),
            None => None,
        };
        // Only the first machine has it, and `drop` frees it after the machines.
        let lent = region.map(|region| unsafe { &mut *region });
        let mut machines = vec![Machine::new(meter(rate), lent)];
        let parties = headers.tenants.map_or(1, |(count, ..)| count);
        machines.extend((1..parties).map(|_| Machine::new(meter(rate), None)));
        Some(Self {
            machines,
            printed: String::new(),
            holdings: headers.caps().map(|(bytes, elements)| Holdings::new(parties, bytes, elements)),
            answers: headers.answers.clone().map(Answers::new),
            is_pool: headers.tenants.is_some(),
            region,
        })
    }

    pub fn call(&mut self, tenant: usize, call: &Call) {
        let mut party = self.holdings.as_mut().map(|holdings| Party(holdings, tenant));
        let limiter: Option<&mut dyn ResourceLimiter> = match (&mut party, &mut self.answers) {
            (Some(party), _) => Some(party),
            (None, Some(answers)) => Some(answers),
            (None, None) => None,
        };
        print(&mut self.printed, &self.machines[tenant].step(call, limiter));
    }

    /// The `held` lines: what the limiter says that each machine holds.
    pub fn end(&mut self) {
        let Some(holdings) = &self.holdings else { return };
        for (tenant, [bytes, elements]) in holdings.held.iter().enumerate() {
            let _ = match self.is_pool {
                true => writeln!(self.printed, "held {tenant} {bytes} {elements}"),
                false => writeln!(self.printed, "held {bytes} {elements}"),
            };
        }
    }
}

impl Drop for Session {
    fn drop(&mut self) {
        self.machines.clear();
        if let Some(region) = self.region {
            drop(unsafe { Box::from_raw(region) });
        }
    }
}

#[derive(Copy, Clone, PartialEq)]
pub enum Kind {
    Bytes,
    Elements,
}

/// What some parties hold, under one cap for all bytes and one for all elements.
pub struct Holdings {
    pub held: Vec<[u64; 2]>,
    caps: [u64; 2],
    last: Vec<Option<(Kind, u64)>>,
}

impl Holdings {
    pub fn new(parties: usize, bytes: u64, elements: u64) -> Self {
        Self { held: vec![[0; 2]; parties], caps: [bytes, elements], last: vec![None; parties] }
    }

    fn ask(&mut self, party: usize, kind: Kind, current: usize, desired: usize) -> bool {
        let index = kind as usize;
        let more = (desired - current) as u64;
        let together: u128 = self.held.iter().map(|held| u128::from(held[index])).sum();
        if together + u128::from(more) > u128::from(self.caps[index]) {
            return false;
        }
        self.held[party][index] += more;
        self.last[party] = Some((kind, more));
        true
    }

    fn give_back(&mut self, party: usize, kind: Kind) {
        if let Some((_, more)) = self.last[party].take_if(|(last, _)| *last == kind) {
            self.held[party][kind as usize] -= more;
        }
    }
}

/// One party's view of the holdings; a quota is the only party of its own.
pub struct Party<'a>(pub &'a mut Holdings, pub usize);

#[derive(Copy, Clone, PartialEq, Debug)]
pub enum Answer {
    Permit,
    Deny,
    Error,
    Complain,
}

/// A list of answers, one for each question; after the last it permits.
pub struct Answers {
    words: std::vec::IntoIter<Answer>,
    last: Answer,
}

impl Answers {
    pub fn new(words: Vec<Answer>) -> Self {
        Self { words: words.into_iter(), last: Answer::Permit }
    }

    fn answer(&mut self) -> Result<bool, LimiterError> {
        self.last = self.words.next().unwrap_or(Answer::Permit);
        match self.last {
            Answer::Permit | Answer::Complain => Ok(true),
            Answer::Deny => Ok(false),
            Answer::Error => Err(LimiterError::ResourceLimiterDeniedAllocation),
        }
    }

    fn notice(&self) -> Result<(), LimiterError> {
        match self.last {
            Answer::Complain => Err(LimiterError::ResourceLimiterDeniedAllocation),
            _ => Ok(()),
        }
    }
}

macro_rules! no_other_limits {
    () => {
        fn instances(&self) -> usize {
            usize::MAX
        }
        fn tables(&self) -> usize {
            usize::MAX
        }
        fn memories(&self) -> usize {
            usize::MAX
        }
    };
}

impl ResourceLimiter for Party<'_> {
    fn memory_growing(&mut self, current: usize, desired: usize, _: Option<usize>) -> Result<bool, LimiterError> {
        Ok(self.0.ask(self.1, Kind::Bytes, current, desired))
    }
    fn table_growing(&mut self, current: usize, desired: usize, _: Option<usize>) -> Result<bool, LimiterError> {
        Ok(self.0.ask(self.1, Kind::Elements, current, desired))
    }
    fn memory_grow_failed(&mut self, _: &MemoryError) -> Result<(), LimiterError> {
        self.0.give_back(self.1, Kind::Bytes);
        Ok(())
    }
    fn table_grow_failed(&mut self, _: &TableError) -> Result<(), LimiterError> {
        self.0.give_back(self.1, Kind::Elements);
        Ok(())
    }
    no_other_limits! {}
}

impl ResourceLimiter for Answers {
    fn memory_growing(&mut self, _: usize, _: usize, _: Option<usize>) -> Result<bool, LimiterError> {
        self.answer()
    }
    fn table_growing(&mut self, _: usize, _: usize, _: Option<usize>) -> Result<bool, LimiterError> {
        self.answer()
    }
    fn memory_grow_failed(&mut self, _: &MemoryError) -> Result<(), LimiterError> {
        self.notice()
    }
    fn table_grow_failed(&mut self, _: &TableError) -> Result<(), LimiterError> {
        self.notice()
    }
    no_other_limits! {}
}
