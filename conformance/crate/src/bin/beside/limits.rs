//! Limiters: a quota, and a list of answers, both by the trait of machines and by the root's; and a meter of the static library beside two of the Rust crate.
use crate::calls::Draw;
use crate::numbers;
use conformance::archives::*;
use conformance::random::Random;
use wasmi_core_proved::machine::{self, Quota};
use wasmi_core_proved::{
    CustomFuelCosts, Fuel, FuelCostsProvider, LimiterError, MemoryError, ResourceLimiter, TableError,
};

pub enum Limiter {
    None,
    Quota(Quota),
    Answers(Listed),
}

impl Limiter {
    pub fn quota(bytes: u64, elements: u64) -> Self {
        Self::Quota(Quota::new(bytes, elements))
    }
}

const DENIED: LimiterError = LimiterError::ResourceLimiterDeniedAllocation;

/// Answers by their numbers in include/wasmi_machine.h: each question takes the next one.
#[derive(Debug)]
pub struct Listed {
    answers: std::vec::IntoIter<u8>,
    last: u8,
}

impl Listed {
    pub fn new(answers: Vec<u8>) -> Self {
        Self { answers: answers.into_iter(), last: 0 }
    }

    fn answer(&mut self) -> Result<bool, LimiterError> {
        self.last = self.answers.next().unwrap_or(0);
        match self.last {
            1 => Ok(false),
            2 => Err(DENIED),
            _ => Ok(true),
        }
    }

    fn notice(&self) -> Result<(), LimiterError> {
        if self.last == 3 { Err(DENIED) } else { Ok(()) }
    }
}

impl machine::ResourceLimiter for Listed {
    fn memory_growing(&mut self, _: usize, _: usize, _: Option<usize>) -> Result<bool, LimiterError> {
        self.answer()
    }
    fn table_growing(&mut self, _: usize, _: usize, _: Option<usize>) -> Result<bool, LimiterError> {
        self.answer()
    }
    fn memory_grow_failed(&mut self, _: &MemoryError) -> Result<(), LimiterError> {
        self.notice()
    }
    fn table_grow_failed(&mut self, _: &TableError) -> Result<(), LimiterError> {
        self.notice()
    }
    fn instances(&self) -> usize {
        1
    }
    fn tables(&self) -> usize {
        1
    }
    fn memories(&self) -> usize {
        1
    }
}

/// A limiter of the root that keeps what it is asked and told: a quota, or one answer and one answer to a notice.
pub struct Asked {
    pub quota: Option<Quota>,
    pub answer: u8,
    pub notice_answer: u8,
    pub asked: u8,
    pub told: u8,
}

impl Asked {
    /// A limiter with these answers; its quota goes before them.
    pub fn new(quota: Option<Quota>, answer: u8, notice_answer: u8) -> Self {
        Self { quota, answer, notice_answer, asked: 0, told: 0 }
    }

    fn answer(&mut self) -> Result<bool, LimiterError> {
        self.asked += 1;
        match self.answer {
            0 => Ok(false),
            1 => Ok(true),
            _ => Err(DENIED),
        }
    }

    fn notice(&mut self) -> Result<(), LimiterError> {
        self.told += 1;
        if self.notice_answer == 0 { Ok(()) } else { Err(DENIED) }
    }
}

impl ResourceLimiter for Asked {
    fn memory_growing(&mut self, now: usize, then: usize, most: Option<usize>) -> Result<bool, LimiterError> {
        match &mut self.quota {
            Some(quota) => machine::ResourceLimiter::memory_growing(quota, now, then, most),
            None => self.answer(),
        }
    }
    fn table_growing(&mut self, now: usize, then: usize, most: Option<usize>) -> Result<bool, LimiterError> {
        match &mut self.quota {
            Some(quota) => machine::ResourceLimiter::table_growing(quota, now, then, most),
            None => self.answer(),
        }
    }
    fn memory_grow_failed(&mut self, error: &MemoryError) -> Result<(), LimiterError> {
        match &mut self.quota {
            Some(quota) => machine::ResourceLimiter::memory_grow_failed(quota, error),
            None => self.notice(),
        }
    }
    fn table_grow_failed(&mut self, error: &TableError) -> Result<(), LimiterError> {
        match &mut self.quota {
            Some(quota) => machine::ResourceLimiter::table_grow_failed(quota, error),
            None => self.notice(),
        }
    }
    fn instances(&self) -> usize {
        1
    }
    fn tables(&self) -> usize {
        1
    }
    fn memories(&self) -> usize {
        1
    }
}

pub struct Meters {
    pub plain: Meter,
    pub fuel: Fuel,
    pub other: Fuel,
}

impl Meters {
    pub fn new(random: &mut Random) -> Self {
        let bytes_copied_per_fuel = random.pick(&[0, 1, 3, 64, 64]);
        let costs =
            CustomFuelCosts { bytes_copied_per_fuel, fuel_per_bytes_translated: 7, fuel_per_bytes_validated: 2 };
        let is_on = random.chance(60);
        let [mut fuel, mut other] = [(); 2].map(|()| Fuel::new(is_on, FuelCostsProvider::custom(costs)));
        let left = random.pick(&[0, 5, 100, 5000, u64::MAX]);
        if is_on {
            fuel.set_fuel(left).expect("a meter that is on");
            other.set_fuel(left).expect("a meter that is on");
        }
        let plain = Meter {
            left,
            bytes_copied_per_fuel,
            fuel_per_bytes_translated: 7,
            fuel_per_bytes_validated: 2,
            is_on: is_on.into(),
        };
        Self { plain, fuel, other }
    }

    /// Whether the same is left.
    pub fn same(&self) -> bool {
        let mut left = 0;
        let status = wasmi_fuel_left(&self.plain, &mut left);
        [&self.fuel, &self.other].iter().all(|fuel| {
            let reply = numbers::of_fuel(fuel.get_fuel());
            (reply.status, reply.number) == (status, left)
        })
    }

    /// Sets the fuel, takes some or asks a price: what differs.
    pub fn step(&mut self, draw: &mut Draw) -> Option<String> {
        let (amount, mut number) = (draw.amount(), 0);
        let costs = FuelCostsProvider::custom(CustomFuelCosts {
            bytes_copied_per_fuel: self.plain.bytes_copied_per_fuel,
            fuel_per_bytes_translated: 7,
            fuel_per_bytes_validated: 2,
        });
        let (there, here) = match draw.random.below(3) {
            0 => {
                let there = wasmi_fuel_set(&mut self.plain, amount);
                let set = [&mut self.fuel, &mut self.other].map(|fuel| fuel.set_fuel(amount).map(|()| 0));
                (numbers::only(there), set.map(numbers::of_fuel))
            }
            1 => {
                let there = wasmi_fuel_consume(&mut self.plain, amount, &mut number);
                let taken = [&mut self.fuel, &mut self.other].map(|fuel| fuel.consume_fuel(|_| amount));
                (numbers::with_number(there, number), taken.map(numbers::of_fuel))
            }
            _ => {
                let price = wasmi_fuel_copy_cost(&self.plain, amount);
                (
                    numbers::with_number(0, price),
                    [numbers::with_number(0, costs.fuel_for_copying_values::<u8>(amount)); 2],
                )
            }
        };
        (here != [there; 2]).then(|| format!("fuel {amount}: {there:?}, here {here:?}"))
    }
}

/// A quota of the library, perhaps one that is off, and two of the crate. For one that is off these have no caps.
pub fn quotas(random: &mut Random) -> (PlainQuota, [Quota; 2]) {
    let (cap_bytes, cap_elements) = (random.pick(&[0, 200, 300, 70_000, 1 << 20]), random.pick(&[0, 10, 100, 200]));
    let is_on = random.below(2) as u8;
    let caps = if is_on == 0 { (u64::MAX, u64::MAX) } else { (cap_bytes, cap_elements) };
    (
        PlainQuota { cap_bytes, cap_elements, is_on, ..PlainQuota::default() },
        [(); 2].map(|()| Quota::new(caps.0, caps.1)),
    )
}
