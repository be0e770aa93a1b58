//! Random scripts: each line is run when it is written, so that the next ones fit what is there, mostly.
mod memories;
mod profiles;

use crate::calls;
use crate::machine::{LiveMemory, Machine};
use crate::parse::{Headers, parse};
use crate::random::Random;
use crate::session::Session;
pub use profiles::PROFILES;

/// What a script may ask for at most, in bytes; or else it asks for what no machine has.
const SAFE: u128 = 1 << 21;
const HOPELESS: u128 = 1 << 63;

pub struct Generator {
    pub text: Vec<u8>,
    pub random: Random,
    session: Session,
    tenant: usize,
    headers: Headers,
}

/// True where a limiter permits no more than a little.
fn is_capped(headers: &Headers) -> bool {
    headers.caps().is_some_and(|(bytes, elements)| u128::from(bytes) <= SAFE && u128::from(elements) * 4 <= SAFE)
}

impl Generator {
    pub fn new(seed: u64) -> Self {
        let headers = Headers::default();
        let session = Session::new(&headers).expect("no region");
        Self { text: Vec::new(), random: Random::new(seed), session, tenant: 0, headers }
    }

    fn machine(&self) -> &Machine {
        &self.session.machines[self.tenant]
    }

    /// Writes headers in some order, and begins a run.
    fn begin(&mut self, mut headers: Vec<String>) {
        for last in (1..headers.len()).rev() {
            let other = self.random.index(last + 1);
            headers.swap(last, other);
        }
        for line in &headers {
            self.write_line(line);
        }
        self.headers = parse(headers.join("\n").as_bytes()).expect("good headers").headers;
        self.session = Session::new(&self.headers).expect("a small region");
    }

    /// Writes a command and runs it; returns its reply.
    fn command(&mut self, line: String) -> String {
        let parsed = parse(line.as_bytes()).unwrap_or_else(|_| panic!("generated a bad line: {line}"));
        let before = self.session.printed.len();
        for (_, call) in &parsed.calls {
            self.session.call(self.tenant, call);
        }
        self.write_line(&line);
        self.session.printed[before..].trim_end().to_string()
    }

    /// Writes a line, now and then with more spaces, leading zeros and blank lines than it needs.
    fn write_line(&mut self, line: &str) {
        let is_odd = self.random.chance(6);
        for (index, word) in line.split(' ').enumerate() {
            if index > 0 || (is_odd && self.random.chance(20)) {
                let spaces = if is_odd { 1 + self.random.index(3) } else { 1 };
                self.text.extend(std::iter::repeat_n(b' ', spaces));
            }
            // The widths 32 and 64 of types are words, not numbers.
            let is_number = word.bytes().all(|byte| byte.is_ascii_digit()) && word != "32" && word != "64";
            if is_odd && is_number && self.random.chance(20) {
                let zeros = if self.random.chance(5) { 60 } else { self.random.index(4) };
                self.text.extend(std::iter::repeat_n(b'0', zeros));
            }
            self.text.extend_from_slice(word.as_bytes());
        }
        if is_odd && self.random.chance(30) {
            self.text.push(b' ');
        }
        self.text.push(b'\n');
        if is_odd && self.random.chance(30) {
            let blank = self.random.pick(&["\n", "   \n", " \n\n"]);
            self.text.extend_from_slice(blank.as_bytes());
        }
    }

    /// Now and then goes on with another tenant.
    fn maybe_as(&mut self) {
        let Some((tenants, ..)) = self.headers.tenants else { return };
        if self.random.chance(25) {
            self.tenant = self.random.index(tenants);
            self.write_line(&format!("as {}", self.tenant));
        }
    }

    fn allowed(&self, bytes: u128) -> bool {
        is_capped(&self.headers) || bytes <= SAFE || bytes >= HOPELESS
    }

    fn register(&mut self) -> u64 {
        if self.random.chance(1) { self.random.pick(&[16, 17, 255]) } else { self.random.below(16) }
    }

    fn max_word(&mut self, min: u64, values: &[u64]) -> String {
        if self.random.chance(40) { "none".into() } else { self.random.pick(values).max(min).to_string() }
    }

    fn small_reference(&mut self) -> u64 {
        if self.random.chance(90) {
            self.random.below(100)
        } else {
            self.random.pick(&[0, 65536, 2147483648, 4294967295])
        }
    }

    /// Numbers after words, each with a space before it.
    fn list(&mut self, count: u64, item: fn(&mut Self) -> u64) -> String {
        (0..count).map(|_| format!(" {}", item(self))).collect()
    }

    /// What a call costs that copies some values of a size, at the rate of the meter; none without one.
    fn cost(&self, values: u64, size: u64) -> Option<u64> {
        let rate = self.headers.meter.flatten()?;
        Some(values.saturating_mul(size).checked_div(u64::from(rate)).unwrap_or(u64::MAX))
    }

    /// Now and then sets the fuel to what the next call costs, or to one more or less.
    fn aim(&mut self, values: u64, size: u64) {
        if !self.random.chance(25) {
            return;
        }
        let Some(cost) = self.cost(values, size) else { return };
        let amount = match self.random.below(4) {
            0 => cost.saturating_sub(1),
            1 => cost.saturating_add(1),
            _ => cost,
        };
        self.command(format!("fuel {amount}"));
    }

    fn fuel(&mut self) {
        if self.random.chance(40) {
            self.command("left".into());
            return;
        }
        let amount = match self.random.below(4) {
            0 => self.random.below(70),
            1 => self.random.pick(&[1023, 1024, 1025, 2047, 2048, 4096, 65536]),
            2 => self.random.edge(),
            _ => self.random.below(5000),
        };
        self.command(format!("fuel {amount}"));
    }

    /// A line of any command with any operands, unless it names a lane that there isn't or asks for too much.
    fn any_step(&mut self) {
        let (begin, draw) = self.random.pick(calls::COMMANDS);
        let line = String::from_utf8_lossy(begin).into_owned() + &draw(&mut self.random);
        let Ok(script) = parse(line.as_bytes()) else { return };
        if script.calls.iter().all(|(_, call)| self.allowed(self.machine().asked_by(call))) {
            self.command(line);
        }
    }

    /// A growth that is permitted and paid for and then can't be had: the charge stays, the holding doesn't.
    fn hopeless(&mut self, word: &str, made: &str, size: u64, grow: fn(&str, u64) -> String) {
        let reply = self.command(made.into());
        let Some(index) = reply.strip_prefix(word) else { return };
        let count = (1_u64 << 63) / size + self.random.below(5);
        if let Some(cost) = self.cost(count, size) {
            let amount = cost.wrapping_add(self.random.below(4)).wrapping_sub(1);
            self.command(format!("fuel {amount}"));
        }
        self.command(grow(index.trim(), count));
        self.command("left".into());
    }

    /// True where a script, which may be a spoiled one, asks for more than a little that a machine may have.
    pub fn asks_too_much(text: &[u8]) -> bool {
        let Ok(script) = parse(text) else { return false };
        let is_much = |bytes: u128| bytes > SAFE && bytes < HOPELESS;
        if script.headers.region.is_some_and(|(len, _)| is_much(len as u128)) {
            return true;
        }
        if u128::from(script.headers.slots_asked()) * 128 > SAFE && !script.headers.has_hopeless_slots() {
            return true;
        }
        if is_capped(&script.headers) {
            return false;
        }
        let Some(mut session) = Session::new(&script.headers) else { return false };
        let mut sum = 0;
        for (tenant, call) in &script.calls {
            let asked = session.machines[*tenant].asked_by(call);
            sum += if asked < HOPELESS { asked } else { 0 };
            if sum > 8 * SAFE {
                return true;
            }
            session.call(*tenant, call);
        }
        false
    }
}

// ---- lines on registers, vector instructions and globals

/// How many lanes there are for an instruction on one lane, by its name.
fn lanes_of(name: &str) -> u64 {
    let widths = [("i8x16", 16), ("i16x8", 8), ("i32x4", 4), ("load8_", 16), ("store8_", 16), ("16_", 8), ("32_", 4)];
    widths.iter().find(|(part, _)| name.contains(part)).map_or(2, |(_, lanes)| *lanes)
}

impl Generator {
    pub(super) fn set_register(&mut self) {
        let register = self.register();
        let (low, high) = self.random.vector();
        self.command(format!("set {register} {low} {high}"));
    }

    /// A line on a vector instruction: each in turn, so that all are met equally often.
    pub(super) fn vector_step(&mut self, turn: usize) {
        if self.random.chance(45) {
            self.set_register();
        }
        let all = calls::vector_instructions();
        let (d, a, b, c) = (self.register(), self.register(), self.register(), self.register());
        let LiveMemory { index: memory, len, .. } = self.memory();
        let (ptr, offset) = self.address(len);
        let Some(&(word, name)) = all.get(turn % (all.len() + 2)) else {
            return self.unnamed_step(turn % (all.len() + 2) == all.len(), [d, a, b], [memory, ptr, offset]);
        };
        let lane = self.random.below(lanes_of(name));
        let far = self.random.pick(&[u32::MAX, 1 << 31, 255, 256, u32::MAX - 7]).into();
        let amount = if self.random.chance(70) { self.random.below(140) } else { far };
        self.command(match word {
            "make" | "unary" => format!("{word} {name} {d} {a}"),
            "binary" => format!("binary {name} {d} {a} {b}"),
            "ternary" => format!("ternary {name} {d} {a} {b} {c}"),
            "shift" => format!("shift {name} {d} {a} {amount}"),
            "test" => format!("test {name} {a}"),
            "extract" => format!("extract {name} {a} {lane}"),
            "replace" => format!("replace {name} {d} {a} {lane} {b}"),
            "vload" => format!("vload {name} {d} {memory} {ptr} {offset}"),
            "vloadlane" => format!("vloadlane {name} {d} {a} {lane} {memory} {ptr} {offset}"),
            _ => format!("vstorelane {name} {a} {lane} {memory} {ptr} {offset}"),
        });
        match word {
            "test" | "extract" => {}
            "vstorelane" => self.read_around(memory, ptr.wrapping_add(offset), 12),
            _ => drop(self.command(format!("show {d}"))),
        }
    }

    /// A shuffle or a store of a whole vector, which name no instruction.
    fn unnamed_step(&mut self, is_shuffle: bool, [d, a, b]: [u64; 3], [memory, ptr, offset]: [u64; 3]) {
        if is_shuffle {
            let lanes = self.list(16, |own| own.random.below(32));
            self.command(format!("shuffle {d} {a} {b}{lanes}"));
            self.command(format!("show {d}"));
        } else {
            self.command(format!("vstore {a} {memory} {ptr} {offset}"));
            self.read_around(memory, ptr.wrapping_add(offset), 20);
        }
    }

    pub(super) fn global_step(&mut self) {
        let value_type = self.random.pick(&["i32", "i64", "f32", "f64", "v128", "funcref", "externref"]);
        let (low, high) = self.random.vector();
        match self.random.below(10) {
            0 | 1 => {
                let mutability = self.random.pick(&["const", "var", "var"]);
                self.command(format!("global {value_type} {mutability} {low} {high}"));
            }
            2..=4 => {
                let index = if self.random.chance(5) { u64::MAX } else { self.random.below(6) };
                self.command(format!("gset {index} {value_type} {low} {high}"));
                self.command(format!("gget {index}"));
            }
            5 => {
                let index = self.random.below(7);
                self.command(format!("gget {index}"));
            }
            6 => {
                let (kind, count) = (self.random.pick(&["func", "extern"]), self.random.below(5));
                let items = self.list(count, Self::small_reference);
                self.command(format!("segment {kind}{items}"));
            }
            7 => {
                let index = self.random.below(6);
                self.command(format!("empty {index}"));
            }
            8 => self.set_register(),
            _ => {
                let register = self.register();
                self.command(format!("show {register}"));
            }
        }
    }
}
