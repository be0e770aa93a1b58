//! Lines on memories, tables and segments.
use super::Generator;
use crate::calls;
use crate::machine::LiveMemory;

impl Generator {
    /// A live memory, mostly.
    pub(super) fn memory(&mut self) -> LiveMemory {
        let live = self.machine().live_memories();
        if live.is_empty() || self.random.chance(2) {
            let index = self.random.pick(&[0, 1, 2, 9, u64::MAX]);
            return LiveMemory { index, len: 0, page_size: 65536, is_lent: false };
        }
        self.random.pick(&live)
    }

    pub(super) fn new_memory(&mut self, word: &str) {
        let log2 = self.random.pick(&[0_u32, 16]);
        let is_64 = self.random.chance(40);
        let most: u128 = (if is_64 { 1 << 64 } else { 1 << 32 }) >> log2;
        let small = if log2 == 0 { 70 } else { 3 };
        let min = if self.random.chance(80) { self.random.below(small) } else { self.random.edge() };
        let min = u64::try_from(u128::from(min).min(most)).unwrap_or(u64::MAX);
        if word == "memory" && !self.allowed(u128::from(min) << log2) {
            return;
        }
        let greatest = u64::try_from(most).unwrap_or(u64::MAX);
        let max = self.max_word(min, &[0, 1, 2, 3, 60, 100, 1000, greatest, greatest - 1, greatest / 2]);
        if max.parse::<u128>().is_ok_and(|max| max > most) {
            return;
        }
        let width = if is_64 { 64 } else { 32 };
        self.command(format!("{word} {min} {max} {log2} {width}"));
    }

    pub(super) fn grow_memory(&mut self) {
        let LiveMemory { index, len, page_size, is_lent } = self.memory();
        let size = len / page_size;
        let near = self.random.below(3).wrapping_sub(1).wrapping_sub(size);
        let pages = match self.random.below(10) {
            0 => 0,
            1..=5 => self.random.below(if page_size == 1 { 200 } else { 3 }),
            6 => near.wrapping_add(1 << 16),
            7 => near.wrapping_add(1 << 32),
            8 => near,
            _ => self.random.edge(),
        };
        if is_lent || self.allowed((u128::from(size) + u128::from(pages)) * u128::from(page_size)) {
            self.aim(pages, page_size);
            self.command(format!("grow {index} {pages}"));
            if self.random.chance(25) {
                self.command("left".into());
            }
        }
    }

    /// Two words whose sum is an address, mostly near the end, and now and then beyond 2^64.
    pub(super) fn address(&mut self, len: u64) -> (u64, u64) {
        let address = match self.random.below(10) {
            0 => self.random.edge(),
            1 | 2 => self.random.below(20),
            3..=7 => len.wrapping_sub(self.random.below(18)).wrapping_add(self.random.below(3)),
            _ => self.random.below(len + 2),
        };
        match self.random.below(8) {
            0..=3 => (address, 0),
            4 => (0, address),
            5 => {
                let offset = self.random.below(address.min(1 << 40) + 1);
                (address - offset, offset)
            }
            6 => (address, self.random.edge()),
            _ => {
                let offset = 1 + self.random.below(40);
                let other = if self.random.chance(50) { offset } else { u64::MAX - self.random.below(3) };
                (address.wrapping_sub(offset), other)
            }
        }
    }

    /// Reads what stands around an address that was written.
    pub(super) fn read_around(&mut self, memory: u64, address: u64, len: u64) {
        self.command(format!("read {memory} {} {len}", address.saturating_sub(3)));
    }

    pub(super) fn access(&mut self) {
        let LiveMemory { index, len, .. } = self.memory();
        let (ptr, offset) = self.address(len);
        match self.random.below(10) {
            0..=2 => {
                let count = if self.random.chance(85) { self.random.below(24) } else { self.random.edge() };
                // What the memory can serve is kept short, so that replies stay short.
                if count <= 4096 || u128::from(ptr) + u128::from(count) > u128::from(len) {
                    self.command(format!("read {index} {ptr} {count}"));
                }
            }
            3 | 4 => {
                let count = self.random.below(20);
                let bytes = self.list(count, |own| own.random.lane(8));
                self.command(format!("write {index} {ptr}{bytes}"));
            }
            5..=7 => {
                let name = self.random.pick(calls::LOAD).0;
                self.command(format!("load {name} {index} {ptr} {offset}"));
            }
            _ => {
                let (name, width) = (self.random.pick(calls::STORE).0, self.random.pick(&[8, 16, 32, 64]));
                let value = self.random.lane(width);
                self.command(format!("store {name} {index} {ptr} {offset} {value}"));
                if self.random.chance(60) {
                    self.read_around(index, ptr.wrapping_add(offset), 14);
                }
            }
        }
    }

    pub(super) fn memory_step(&mut self) {
        if self.random.chance(2) {
            let grow = |index: &str, pages| format!("grow {index} {pages}");
            self.hopeless("memory", "memory 0 none 0 64", 1, grow);
        }
        match self.random.below(20) {
            0 => self.new_memory("memory"),
            1..=3 => self.grow_memory(),
            4 | 5 => self.fuel(),
            6 if self.random.chance(25) => {
                let index = self.memory().index;
                self.command(format!("drop memory {index}"));
            }
            7 | 8 => self.bulk_step(),
            9 | 10 => self.data_step(),
            _ => self.access(),
        }
    }

    /// A data segment that is made, copied to a memory or dropped.
    fn data_step(&mut self) {
        let sizes = self.machine().data_segments();
        match self.random.below(8) {
            0 | 1 => {
                let count = self.random.below(24);
                let bytes = self.list(count, |own| own.random.lane(8));
                self.command(format!("data{bytes}"));
            }
            2 if self.random.chance(40) => {
                let segment = self.random.index(sizes.len() + 1);
                self.command(format!("dempty {segment}"));
            }
            _ => self.data_init(&sizes),
        }
    }

    /// A memory that is written over with bytes of a data segment, of which these are the sizes.
    fn data_init(&mut self, sizes: &[u64]) {
        let LiveMemory { index, len: size, .. } = self.memory();
        let some = if sizes.is_empty() || self.random.chance(4) { 4 } else { sizes.len() };
        let segment = self.random.index(some);
        let items = sizes.get(segment).copied().unwrap_or(0);
        let (to, first) = self.span(size, items);
        let (from, second) = self.span(items, size);
        let (from, len) = (from.min(u32::MAX.into()), self.random.pick(&[first, second]).min(u32::MAX.into()));
        self.aim(len, 1);
        self.command(format!("minit {index} {segment} {to} {from} {len}"));
        if self.random.chance(50) {
            self.command(format!("read {index} 0 {}", size.min(40)));
        }
    }

    /// A fill of a memory, or a copy within it or from another one.
    fn bulk_step(&mut self) {
        let LiveMemory { index, len: size, .. } = self.memory();
        if self.random.chance(40) {
            let (to, len) = self.span(size, size);
            let value = self.random.below(256);
            self.aim(len, 1);
            self.command(format!("mfill {index} {to} {value} {len}"));
        } else {
            let LiveMemory { index: source, len: other, .. } = self.memory();
            let (to, first) = self.span(size, other);
            let (from, second) = self.span(other, size);
            let len = self.random.pick(&[first, second]);
            self.aim(len, 1);
            self.command(format!("mcopy {index} {to} {source} {from} {len}"));
        }
        if self.random.chance(50) {
            self.command(format!("read {index} 0 {}", size.min(40)));
        }
    }
}

impl Generator {
    /// A live table, mostly: its index, size and element type.
    fn table(&mut self) -> (u64, u64, &'static str) {
        let live = self.machine().live_tables();
        if live.is_empty() || self.random.chance(2) {
            return (self.random.pick(&[0, 1, 2, 9, u64::MAX]), 0, "func");
        }
        self.random.pick(&live)
    }

    /// The type that fits, mostly.
    fn kind(&mut self, fitting: &'static str) -> &'static str {
        if self.random.chance(93) { fitting } else { self.random.pick(&["func", "extern"]) }
    }

    pub(super) fn new_table(&mut self) {
        let kind = self.random.pick(&["func", "func", "extern"]);
        let is_64 = self.random.chance(40);
        let (width, greatest) = if is_64 { (64, u64::MAX) } else { (32, u64::from(u32::MAX)) };
        let min = if self.random.chance(85) { self.random.below(12) } else { self.random.edge().min(greatest) };
        if !self.allowed(u128::from(min) * 4) {
            return;
        }
        let far = if is_64 { 1 << 32 } else { greatest };
        let max = self.max_word(min, &[0, 1, 5, 12, 20, 100, far, greatest, greatest - 1]);
        let (filler, number) = (self.kind(kind), self.small_reference());
        self.command(format!("table {kind} {min} {max} {width} {filler} {number}"));
    }

    pub(super) fn grow_table(&mut self) {
        let (index, size, kind) = self.table();
        let near = self.random.below(3).wrapping_sub(1).wrapping_sub(size);
        let delta = match self.random.below(10) {
            0 => 0,
            1..=6 => self.random.below(12),
            7 => near.wrapping_add(1 << 32),
            8 => near,
            _ => self.random.edge(),
        };
        if !self.allowed((u128::from(size) + u128::from(delta)) * 4) {
            return;
        }
        let (kind, number) = (self.kind(kind), self.small_reference());
        self.aim(delta, 4);
        self.command(format!("tgrow {index} {delta} {kind} {number}"));
        if self.random.chance(25) {
            self.command("left".into());
        }
    }

    /// A start and a length that mostly fit, often just so, and sometimes not at all.
    fn span(&mut self, size: u64, other: u64) -> (u64, u64) {
        let size = size.min(other.max(1) * 3);
        let start = self.random.below(size + 2);
        match self.random.below(12) {
            0 => (self.random.edge(), self.random.below(4)),
            1 => (start, self.random.edge()),
            2 => (size, 0),
            3 => (size + 1, 0),
            4 => (u64::MAX, 1),
            5 | 6 => (start.min(size), size.saturating_sub(start)),
            _ => (start, self.random.below(size.saturating_sub(start) + 2)),
        }
    }

    /// The first elements, now and then.
    fn show_elements(&mut self, percent: u64, index: u64, size: u64) {
        if self.random.chance(percent) {
            for element in 0..size.min(9) {
                self.command(format!("get {index} {element}"));
            }
        }
    }

    /// The front of each memory and of each table, and a register.
    pub(super) fn look_around(&mut self) {
        for LiveMemory { index, len, .. } in self.machine().live_memories() {
            self.command(format!("read {index} 0 {}", len.min(70)));
        }
        for (index, size, _) in self.machine().live_tables() {
            self.show_elements(100, index, size);
        }
        let register = self.random.below(4);
        self.command(format!("show {register}"));
    }

    pub(super) fn table_step(&mut self) {
        if self.random.chance(2) {
            let grow = |index: &str, delta| format!("tgrow {index} {delta} func 0");
            self.hopeless("table", "table func 0 none 64 func 0", 4, grow);
        }
        match self.random.below(20) {
            0 => self.new_table(),
            1 | 2 => self.grow_table(),
            3..=5 => self.element_step(),
            6 => {
                let (kind, count) = (self.random.pick(&["func", "func", "extern"]), self.random.below(14));
                let items = self.list(count, Self::small_reference);
                self.command(format!("segment {kind}{items}"));
            }
            7..=9 => self.init_step(),
            10..=14 => self.copy_step(),
            15 | 16 => self.fill_step(),
            17 if self.random.chance(30) => {
                let segment = self.random.index(self.machine().segments().len() + 1);
                self.command(format!("empty {segment}"));
            }
            18 if self.random.chance(25) => {
                let (index, ..) = self.table();
                self.command(format!("drop table {index}"));
            }
            17 | 18 => {}
            _ => self.fuel(),
        }
    }

    fn element_step(&mut self) {
        let (index, size, kind) = self.table();
        let at = if self.random.chance(85) { self.random.below(size + 2) } else { self.random.edge() };
        if self.random.chance(33) {
            self.command(format!("get {index} {at}"));
        } else {
            let (kind, number) = (self.kind(kind), self.small_reference());
            self.command(format!("tset {index} {at} {kind} {number}"));
        }
    }

    fn init_step(&mut self) {
        let (index, size, _) = self.table();
        let sizes = self.machine().segments();
        let some = if sizes.is_empty() || self.random.chance(4) { 4 } else { sizes.len() };
        let segment = self.random.index(some);
        let items = sizes.get(segment).copied().unwrap_or(0);
        let (to, first) = self.span(size, size);
        let (from, second) = self.span(items, items);
        let len = self.random.pick(&[first, second]).min(u64::from(u32::MAX));
        self.aim(len, 4);
        self.command(format!("init {index} {segment} {to} {} {len}", from.min(u64::from(u32::MAX))));
        self.show_elements(30, index, size);
    }

    fn copy_step(&mut self) {
        let (index, size, _) = self.table();
        let (source, other, _) = if self.random.chance(60) { (index, size, "") } else { self.table() };
        let (to, first) = self.span(size, other);
        let (from, second) = self.span(other, size);
        let len = self.random.pick(&[first, second]);
        self.aim(len, 4);
        self.command(format!("copy {index} {to} {source} {from} {len}"));
        self.show_elements(50, index, size);
    }

    fn fill_step(&mut self) {
        let (index, size, kind) = self.table();
        let (to, len) = self.span(size, size);
        let (kind, number) = (self.kind(kind), self.small_reference());
        self.aim(len, 4);
        self.command(format!("fill {index} {to} {kind} {number} {len}"));
        self.show_elements(30, index, size);
    }
}
