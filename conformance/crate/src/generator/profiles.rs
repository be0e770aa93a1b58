//! The profiles: what a script of each kind begins with, and which lines it has how often; and scripts that are spoiled in one or two places, mostly.
use super::Generator;
use crate::random::Random;

/// The names of the profiles; `bad` spoils scripts of those before it.
pub const PROFILES: &[&str] = &["memory", "tables", "vectors", "globals", "answers", "lent", "tenants", "bad", "any"];

impl Generator {
    fn meter(&mut self, percent: u64) -> Option<String> {
        if self.random.chance(percent) {
            let rate = self.random.pick(&[64_u64, 64, 64, 1, 2, 3, 7, 100, 0, 65536, 4294967295]);
            Some(format!("meter on {rate}"))
        } else {
            self.random.chance(50).then(|| "meter off".into())
        }
    }

    fn quota(&mut self, percent: u64) -> Option<String> {
        let bytes = self.random.pick(&[0, 1, 60, 65535, 65536, 65537, 131072, 200000, 262144, 1 << 22, u64::MAX]);
        let elements = self.random.pick(&[0_u64, 1, 5, 10, 20, 64, 1000, 100000, u64::MAX]);
        self.random.chance(percent).then(|| format!("quota {bytes} {elements}"))
    }

    fn reserve(&mut self, percent: u64) -> Option<String> {
        let slots = self.list(5, |own| own.random.pick(&[0, 0, 1, 2, 3, 20]));
        self.random.chance(percent).then(|| format!("reserve{slots}"))
    }

    /// Writes the script of a number and a profile.
    pub fn write_script(&mut self, profile: &str, number: usize) {
        let steps = 40 + self.random.index(60);
        match profile {
            "memory" => self.memory_script(steps),
            "tables" => self.table_script(steps),
            "vectors" => self.vector_script(number * 200),
            "globals" => {
                self.begin(Vec::new());
                (0..steps).for_each(|_| self.global_step());
            }
            "answers" => self.answers_script(steps),
            "lent" => self.lent_script(steps),
            "tenants" => self.tenants_script(steps * 2, number),
            "bad" => self.spoiled_script(number),
            "any" => self.any_script(steps),
            _ => panic!("no profile {profile}"),
        }
        if profile != "bad" && self.random.chance(10) {
            self.text.pop();
        }
    }

    fn memory_script(&mut self, steps: usize) {
        let headers = [self.meter(65), self.quota(45), self.reserve(20)];
        self.begin(headers.into_iter().flatten().collect());
        self.command("memory 1 3 16 32".into());
        self.command("memory 20 none 0 64".into());
        self.command("data 31 32 33 34 35 36 37 38 39".into());
        (0..steps).for_each(|_| self.memory_step());
    }

    fn table_script(&mut self, steps: usize) {
        let headers = [self.meter(65), self.quota(35)];
        self.begin(headers.into_iter().flatten().collect());
        for line in ["table func 7 20 32 func 3", "table func 5 none 64 func 4", "segment func 11 12 13 14 15 16 17"] {
            self.command(line.into());
        }
        self.command("fuel 100".into());
        (0..steps).for_each(|_| self.table_step());
    }

    fn vector_script(&mut self, first: usize) {
        self.begin(Vec::new());
        self.command("memory 40 none 0 32".into());
        let bytes = self.list(40, |own| own.random.lane(8));
        self.command(format!("write 0 0{bytes}"));
        for register in 0..16 {
            let (low, high) = self.random.vector();
            self.command(format!("set {register} {low} {high}"));
        }
        (0..200).for_each(|step| self.vector_step(first + step));
        for register in 0..16 {
            self.command(format!("show {register}"));
        }
    }

    fn answers_script(&mut self, steps: usize) {
        let mut headers: Vec<String> = self.meter(80).into_iter().collect();
        let words: Vec<&str> = (0..self.random.below(30))
            .map(|_| self.random.pick(&["permit", "permit", "deny", "error", "complain", "complain"]))
            .collect();
        headers.push(format!("answers {}", words.join(" ")));
        if self.random.chance(30) {
            headers.push(format!("region {} 9", self.random.pick(&[0, 10, 65536, 131072])));
        }
        self.begin(headers);
        for _ in 0..steps {
            match self.random.below(10) {
                0 | 1 => self.new_memory("memory"),
                2 => self.new_memory("lent"),
                3 | 4 => self.grow_memory(),
                5 => self.new_table(),
                6 | 7 => self.grow_table(),
                8 => self.fuel(),
                _ => self.access(),
            }
        }
    }

    fn lent_script(&mut self, steps: usize) {
        let len = self.random.pick(&[0_u64, 1, 5, 10, 100, 65535, 65536, 65537, 131072, 200000]);
        let region = Some(format!("region {len} {}", self.random.pick(&[0, 7, 255])));
        let headers = [self.meter(70), self.quota(40), region];
        self.begin(headers.into_iter().flatten().collect());
        if self.random.chance(15) {
            self.new_memory("memory");
        }
        for _ in 0..3 {
            if self.random.chance(60) {
                self.fuel();
            }
        }
        self.new_memory("lent");
        for _ in 0..steps {
            match self.random.below(20) {
                0 => self.new_memory("lent"),
                1..=7 => self.grow_memory(),
                8 | 9 => self.fuel(),
                10 if self.random.chance(20) => self.new_memory("memory"),
                _ => self.access(),
            }
        }
    }

    fn tenants_script(&mut self, steps: usize, first: usize) {
        let tenants = if self.random.chance(3) { 1024 } else { 1 + self.random.below(5) };
        let bytes = self.random.pick(&[0, 1, 300, 65535, 65536, 131072, 200000, 1 << 20, u64::MAX]);
        let elements = self.random.pick(&[0_u64, 1, 10, 30, 100, 1000, u64::MAX]);
        let headers = [self.meter(60), Some(format!("tenants {tenants} {bytes} {elements}")), self.reserve(20)];
        self.begin(headers.into_iter().flatten().collect());
        for step in 0..steps {
            self.maybe_as();
            match self.random.below(20) {
                0 if self.random.chance(10) => self.new_memory("lent"),
                0..=2 => self.new_memory("memory"),
                3 | 4 => self.new_table(),
                5..=7 => self.grow_memory(),
                8 | 9 => self.grow_table(),
                10..=12 => self.access(),
                13 => self.global_step(),
                14 | 15 => self.table_step(),
                16 => self.vector_step(step + first),
                17 => self.memory_step(),
                _ => self.fuel(),
            }
        }
    }

    /// Lines of all commands, those too that no step above writes.
    fn any_script(&mut self, steps: usize) {
        let headers = [self.meter(50), self.quota(40), Some("region 300 7".into())];
        self.begin(headers.into_iter().flatten().collect());
        for line in ["fuel 200", "memory 1 2 16 32", "table func 9 20 32 func 3", "segment func 5 6 7", "data 8 9"] {
            self.command(line.into());
        }
        for step in 1..=steps {
            self.any_step();
            if step % 10 == 0 {
                self.look_around();
            }
        }
    }
}

/// Words in the place of others: numbers at the ends of fields, and names.
const WORDS: &str = "
    18446744073709551616 18446744073709551615 4294967296 4294967295 256 255 16 32 -1 +1 1e3 0x10
    340282366920938463463374607431768211456 1_000 00000000000000000000000000000000000000000000000001 ١ meter memory
    Fuel func extern none FUNC i8x16_add v128_load v128_store i8x16_add_at f32x4_add i32_load load_f32
    i32_load8_s_at v128_load8_lane
";

/// Lines at the edges of the grammar, good and bad ones.
const LINES: &str = include_str!("lines.txt");

/// Puts a word in the place of one of a line.
fn change_word(line: &mut Vec<u8>, random: &mut Random, word: &str) {
    let mut words: Vec<&[u8]> = line.split(|byte| *byte == b' ').collect();
    let place = random.index(words.len());
    words[place] = word.as_bytes();
    *line = words.join(&b' ');
}

/// Changes a line within itself.
fn spoil(line: &mut Vec<u8>, random: &mut Random) {
    let place = random.index(line.len() + 1);
    match random.below(11) {
        0 => line.push(random.pick(b"\r\t")),
        1 => line.insert(place, random.pick(b"\t\r\0\x0b\xff\xc3\x80+-._x")),
        2 => line.extend_from_slice(random.pick(&[" 1", " x", " 0 0", " none"]).as_bytes()),
        3 | 4 => {
            let words: Vec<&str> = WORDS.split_whitespace().collect();
            let word = random.pick(&words);
            change_word(line, random, word);
        }
        5 => line.truncate(line.iter().rposition(|byte| *byte == b' ').unwrap_or(0)),
        6 => *line = (0..random.below(40)).map(|_| random.next() as u8).collect(),
        7 if place < line.len() => line[place] ^= 1 << random.below(8),
        8 => {
            line.insert(0, b' ');
            line.push(b' ');
        }
        9 if place < line.len() => drop(line.remove(place)),
        _ => line.clear(),
    }
    line.retain(|byte| *byte != b'\n');
}

impl Generator {
    pub(super) fn spoiled_script(&mut self, number: usize) {
        let others = PROFILES.iter().position(|name| *name == "bad").expect("its own name");
        self.write_script(PROFILES[number % others], number / others);
        let mut lines: Vec<Vec<u8>> = self.text.split(|byte| *byte == b'\n').map(<[u8]>::to_vec).collect();
        lines.truncate(3 + self.random.index(12));
        let edges: Vec<&str> = LINES.lines().collect();
        for _ in 0..1 + self.random.below(2) {
            let place = self.random.index(lines.len());
            match self.random.below(15) {
                0 | 1 => lines.insert(place, self.random.pick(&edges).into()),
                2 => {
                    let other = self.random.index(lines.len().min(3));
                    lines.swap(place, other);
                }
                3 => lines.insert(0, lines[place].clone()),
                _ => spoil(&mut lines[place], &mut self.random),
            }
        }
        self.text = lines.join(&b'\n');
        if self.random.chance(60) {
            self.text.push(b'\n');
        }
    }
}
