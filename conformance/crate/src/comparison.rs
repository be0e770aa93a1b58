//! Compares a library with the Rust crate on random scripts and mutants of them, in one process.
use crate::generator::{Generator, PROFILES};
use crate::random::Random;
use crate::replay;
use std::collections::BTreeMap;
use std::panic::catch_unwind;
use std::process::exit;

unsafe extern "C" {
    fn setrlimit(resource: i32, limit: *const [u64; 2]) -> i32;
}

/// No script that is tried needs so much memory: one that asks for more than the machine has is refused by both sides.
const ADDRESS_SPACE: (i32, u64) = (9, 600 << 20);
const MOST_WRITTEN: u64 = 20;

/// What a library prints for a script, written over the text, and its status.
pub type Library = fn(&[u8], &mut Vec<u8>) -> u8;

/// What the crate's program prints for a script, and its status; 255 where the crate panics.
fn expected(script: &[u8]) -> (u8, String) {
    catch_unwind(|| replay(script)).unwrap_or((255, "the crate panics\n".into()))
}

struct Comparison {
    library: Library,
    text: Vec<u8>,
    tried: u64,
    lines: u64,
    differ: u64,
    statuses: BTreeMap<u8, u64>,
}

impl Comparison {
    fn new(library: Library) -> Self {
        Self { library, text: Vec::new(), tried: 0, lines: 0, differ: 0, statuses: BTreeMap::new() }
    }

    fn differs(&mut self, script: &[u8]) -> bool {
        let (status, printed) = expected(script);
        *self.statuses.entry(status).or_default() += 1;
        self.lines += printed.bytes().filter(|byte| *byte == b'\n').count() as u64;
        (self.library)(script, &mut self.text) != status || self.text != printed.as_bytes()
    }

    /// The shortest script that differs too and that this one becomes by dropping pieces, first lines and then words.
    fn shortened(&mut self, script: &[u8]) -> Vec<u8> {
        let mut shortest = script.to_vec();
        for end in [b'\n', b' '] {
            let mut size = shortest.split_inclusive(|byte| *byte == end).count();
            while size > 0 {
                let pieces: Vec<Vec<u8>> = shortest.split_inclusive(|byte| *byte == end).map(<[u8]>::to_vec).collect();
                let without =
                    |from: usize| [&pieces[..from], &pieces[(from + size).min(pieces.len())..]].concat().concat();
                let shorter = (0..pieces.len()).step_by(size).map(without).find(|it| self.differs(it));
                match shorter {
                    Some(shorter) => shortest = shorter,
                    None => size /= 2,
                }
            }
        }
        shortest
    }

    fn compare(&mut self, script: &[u8], path: &str) {
        self.tried += 1;
        if !self.differs(script) {
            return;
        }
        self.differ += 1;
        if self.differ > MOST_WRITTEN {
            return;
        }
        let shortest = self.shortened(script);
        let (status, printed) = expected(&shortest);
        let own_status = (self.library)(&shortest, &mut self.text);
        println!(
            "DIFFERS {path}, {} bytes of {}: the crate's program ends with {status}",
            shortest.len(),
            script.len()
        );
        println!(
            "{}--- the crate's program\n{printed}--- the library, with {own_status}",
            String::from_utf8_lossy(&shortest)
        );
        println!("{}", String::from_utf8_lossy(&self.text));
        std::fs::write(path, shortest).expect("a folder to write to");
    }
}

/// Ends the program, since nothing is compared.
fn stop(text: &str) -> ! {
    eprintln!("compare: {text}");
    exit(2)
}

/// The number that a word stands for.
fn number(name: &str, word: &str) -> u64 {
    word.parse().unwrap_or_else(|_| stop(&format!("{name} is a number, and not {word:?}")))
}

/// Compares a library by the words that a program got: PROFILE|all SEED COUNT MUTANTS FOLDER.
///
/// It tries COUNT scripts of the profile, or of each, and MUTANTS mutants of each. A script on which the status or what is printed
/// differs is shortened and written to FOLDER, at most 20 of them. The last line counts; the exit status is 1 if one differs, and
/// 2 if nothing is compared.
pub fn run(library: Library, words: &[String]) -> ! {
    let [profile, seed, count, mutants, folder] = words else {
        stop("usage: compare [--replay] PROFILE|all SEED COUNT MUTANTS FOLDER");
    };
    let (seed, count, mutants) = (number("SEED", seed), number("COUNT", count), number("MUTANTS", mutants));
    if profile != "all" && !PROFILES.contains(&profile.as_str()) {
        stop(&format!("there is no profile {profile:?}: all, {}", PROFILES.join(", ")));
    }
    if count == 0 {
        stop("COUNT is a number above 0");
    }
    unsafe { setrlimit(ADDRESS_SPACE.0, &[ADDRESS_SPACE.1; 2]) };
    std::fs::create_dir_all(folder).expect("a folder");
    let mut scripts = Comparison::new(library);
    let mut changed = Comparison::new(library);
    for (index, name) in PROFILES.iter().enumerate().filter(|(_, name)| profile == "all" || profile == *name) {
        for number in 0..count {
            let own_seed =
                seed.wrapping_mul(1_000_003).wrapping_add(number).wrapping_mul(31).wrapping_add(index as u64);
            let mut generator = Generator::new(own_seed);
            generator.write_script(name, number as usize);
            if !Generator::asks_too_much(&generator.text) {
                scripts.compare(&generator.text, &format!("{folder}/{name}-{own_seed}.in"));
            }
            for turn in 0..mutants {
                let text = mutant(&generator.text, &mut generator.random);
                if !Generator::asks_too_much(&text) {
                    changed.compare(&text, &format!("{folder}/{name}-{own_seed}-{turn}.in"));
                }
            }
        }
    }
    let differ = scripts.differ + changed.differ;
    let lines = scripts.lines + changed.lines;
    let statuses: Vec<String> =
        scripts.statuses.iter().map(|(status, count)| format!("{count} end with {status}")).collect();
    println!("scripts: {}; mutants: {} end with 0", statuses.join(", "), changed.statuses.get(&0).unwrap_or(&0));
    println!("seed {seed}: {} scripts, {} mutants, {lines} lines, {differ} differ", scripts.tried, changed.tried);
    exit((differ > 0).into());
}

/// Cuts a text after each of a byte.
fn pieces(text: &[u8], after: u8) -> Vec<&[u8]> {
    text.split_inclusive(|byte| *byte == after).collect()
}

/// Drops, doubles, moves or swaps a piece.
fn change_pieces(mut pieces: Vec<&[u8]>, random: &mut Random) -> Vec<u8> {
    let (from, to) = (random.index(pieces.len()), random.index(pieces.len()));
    match random.below(4) {
        0 => drop(pieces.remove(from)),
        1 => pieces.insert(to, pieces[from]),
        2 => {
            let piece = pieces.remove(from);
            pieces.insert(to, piece);
        }
        _ => pieces.swap(from, to),
    }
    pieces.concat()
}

/// Some lines in a row are put somewhere else again.
fn repeat_part(text: &[u8], random: &mut Random) -> Vec<u8> {
    let mut lines = pieces(text, b'\n');
    let from = random.index(lines.len());
    let part = lines[from..(from + 1 + random.index(8)).min(lines.len())].to_vec();
    let to = random.index(lines.len());
    lines.splice(to..to, part);
    lines.concat()
}

fn change_byte(text: &[u8], random: &mut Random) -> Vec<u8> {
    let mut changed = text.to_vec();
    let place = random.index(text.len());
    match random.below(4) {
        0 => changed[place] = random.next() as u8,
        1 => drop(changed.remove(place)),
        2 => changed.insert(place, random.pick(b" \n0123456789abc")),
        _ => changed[place] = b'0' + random.below(10) as u8,
    }
    changed
}

/// A number at an edge in the place of another.
fn change_number(text: &[u8], random: &mut Random) -> Vec<u8> {
    let mut words = pieces(text, b' ');
    let is_number = |word: &[u8]| word.first().is_some_and(u8::is_ascii_digit) && !word.contains(&b'\n');
    let numbers: Vec<usize> = (0..words.len()).filter(|place| is_number(words[*place])).collect();
    let number = format!("{} ", random.edge());
    if !numbers.is_empty() {
        words[random.pick(&numbers)] = number.as_bytes();
    }
    words.concat()
}

/// A script with one to three changes.
pub fn mutant(text: &[u8], random: &mut Random) -> Vec<u8> {
    let mut mutant = text.to_vec();
    for _ in 0..random.pick(&[1, 1, 2, 3]) {
        if mutant.is_empty() {
            break;
        }
        mutant = match random.below(8) {
            0 => change_byte(&mutant, random),
            1 | 2 => change_number(&mutant, random),
            3 => change_pieces(pieces(&mutant, b' '), random),
            4..=6 => change_pieces(pieces(&mutant, b'\n'), random),
            _ => repeat_part(&mutant, random),
        };
    }
    mutant
}
