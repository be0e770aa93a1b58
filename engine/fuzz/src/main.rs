//! Random modules and damaged ones, run in several engines whose replies have to be the same.
#![forbid(unsafe_code)]
mod body;
mod engines;
mod instructions;
mod module;
mod random;

use engines::{Case, Replies, checksum};
use instructions::{Instruction, instructions};
use random::Random;
use std::path::{Path, PathBuf};

const USAGE: &str = "usage: fuzz ENGINE.. [--v8 ENGINE] [--seed N] [--count N] [--mutants FOLDER | --linked] [--found FOLDER] [--expected FILE]

Each ENGINE is a command that reads a script as `engine --script` does; the first one is compared with the others. COUNT modules (1,000) are
made from SEED (1) on. With --linked each imports all that another one
has, and functions of the host. With --mutants they are damaged ones, of these modules and of the guests that FOLDER/list has. V8 has no fuel, and
runs a damaged module only if the first engine ended for another reason; but it says of each whether it is valid. Modules on which something differs are written to the folder
after --found. FILE has the checksums of results and of fuel that the first engine has to give. The status is 1 if something differs.";

pub fn stop(text: &str) -> ! {
    eprintln!("fuzz: {text}");
    std::process::exit(2)
}

struct Options {
    engines: Vec<String>,
    v8: Option<String>,
    seed: u64,
    count: u64,
    guests: Option<Vec<Guest>>,
    is_linked: bool,
    found: Option<PathBuf>,
    expected: Option<String>,
}

fn options() -> Options {
    let mut it = Options {
        engines: vec![],
        v8: None,
        seed: 1,
        count: 1000,
        guests: None,
        is_linked: false,
        found: None,
        expected: None,
    };
    let mut words = std::env::args().skip(1);
    while let Some(word) = words.next() {
        let mut next = || words.next().unwrap_or_else(|| stop(&format!("{word} takes a word")));
        let number = |text: String| text.parse::<u64>().unwrap_or_else(|_| stop(&format!("{text} is no number")));
        match word.as_str() {
            "--v8" => it.v8 = Some(next()),
            "--seed" => it.seed = number(next()),
            "--count" => it.count = number(next()),
            "--mutants" => it.guests = Some(guests(&next())),
            "--linked" => it.is_linked = true,
            "--found" => it.found = Some(next().into()),
            "--expected" => it.expected = Some(next()),
            "--help" => {
                println!("{USAGE}");
                std::process::exit(0)
            }
            _ if word.starts_with("--") => stop(USAGE),
            _ => it.engines.push(word),
        }
    }
    if it.engines.is_empty() || it.count == 0 {
        stop(USAGE);
    }
    it
}

/// A module, and a function of it that takes an argument.
struct Guest {
    bytes: Vec<u8>,
    function: String,
}

/// The calls that the list in a folder of guests has, of one argument and without a trap.
fn guests(folder: &str) -> Vec<Guest> {
    let read = |name: &str| {
        let path = Path::new(folder).join(name);
        std::fs::read(&path).unwrap_or_else(|error| stop(&format!("{}: {error}", path.display())))
    };
    // What a guest prints would stand between the replies; relaxed instructions (0xfd, 0x100 and more) leave a choice once it is damaged.
    let has = |it: &[u8], part: &[u8]| it.windows(part.len()).any(|it| it == part);
    let is_left_out = |it: &[u8]| has(it, b"print_") || has(it, b"\xfd\x80\x02");
    let mut guests: Vec<Guest> = vec![];
    for line in String::from_utf8_lossy(&read("list")).lines() {
        let [module, call, reply, ..] = line.split('\t').collect::<Vec<_>>()[..] else { continue };
        let [function, _] = call.split(' ').collect::<Vec<_>>()[..] else { continue };
        let bytes = read(&format!("{module}.wasm"));
        if reply.starts_with("ok:")
            && !is_left_out(&bytes)
            && guests.last().is_none_or(|it| it.function != function || it.bytes != bytes)
        {
            guests.push(Guest { bytes, function: function.into() });
        }
    }
    if guests.is_empty() {
        stop(&format!("{folder} has no guest"));
    }
    guests
}

/// The modules of a batch, written to a folder.
fn batch(options: &Options, instructions: &[Instruction], seeds: std::ops::Range<u64>, folder: &Path) -> Vec<Case> {
    let made = seeds.map(|seed| {
        let make = if options.is_linked { module::linked } else { module::case };
        let mut case = make(seed, instructions);
        if let Some(guests) = &options.guests {
            let random = &mut Random::new(!seed);
            if random.once_in(2) {
                let guest = random.of(guests);
                case.bytes = guest.bytes.clone();
                case.lines = vec![format!("invoke {} 3", guest.function), "left".into(), "digest".into()];
            }
            let other = random.of(guests);
            case.bytes = random::mutant(&case.bytes, &other.bytes, random);
        }
        let written = |name: String, bytes: &[u8]| {
            let file = folder.join(name).display().to_string();
            std::fs::write(&file, bytes).unwrap_or_else(|error| stop(&format!("{file}: {error}")));
            file
        };
        let provider = case.provider.map(|bytes| written(format!("{seed}.other.wasm"), &bytes));
        Case { seed, file: written(format!("{seed}.wasm"), &case.bytes), provider, lines: case.lines }
    });
    made.collect()
}

/// What is compared of two replies. A reply says more than WebAssembly does about why a module is refused, and V8 has one text for two traps.
fn compared(reply: &str, is_with_v8: bool) -> &str {
    match reply.split(':').next().unwrap_or("") {
        "invalid" | "malformed" | "unsupported" | "unlinkable" | "refused" if is_with_v8 => "refused",
        "error" => "error",
        _ if is_with_v8 && reply == "trap: uninitialized element 2" => "trap: indirect call type mismatch",
        _ => reply,
    }
}

/// The first line on which two engines differ.
fn difference(case: &Case, one: &Replies, other: &Replies, is_with_v8: bool) -> Option<String> {
    let names = std::iter::once("module").chain(case.lines.iter().map(String::as_str)).chain(["the end"]);
    let (mut left, mut right) = (one.lines.iter(), other.lines.iter());
    // Without an instance the lines after the first are of the module before.
    let is_made = one.lines.first().is_some_and(|it| it.starts_with("ok"));
    let pairs = names.take(if is_made { usize::MAX } else { 1 });
    let mut pairs = pairs.map(|name| (name, left.next().map_or("", |it| it), right.next().map_or("", |it| it)));
    // How deep the calls of V8 go is V8's to say, and with it what they have changed until then. It calls no function of vectors, and cuts
    // an operand to 32 bits that is no number of them. An instruction that computes with floats traps in the engine alone.
    let is_same = |name, a, b| (is_with_v8 && name == "left") || compared(a, is_with_v8) == compared(b, is_with_v8);
    let is_no_operand = |a: &str, b: &str| {
        [" is no I32", " is no F32", " is no F64"].iter().any(|it| a.ends_with(it))
            || b.starts_with("error: type incompat")
    };
    let is_of_floats = |a: &str| a.starts_with("unsupported:");
    let is_last =
        |a: &str, b: &str| is_with_v8 && (a == EXHAUSTED || b == EXHAUSTED || is_no_operand(a, b) || is_of_floats(a));
    let (name, a, b) = pairs.find(|(name, a, b)| is_last(a, b) || !is_same(*name, *a, *b))?;
    (!is_last(a, b)).then(|| format!("{name}: {a} | {b}"))
}

/// Whether both accept a module, or both refuse it, or one of them lacks what the other has: V8 several memories, tables of 64-bit
/// addresses and wide arithmetic, the engine what it names.
fn is_accepted_alike(reply: &str, of_v8: &str) -> bool {
    let is_accepted = ["ok:", "trap:", "unlinkable:"].iter().any(|it| reply.starts_with(it));
    let has = |text: &str, words: &[&str]| words.iter().any(|it| text.contains(it));
    // An alignment of 64 and more says that the number of a memory follows.
    let alignment =
        of_v8.rsplit("actual alignment is ").next().and_then(|it| it.split(' ').next()?.parse::<u32>().ok());
    match (is_accepted, of_v8.starts_with("ok:")) {
        (true, false) => {
            has(of_v8, &["memory count", "table elements limits flags", "invalid numeric opcode: 0xfc1"])
                || alignment.is_some_and(|it| it >= 64)
        }
        (false, true) => has(reply, &["unsupported:", "ended:"]),
        _ => true,
    }
}

const EXHAUSTED: &str = "trap: call stack exhausted";

/// Whether a memory has grown to more than 4 MiB: there V8 has more memory than the engine is given.
fn is_great(replies: &Replies) -> bool {
    let digest = replies.lines.last().map_or("", |it| it);
    let pages = digest.split("memory ").skip(1).filter_map(|it| it.split(' ').next()?.parse::<u64>().ok());
    pages.max().is_some_and(|pages| pages > 64)
}

#[derive(Default)]
struct Counts {
    accepted: u64,
    lines: u64,
    returned: u64,
    trapped: u64,
    with_v8: u64,
    differ: u64,
    results: u64,
    fuel: u64,
}

impl Counts {
    fn add(&mut self, case: &Case, replies: &Replies) {
        if !replies.lines.first().is_some_and(|it| it.starts_with("ok")) {
            self.results = checksum(self.results, replies.lines.first().map_or("", |it| it));
            return;
        }
        self.accepted += 1;
        for (name, reply) in case.lines.iter().zip(replies.lines.iter().skip(1)) {
            self.lines += 1;
            self.returned += u64::from(name.starts_with("invoke") && reply.starts_with("ok"));
            self.trapped += u64::from(name.starts_with("invoke") && reply.starts_with("trap"));
            let sum = if name == "left" { &mut self.fuel } else { &mut self.results };
            *sum = checksum(*sum, compared(reply, false));
        }
    }
}

fn report(options: &Options, counts: &mut Counts, case: &Case, engine: &str, text: &str) {
    counts.differ += 1;
    println!("{}: {engine}: {text}", case.seed);
    if let Some(folder) = &options.found {
        let written = std::fs::create_dir_all(folder)
            .and_then(|()| std::fs::copy(&case.file, folder.join(format!("{}.wasm", case.seed))))
            .and_then(|_| match &case.provider {
                Some(file) => std::fs::copy(file, folder.join(format!("{}.other.wasm", case.seed))),
                None => Ok(0),
            });
        let script = case.lines.iter().map(|it| format!("{it}\n")).collect::<String>();
        written
            .and_then(|_| std::fs::write(folder.join(format!("{}.lines", case.seed)), script))
            .unwrap_or_else(|error| stop(&error.to_string()));
    }
}

/// Whether V8 may run a module: it has no fuel, and no limiter.
fn ends(replies: &Replies) -> bool {
    let is_limited = |it: &String| it.contains("all fuel consumed") || it.contains("growth operation limited");
    !replies.has_ended
        && replies.lines.first().is_some_and(|it| it.starts_with("ok"))
        && !replies.lines.iter().any(is_limited)
}

fn compare(options: &Options, counts: &mut Counts, cases: Vec<Case>, script: &str) {
    let fuel = if options.guests.is_some() { 300_000 } else { 100_000_000 };
    let first = engines::run(&options.engines[0], fuel, &cases, script);
    for (case, replies) in cases.iter().zip(&first) {
        counts.add(case, replies);
        if replies.has_ended {
            report(options, counts, case, &options.engines[0], replies.lines.last().map_or("", |it| it));
        }
    }
    for engine in &options.engines[1..] {
        let other = engines::run(engine, fuel, &cases, script);
        for ((case, one), other) in cases.iter().zip(&first).zip(&other) {
            if let Some(text) = difference(case, one, other, false) {
                report(options, counts, case, engine, &text);
            }
        }
    }
    if let Some(v8) = &options.v8 {
        let found = if options.guests.is_some() { engines::validate(v8, &cases, script) } else { vec![] };
        for ((case, one), found) in cases.iter().zip(&first).zip(&found) {
            let reply = one.lines.first().map_or("", |it| it);
            if !is_accepted_alike(reply, found) {
                report(options, counts, case, v8, &format!("module: {reply} | {found}"));
            }
        }
        let is_run = |replies: &Replies| options.guests.is_none() || ends(replies);
        let (cases, first): (Vec<_>, Vec<_>) = cases.into_iter().zip(first).filter(|(_, it)| is_run(it)).unzip();
        counts.with_v8 += cases.len() as u64;
        let other = engines::run(v8, fuel, &cases, script);
        for ((case, one), other) in cases.iter().zip(&first).zip(&other) {
            // A damaged module that V8 refuses was compared above.
            let is_refused =
                options.guests.is_some() && other.lines.first().is_some_and(|it| it.starts_with("refused"));
            if let Some(text) = difference(case, one, other, true).filter(|_| !is_refused && !is_great(other)) {
                report(options, counts, case, v8, &text);
            }
        }
    }
}

fn main() {
    let options = options();
    let instructions = instructions();
    let folder = std::env::temp_dir().join(format!("fuzz.{}", std::process::id()));
    std::fs::create_dir_all(&folder).unwrap_or_else(|error| stop(&error.to_string()));
    let script = folder.join("script").display().to_string();
    let mut counts = Counts::default();
    let end = options.seed + options.count;
    let mut from = options.seed;
    while from < end {
        let cases = batch(&options, &instructions, from..end.min(from + 250), &folder);
        let files: Vec<_> =
            cases.iter().flat_map(|it| [Some(it.file.clone()), it.provider.clone()]).flatten().collect();
        compare(&options, &mut counts, cases, &script);
        files.iter().for_each(|it| drop(std::fs::remove_file(it)));
        from += 250;
    }
    drop(std::fs::remove_dir_all(&folder));
    let found = format!("results {:016x}, fuel {:016x}", counts.results, counts.fuel);
    println!("{found}");
    let is_expected =
        options.expected.as_ref().is_none_or(|file| std::fs::read_to_string(file).is_ok_and(|it| it.trim() == found));
    if !is_expected {
        println!("{} has other checksums", options.expected.as_deref().unwrap_or(""));
    }
    let (modules, v8) = (options.count, counts.with_v8);
    println!(
        "{modules} modules, {} accepted, {} with V8, {} calls returned, {} trapped: {} differ",
        counts.accepted, v8, counts.returned, counts.trapped, counts.differ
    );
    if counts.returned + counts.trapped == 0 {
        stop("no call was compared");
    }
    std::process::exit(i32::from(counts.differ > 0 || !is_expected));
}
