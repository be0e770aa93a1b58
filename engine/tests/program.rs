//! The program `engine`, as a user runs it: WASI preview 1, statuses, and what is printed where.

use std::io::Write;
use std::path::{Path, PathBuf};
use std::process::{Command, Output, Stdio};
use std::{env, fs, process};

/// A folder of a test, with `terminal.wasm` and beside it a folder `in`.
struct Place(PathBuf);

impl Place {
    fn new(test: &str) -> Self {
        let place = env::temp_dir().join(format!("engine-program-{test}-{}", process::id()));
        let _ = fs::remove_dir_all(&place);
        fs::create_dir_all(place.join("in/deep")).unwrap();
        fs::write(place.join("terminal.wasm"), include_bytes!("../guests/terminal.wasm")).unwrap();
        fs::write(place.join("tiny.wasm"), include_bytes!("../guests/tiny.wasm")).unwrap();
        fs::write(place.join("in/a.txt"), "first, second").unwrap();
        fs::write(place.join("out.txt"), "secret").unwrap();
        Self(place)
    }

    fn run(&self, words: &str, input: &str) -> Output {
        let mut command = Command::new(env!("CARGO_BIN_EXE_engine"));
        command.current_dir(&self.0).args(words.split_whitespace());
        command.stdin(Stdio::piped()).stdout(Stdio::piped()).stderr(Stdio::piped());
        let mut child = command.spawn().unwrap();
        // A program that doesn't read its input has closed it perhaps.
        let _ = child.stdin.take().unwrap().write_all(input.as_bytes());
        child.wait_with_output().unwrap()
    }

    /// The standard output of a run that ends with this status, and its standard error.
    fn ends(&self, words: &str, status: i32) -> (String, String) {
        let output = self.run(words, "");
        let texts = [output.stdout, output.stderr].map(|it| String::from_utf8(it).unwrap());
        assert_eq!(output.status.code(), Some(status), "{words}: {texts:?}");
        texts.into()
    }

    fn prints(&self, words: &str, expected: &str) {
        assert_eq!(self.ends(words, 0), (expected.to_owned(), String::new()), "{words}");
    }
}

impl Drop for Place {
    fn drop(&mut self) {
        let _ = fs::remove_dir_all(&self.0);
    }
}

#[test]
fn arguments_and_variables() {
    let place = Place::new("arguments");
    place.prints("terminal.wasm", "terminal.wasm\n");
    place.prints("terminal.wasm -- args --fuel x", "terminal.wasm\nargs\n--fuel\nx\n");
    place.prints("terminal.wasm --env A=1 --env B=x=y -- args", "terminal.wasm\nargs\nA=1\nB=x=y\n");
    place.prints("terminal.wasm _start -- args", "terminal.wasm\nargs\n");
}

#[test]
fn caps() {
    let place = Place::new("caps");
    fs::write(place.0.join("arrays.wasm"), include_bytes!("../guests/arrays.wasm")).unwrap();
    // The guest begins with two pages of memory and a table of nine elements, and grows the memory by a page.
    place.prints("arrays.wasm sieve 10 --table-cap 9 --memory-cap 196608", "17000055\n");
    for words in ["--table-cap 8", "--memory-cap 131071", "--max-memory 131071"] {
        let (output, errors) = place.ends(&format!("arrays.wasm sieve 10 {words}"), 1);
        assert_eq!((output.as_str(), errors.as_str()), ("", "trap: growth operation limited\n"), "{words}");
    }
}

#[test]
fn the_standard_streams() {
    let place = Place::new("streams");
    let text = "a line\n".repeat(1000);
    assert_eq!(place.run("terminal.wasm -- echo", &text).stdout, text.as_bytes());
    let (output, errors) = place.ends("terminal.wasm -- error", 0);
    assert_eq!((output.as_str(), errors.as_str()), ("", "error\n"));
}

#[test]
fn statuses() {
    let place = Place::new("statuses");
    place.ends("terminal.wasm -- exit 0", 0);
    place.ends("terminal.wasm -- exit 7", 7);
    let (output, errors) = place.ends("terminal.wasm -- stop", 1);
    assert_eq!(output, "");
    assert_eq!(
        errors,
        "stopping\ntrap: wasm `unreachable` instruction executed\n    in stop\n    in stop_later\n    in start\n"
    );
    let (_, errors) = place.ends("terminal.wasm nothing", 2);
    assert!(errors.contains("there is no exported function nothing, but _start"), "{errors}");
    let (_, errors) = place.ends("tiny.wasm", 2);
    assert!(errors.contains("there is no exported function _start, but divides_by_zero, run"), "{errors}");
    fs::write(place.0.join("broken.wasm"), "\0asm").unwrap();
    place.ends("broken.wasm", 3);
    place.ends("", 2);
    place.ends("terminal.wasm --no-such-option", 2);
    place.ends("terminal.wasm --dir nowhere", 2);
    place.ends("terminal.wasm --env A", 2);
    for words in ["-h", "--help"] {
        assert!(place.ends(words, 0).0.starts_with("usage: "));
    }
    assert_eq!(place.ends("-V", 0), place.ends("--version", 0));
}

#[test]
fn a_run_is_determined() {
    let place = Place::new("determined");
    place.prints("terminal.wasm -- time", "1000000\n2000000\n");
    let random = place.ends("terminal.wasm -- random", 0);
    // The first number of SplitMix64 from 0 is 0xe220a8397b1dcdaf, as its authors print it.
    assert_eq!(random.0, "175\n205\n29\n123\n57\n");
    assert_eq!(place.ends("terminal.wasm --seed 0 -- random", 0), random);
    assert_ne!(place.ends("terminal.wasm --seed 1 -- random", 0), random);
    let (times, _) = place.ends("terminal.wasm --clock -- time", 0);
    let begun: u64 = times.lines().next().unwrap().parse().unwrap();
    assert!(begun > 1_500_000_000_000_000_000, "{times}");
}

#[test]
fn files_of_a_folder() {
    let place = Place::new("files");
    place.prints("terminal.wasm --dir in -- read a.txt", "first, second10\nond");
    place.prints("terminal.wasm --dir in::other -- read deep/../a.txt", "first, second10\nond");
    // No folder is given: descriptor 3 isn't open.
    place.prints("terminal.wasm -- read a.txt", "8\n");
    place.prints("terminal.wasm --dir in -- read none.txt", "44\n");
    place.prints("terminal.wasm --dir in -- read deep", "31\n");
    for path in ["../out.txt", "deep/../../out.txt", "/etc/passwd", "..", "../in/a.txt"] {
        place.prints(&format!("terminal.wasm --dir in -- read {path}"), "76\n");
    }
}

#[cfg(unix)]
#[test]
fn links_stay_in_the_folder() {
    let place = Place::new("links");
    let link = |target: &Path, name: &str| std::os::unix::fs::symlink(target, place.0.join("in").join(name)).unwrap();
    link(Path::new("../out.txt"), "out");
    link(Path::new(".."), "up");
    link(&place.0.join("out.txt"), "absolute");
    link(Path::new("deep/../a.txt"), "inside");
    link(Path::new("round"), "round");
    for path in ["out", "up/out.txt", "up/in/a.txt", "absolute"] {
        place.prints(&format!("terminal.wasm --dir in -- read {path}"), "76\n");
    }
    place.prints("terminal.wasm --dir in -- read inside", "first, second10\nond");
    place.prints("terminal.wasm --dir in -- read round", "32\n");
}

#[test]
fn what_a_program_may_not_do() {
    let place = Place::new("misuse");
    // To create a file and to write one (69, a file system to be read), to remove one (52, no such function), to write to
    // the standard input (76), bytes outside of the memory (21), too many buffers (28), descriptors that aren't open (8),
    // bytes outside of the memory, the name of a stream (8), a path in a stream (54).
    let expected = "69\n69\n52\n76\n21\n28\n8\n8\n21\n8\n54\n";
    place.prints("terminal.wasm --dir in -- misuse", expected);
    assert_eq!(fs::read_to_string(place.0.join("in/a.txt")).unwrap(), "first, second");
}

#[test]
fn copied_bytes_cost_fuel() {
    let place = Place::new("fuel");
    let fuel = |words: &str, input: &str| -> u64 {
        let output = place.run(&format!("terminal.wasm --fuel 10000000 {words}"), input);
        let errors = String::from_utf8(output.stderr).unwrap();
        errors.trim().strip_prefix("fuel: ").unwrap().parse().unwrap()
    };
    // Each of the 100 buffers costs what its call costs, and for 100 bytes in and out a unit for each 64 at least.
    let (short, long) = (fuel("-- echo", ""), fuel("-- echo", &"x".repeat(10_000)));
    assert!(long > short + 100 * 2, "{short} {long}");
    let (_, errors) = place.ends("terminal.wasm --fuel 1000000 -- fill", 1);
    assert!(errors.starts_with("trap: all fuel consumed"), "{errors}");
}

/// The last or the first word of each line that has a number there.
fn numbers<'a>(lines: &'a str, word: fn(&'a str) -> Option<&'a str>) -> u64 {
    lines.lines().filter_map(|it| word(it)?.parse::<u64>().ok()).sum()
}

#[test]
fn profiles() {
    let place = Place::new("profiles");
    let (plain, plain_fuel) = place.ends("tiny.wasm run 50 --fuel 100000000", 0);
    let (output, errors) = place.ends("tiny.wasm run 50 --fuel 100000000 --profile --folded folded", 0);
    assert_eq!(output, plain);
    assert_eq!(errors.lines().last(), plain_fuel.lines().last());
    let functions = numbers(errors.split("\n\n").next().unwrap(), |it| it.split_whitespace().next());
    let folded = fs::read_to_string(place.0.join("folded")).unwrap();
    assert_eq!(functions, numbers(&folded, |it| it.split_whitespace().last()));
    // What the functions haven't taken was taken for the module's segments.
    let fuel = numbers(plain_fuel.trim_start_matches("fuel: "), |it| it.split_whitespace().next());
    assert!(functions <= fuel && fuel < functions + 100, "{functions} {fuel}");
}

#[test]
fn instructions_are_counted() {
    let place = Place::new("counted");
    // The loop of `fill` is run until the fuel is used: a call of the host and a branch each time.
    let (_, errors) = place.ends("terminal.wasm --fuel 1000000 --profile -- fill", 1);
    let count = |name: &str| -> u64 {
        let line = errors.lines().find(|it| it.split_whitespace().last() == Some(name));
        line.and_then(|it| it.split_whitespace().next()?.parse().ok()).unwrap_or_else(|| panic!("{name}: {errors}"))
    };
    let calls = errors.lines().find(|it| it.ends_with("  random_get")).and_then(|it| it.split_whitespace().nth(3));
    assert_eq!(calls.map(str::to_owned), Some(count("host").saturating_sub(2).to_string()));
}

#[test]
fn calls_are_traced() {
    let place = Place::new("traced");
    let calls = "start\n  args_sizes_get\n  args_get\n  stop_later\n    stop\n      put\n        fd_write\nstopping\n";
    let (_, errors) = place.ends("terminal.wasm --trace-calls -- stop", 1);
    assert!(errors.starts_with(calls), "{errors}");
}

#[cfg(unix)]
#[test]
fn a_closed_output_ends_quietly() {
    let place = Place::new("closed");
    let ended = || {
        let mut command = Command::new(env!("CARGO_BIN_EXE_engine"));
        command.current_dir(&place.0).args(["terminal.wasm", "--", "echo"]);
        let mut child = command.stdin(Stdio::piped()).stdout(Stdio::piped()).stderr(Stdio::piped()).spawn().unwrap();
        drop(child.stdout.take());
        let _ = child.stdin.take().unwrap().write_all(b"a line\nand another one\n");
        child.wait_with_output().unwrap()
    };
    // A process that another test begins has the reading end too, until it executes its program.
    let output = (0..20).map(|_| ended()).find(|it| it.status.code() != Some(0)).expect("a closed output");
    assert_eq!(output.status.code(), Some(141));
    assert_eq!(output.stderr, b"");
}
