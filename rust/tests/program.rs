//! The program `wasmi_replay`: its statuses, its texts, and that it reads and writes all, whatever the lengths are.
#![cfg(all(feature = "std", unix))]
use std::env;
use std::fs::File;
use std::io::Write;
use std::process::{Child, Command, Stdio};

/// The program, run by what runs the programs of another processor, if cargo was told one for these tests.
fn program() -> Command {
    let program = env!("CARGO_BIN_EXE_wasmi_replay");
    let runner = env::vars_os().find(|(name, _)| {
        let name = name.to_string_lossy();
        name.starts_with("CARGO_TARGET_") && name.ends_with("_RUNNER")
    });
    let Some((_, runner)) = runner else {
        return Command::new(program);
    };
    let mut command = Command::new(runner);
    command.arg(program);
    command
}

/// The program with such an input and output.
fn started(input: impl Into<Stdio>, output: impl Into<Stdio>) -> Child {
    program()
        .stdin(input)
        .stdout(output)
        .spawn()
        .expect("the program starts")
}

fn status(mut child: Child) -> Option<i32> {
    child.wait().expect("the program ends").code()
}

/// What the program prints for a script, and its status.
fn replayed(script: &str) -> (Option<i32>, String) {
    let mut child = started(Stdio::piped(), Stdio::piped());
    let mut input = child.stdin.take().expect("an input");
    let printed = std::thread::scope(|threads| {
        threads.spawn(move || input.write_all(script.as_bytes()));
        child.wait_with_output().expect("the program ends")
    });
    (
        printed.status.code(),
        String::from_utf8(printed.stdout).expect("a text"),
    )
}

fn opened(path: &str) -> File {
    File::options()
        .read(true)
        .write(path.starts_with("/dev/"))
        .open(path)
        .expect("it opens")
}

#[test]
fn statuses() {
    for (script, code, printed) in [
        ("", 0, ""),
        ("show 0", 0, "raw 0 0\n"),
        ("show 0\nno such call\n", 2, "line 2: bad command\n"),
        ("region 9223372036854775808 0", 3, "out of memory\n"),
    ] {
        assert_eq!(replayed(script), (Some(code), printed.into()), "{script}");
    }
}

#[test]
fn an_input_that_fails() {
    let child = started(opened(env!("CARGO_MANIFEST_DIR")), Stdio::piped());
    let printed = child.wait_with_output().expect("the program ends");
    assert_eq!(
        (printed.status.code(), printed.stdout),
        (Some(4), b"read fault\n".to_vec())
    );
}

/// The program on a script, with an output that takes nothing.
fn lost(script: &str, output: impl Into<Stdio>, closed: impl FnOnce(&mut Child)) -> Option<i32> {
    let mut child = started(Stdio::piped(), output);
    closed(&mut child);
    let mut input = child.stdin.take().expect("an input");
    input.write_all(script.as_bytes()).expect("it is read");
    drop(input);
    status(child)
}

#[test]
fn an_output_that_fails() {
    let long = "show 0\n".repeat(20_000);
    for (script, written) in [("show 0\n", 0), ("bad\n", 2), (&long, 0)] {
        // A process that another test begins has the reading end too, until it executes its program.
        let close = |child: &mut Child| drop(child.stdout.take());
        let mut ends = (0..20).map(|_| lost(script, Stdio::piped(), close));
        assert_eq!(
            ends.find(|end| *end != Some(written)),
            Some(Some(4)),
            "a pipe that nobody reads"
        );
        #[cfg(target_os = "linux")]
        assert_eq!(
            lost(script, opened("/dev/full"), |_| ()),
            Some(4),
            "a full device"
        );
    }
    assert_eq!(
        lost("", Stdio::piped(), |child| drop(child.stdout.take())),
        Some(0),
        "nothing is written"
    );
}

/// The last line is read whatever stands before it, up to the greatest length.
#[test]
fn scripts_of_each_length() {
    const LIMIT: usize = 1 << 20;
    const LAST: &str = "\nshow 0";
    let edges = [
        1 << 12,
        1 << 13,
        1 << 15,
        1 << 16,
        1 << 17,
        1 << 18,
        1 << 19,
    ]
    .into_iter();
    for len in edges
        .flat_map(|len| [len - 1, len, len + 1, len + 7])
        .chain([LIMIT - 1, LIMIT])
    {
        let script = " ".repeat(len - LAST.len()) + LAST;
        assert_eq!(replayed(&script), (Some(0), "raw 0 0\n".into()), "{len}");
    }
    let long = " ".repeat(LIMIT + 1);
    assert_eq!(replayed(&long), (Some(2), "script too long\n".into()));
}

/// All is written, whatever its length is.
#[test]
fn outputs_of_each_length() {
    for count in [1, 511, 512, 513, 1_024, 8_192, 8_193, 32_769, 100_000] {
        let script = "show 0\n".repeat(count);
        assert_eq!(
            replayed(&script),
            (Some(0), "raw 0 0\n".repeat(count)),
            "{count}"
        );
    }
}
