//! Scripts, and what they print.
#![cfg(feature = "std")]

/// Lines, and beside each what is printed for it; after a `;` stands what is printed at the end. An
/// empty last line is a line feed at the end.
macro_rules! script {
    (
        $first:expr $(=> $first_printed:expr)?
        $(, $line:expr $(=> $printed:expr)?)* $(,)?
        $(; $($last:expr),+ $(,)?)?
    ) => {
        $crate::Script {
            text: concat!($first $(, "\n", $line)*),
            printed: concat!(
                $($first_printed, "\n",)?
                $($($printed, "\n",)?)*
                $($($last, "\n",)+)?
            ),
        }
    };
}

/// A script whose calls are answered, with one more header line or none, and what is held then.
macro_rules! metered {
    ($($header:literal; $held:literal)?) => {
        script! {
            "meter on 64",
            $($header,)?
            "fuel 2000" => "done",
            "memory 1 2 16 32" => "memory 0",
            "write 0 65535 44" => "done",
            "grow 0 1" => "value 1",
            "grow 0 1" => "error out of bounds memory growth",
            "read 0 65535 2" => "bytes 44 0",
            "left" => "value 976",
            ""
            $(; $held)?
        }
    };
}

mod bad_lines;
mod instructions;
mod memories;
mod streams;

use std::str;
use streams::{Source, Target};
use wasmi_core_proved::script::{Status, replay};

/// A text, and all that is printed for it.
#[derive(Clone, Copy)]
struct Script {
    text: &'static str,
    printed: &'static str,
}

/// A script whose calls are answered.
const METERED: Script = metered! {};

fn same_text(printed: &[u8], expected: &[u8]) {
    let (text, wanted) = (str::from_utf8(printed), str::from_utf8(expected));
    assert!(printed == expected, "{text:?} in place of {wanted:?}");
}

/// Runs what the reader gives, and compares what is printed and how it ends.
fn prints(reader: &mut Source<'_>, printed: &str, status: Status) {
    let mut writer = Target::new();
    let ended = replay(reader, &mut writer);
    assert_eq!(ended, status, "{}", printed);
    same_text(writer.text(), printed.as_bytes());
}

/// A script whose calls are answered; or whose first memory with addresses of 64 bits is a bad line, without the feature.
fn answers(script: &str, printed: &str) {
    let mut reader = Source::of(script.as_bytes());
    let wide = script.lines().position(|line| {
        let mut words = line.split_whitespace();
        matches!(words.next(), Some("memory" | "lent")) && words.last() == Some("64")
    });
    match wide.filter(|_| cfg!(not(feature = "memory64"))) {
        Some(place) => {
            let printed = format!("line {}: bad command\n", place + 1);
            prints(&mut reader, &printed, Status::BadScript);
        }
        None => prints(&mut reader, printed, Status::Answered),
    }
}

/// Scripts whose calls are answered.
fn answers_each(scripts: &[Script]) {
    for script in scripts {
        answers(script.text, script.printed);
    }
}

/// What a script prints, and how it ends.
fn replayed(script: &str) -> (Status, String) {
    let mut printed = Vec::new();
    let status = replay(&mut script.as_bytes(), &mut printed);
    (status, String::from_utf8(printed).unwrap())
}

#[test]
fn a_script_prints_its_replies() {
    let script = "meter on 64\nfuel 2000\nmemory 1 2 16 32\ngrow 0 1\ngrow 0 1\nleft\n";
    let printed = "done\nmemory 0\nvalue 1\nerror out of bounds memory growth\nvalue 976\n";
    assert_eq!(replayed(script), (Status::Answered, printed.into()));
}

#[test]
fn a_bad_line_is_told() {
    let (status, printed) = replayed("set 0 1 2\nshow x\n");
    assert_eq!(
        (status.code(), printed.as_str()),
        (2, "line 2: bad command\n")
    );
}

#[test]
fn a_region_without_room() {
    let (status, printed) = replayed("region 9223372036854775808 0");
    assert_eq!((status.code(), printed.as_str()), (3, "out of memory\n"));
}

#[test]
fn slots_without_room() {
    for kind in 0..5 {
        let mut slots = ["0"; 5];
        slots[kind] = "18446744073709551615";
        let (status, printed) = replayed(&format!("reserve {}\nleft\n", slots.join(" ")));
        assert_eq!((status.code(), printed.as_str()), (3, "out of memory\n"));
    }
}

#[test]
fn reserved_slots_print_nothing() {
    let calls = "memory 1 none 0 32\ntable func 1 2 32 func 0\nsegment func 1\ndata 1\nglobal i32 var 1 0\n";
    let printed = "memory 0\ntable 0\nsegment 0\ndata 0\nglobal 0\n";
    for header in ["", "reserve 1 1 1 1 1\n", "reserve 0 2 0 3 0\nmeter off\n"] {
        let script = format!("{header}{calls}");
        assert_eq!(replayed(&script), (Status::Answered, printed.into()));
    }
}

#[test]
fn each_tenant_has_reserved_slots() {
    let script = "reserve 1 1 1 1 1\ntenants 2 8 0\nmemory 1 none 0 32\nas 1\nmemory 2 none 0 32\n";
    let printed = "memory 0\nmemory 0\nheld 0 1 0\nheld 1 2 0\n";
    assert_eq!(replayed(script), (Status::Answered, printed.into()));
}

#[test]
fn a_writer_that_fails() {
    let mut full: &mut [u8] = &mut [0; 2];
    let status = replay(&mut "set 0 1 2\n".as_bytes(), &mut full);
    assert_eq!(status.code(), 4);
}
