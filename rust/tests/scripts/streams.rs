//! Readers and writers that can be slow and can fail, scripts of any number of calls, and the statuses.
use super::{METERED, prints, same_text};
use std::io::{self, ErrorKind, Read, Write};
use wasmi_core_proved::machine::{Call, Reply};
use wasmi_core_proved::script::{LIMIT, ParseError, ReplayError, ReplyHead, Status, replay};

/// A reader of these bytes, at most so many a turn. After so many good turns each turn fails with
/// this error.
pub struct Source<'a> {
    bytes: &'a [u8],
    pub at_once: usize,
    pub good_turns: usize,
    pub error: ErrorKind,
    pub turns: usize,
}

impl<'a> Source<'a> {
    pub fn of(bytes: &'a [u8]) -> Self {
        Source {
            bytes,
            at_once: usize::MAX,
            good_turns: usize::MAX,
            error: ErrorKind::Interrupted,
            turns: 0,
        }
    }
}

impl Read for Source<'_> {
    fn read(&mut self, buf: &mut [u8]) -> io::Result<usize> {
        if self.turns >= self.good_turns {
            return Err(io::Error::from(self.error));
        }
        self.turns += 1;
        let count = self.bytes.len().min(buf.len()).min(self.at_once);
        buf[..count].copy_from_slice(&self.bytes[..count]);
        self.bytes = &self.bytes[count..];
        Ok(count)
    }
}

/// What a writer does in the turns after its good ones.
#[derive(Clone, Copy)]
pub enum After {
    Fails(ErrorKind),
    TakesNothing,
}

/// A writer that keeps what it takes, at most so many bytes a turn.
pub struct Target {
    bytes: Vec<u8>,
    pub at_once: usize,
    pub good_turns: usize,
    pub after: After,
    pub flush_fails: bool,
    pub turns: usize,
    pub is_flushed: bool,
}

impl Target {
    pub fn new() -> Target {
        Target {
            bytes: Vec::new(),
            at_once: usize::MAX,
            good_turns: usize::MAX,
            after: After::Fails(ErrorKind::Interrupted),
            flush_fails: false,
            turns: 0,
            is_flushed: false,
        }
    }

    pub fn text(&self) -> &[u8] {
        self.bytes.as_slice()
    }
}

impl Write for Target {
    fn write(&mut self, buf: &[u8]) -> io::Result<usize> {
        if self.turns >= self.good_turns {
            return match self.after {
                After::Fails(error) => Err(io::Error::from(error)),
                After::TakesNothing => Ok(0),
            };
        }
        self.turns += 1;
        let count = buf.len().min(self.at_once);
        self.bytes.extend_from_slice(&buf[..count]);
        self.is_flushed = false;
        Ok(count)
    }

    fn flush(&mut self) -> io::Result<()> {
        if self.flush_fails {
            return Err(io::Error::from(ErrorKind::BrokenPipe));
        }
        self.is_flushed = true;
        Ok(())
    }
}

#[test]
fn reads_a_limited_script() {
    let rows: [(&str, usize, &str, Status); 4] = [
        (" ", LIMIT, "", Status::Answered),
        ("x", LIMIT, "line 1: bad command\n", Status::BadScript),
        (" ", LIMIT + 1, "script too long\n", Status::BadScript),
        ("x", LIMIT + 1, "script too long\n", Status::BadScript),
    ];
    for (text, times, printed, status) in rows {
        let script = text.repeat(times);
        prints(&mut Source::of(script.as_bytes()), printed, status);
    }
    assert_eq!(LIMIT, 1_048_576, "the most bytes of a script");
}

#[test]
fn reads_from_slow_readers() {
    let rows = [
        (1, 95),
        (2, 48),
        (40, 4),
        (93, 3),
        (94, 2),
        (95, 2),
        (4096, 2),
    ];
    for (at_once, turns) in rows {
        let mut reader = Source::of(METERED.text.as_bytes());
        reader.at_once = at_once;
        prints(&mut reader, METERED.printed, Status::Answered);
        assert_eq!(reader.turns, turns, "the turns of a reader");
    }
}

/// A script of spaces, how it is read, and how that ends.
#[derive(Clone, Copy)]
struct LongScript {
    length: usize,
    at_once: usize,
    turns: usize,
    status: Status,
}

const LONG_SCRIPTS: [LongScript; 5] = [
    LongScript {
        length: LIMIT,
        at_once: 1,
        turns: LIMIT + 1,
        status: Status::Answered,
    },
    LongScript {
        length: LIMIT + 1,
        at_once: 1,
        turns: LIMIT + 1,
        status: Status::BadScript,
    },
    LongScript {
        length: LIMIT + 5000,
        at_once: 1,
        turns: LIMIT + 1,
        status: Status::BadScript,
    },
    LongScript {
        length: LIMIT,
        at_once: 4096,
        turns: 257,
        status: Status::Answered,
    },
    LongScript {
        length: LIMIT + 5000,
        at_once: 4096,
        turns: 257,
        status: Status::BadScript,
    },
];

#[test]
fn takes_at_most_one_turn_more_than_bytes() {
    for row in LONG_SCRIPTS {
        let script = " ".repeat(row.length);
        let mut reader = Source::of(script.as_bytes());
        reader.at_once = row.at_once;
        let printed = match row.status {
            Status::BadScript => "script too long\n",
            _ => "",
        };
        prints(&mut reader, printed, row.status);
        assert_eq!(reader.turns, row.turns, "the turns of a reader");
    }
}

/// The metered script, forty bytes a turn.
#[test]
fn each_error_of_a_reader_is_a_fault() {
    let errors = [
        ErrorKind::Interrupted,
        ErrorKind::BrokenPipe,
        ErrorKind::OutOfMemory,
        ErrorKind::UnexpectedEof,
    ];
    for error in errors {
        for good_turns in 0..4 {
            let mut reader = Source::of(METERED.text.as_bytes());
            reader.at_once = 40;
            reader.good_turns = good_turns;
            reader.error = error;
            prints(&mut reader, "read fault\n", Status::Fault);
        }
    }
}

#[test]
fn what_is_met_first_decides() {
    let mut ended = Source::of(METERED.text.as_bytes());
    ended.at_once = 40;
    ended.good_turns = 4;
    prints(&mut ended, METERED.printed, Status::Answered);
    let mut before_a_bad_line = Source::of(b"left 1\nleft");
    before_a_bad_line.at_once = 7;
    before_a_bad_line.good_turns = 1;
    prints(&mut before_a_bad_line, "read fault\n", Status::Fault);
}

/// What the metered script prints to this writer, which takes one byte a turn where its good turns
/// come to an end.
fn ends_with(writer: &mut Target, status: Status) {
    let ended = replay(&mut Source::of(METERED.text.as_bytes()), writer);
    assert_eq!(ended, status, "how it ends");
    let sent = writer.good_turns.min(METERED.printed.len());
    same_text(writer.text(), &METERED.printed.as_bytes()[..sent]);
}

#[test]
fn prints_to_slow_writers() {
    for at_once in [1, 2, 3, 7, 40, 500] {
        let mut writer = Target::new();
        writer.at_once = at_once;
        ends_with(&mut writer, Status::Answered);
        assert!(writer.is_flushed, "all is flushed");
        if at_once == 1 {
            assert_eq!(writer.turns, METERED.printed.len(), "turns");
        }
    }
}

#[test]
fn stops_where_a_write_fails_or_takes_nothing() {
    for good_turns in 0..METERED.printed.len() {
        for after in [After::Fails(ErrorKind::Interrupted), After::TakesNothing] {
            let mut writer = Target::new();
            writer.at_once = 1;
            writer.good_turns = good_turns;
            writer.after = after;
            ends_with(&mut writer, Status::Fault);
        }
    }
}

#[test]
fn a_flush_that_fails_is_a_fault() {
    for at_once in [1, 7, 500] {
        let mut writer = Target::new();
        writer.at_once = at_once;
        writer.flush_fails = true;
        ends_with(&mut writer, Status::Fault);
    }
}

#[test]
fn a_reason_that_cannot_be_printed_is_a_fault() {
    let rows: [(&str, usize, bool, &str); 6] = [
        ("", usize::MAX, true, ""),
        ("left 1", 0, false, ""),
        ("left 1", 12, false, "line 1: bad "),
        ("left 1", 19, false, "line 1: bad command"),
        ("left 1", usize::MAX, true, "line 1: bad command\n"),
        (
            "quota 1 2\nleft",
            40,
            false,
            "error fuel metering is disabled\nheld 0 0",
        ),
    ];
    for (script, good_turns, flush_fails, printed) in rows {
        let mut writer = Target::new();
        writer.at_once = 1;
        writer.good_turns = good_turns;
        writer.flush_fails = flush_fails;
        let ended = replay(&mut Source::of(script.as_bytes()), &mut writer);
        assert_eq!(ended, Status::Fault, "{}", script);
        same_text(writer.text(), printed.as_bytes());
    }
}

/// A header line of each kind, or none, and the line of what is held after calls that make nothing.
const HEADERS: [(&str, &str); 4] = [
    ("", ""),
    ("quota 0 0\n", "held 0 0\n"),
    ("answers\n", ""),
    ("tenants 1 0 0\n", "held 0 0 0\n"),
];

/// Numbers of calls beside those up to 130.
const COUNTS: [usize; 8] = [255, 256, 257, 511, 512, 513, 1024, 4097];

/// A line so many times, after a first part and before a last one.
fn repeated(first: &str, line: &str, count: usize, last: &str) -> String {
    [first, &line.repeat(count), last].concat()
}

/// A script of a header line and so many calls is answered.
fn answers_under(header: (&str, &str), count: usize) {
    let (first, last) = header;
    let script = repeated(first, "show 0\n", count, "");
    let printed = repeated("", "raw 0 0\n", count, last);
    let mut reader = Source::of(script.as_bytes());
    let mut writer = Target::new();
    let ended = replay(&mut reader, &mut writer);
    assert_eq!(ended, Status::Answered, "{}", first);
    same_text(writer.text(), printed.as_bytes());
}

fn answers_calls(count: usize) {
    for header in HEADERS {
        answers_under(header, count);
    }
}

#[test]
fn scripts_of_up_to_130_calls_are_answered() {
    for count in 0..131 {
        answers_calls(count);
    }
}

#[test]
fn longer_scripts_are_answered() {
    for count in COUNTS {
        answers_calls(count);
    }
}

#[test]
fn each_status_has_its_number() {
    assert_eq!(Status::Answered.code(), 0, "all is answered");
    assert_eq!(Status::BadScript.code(), 2, "a bad script");
    assert_eq!(Status::OutOfMemory.code(), 3, "want of memory");
    assert_eq!(Status::Fault.code(), 4, "a reader or writer that fails");
}

#[test]
fn each_reason_has_its_text() {
    let rows = [
        (
            ReplayError::Parse(ParseError::BadCommand { line: 123 }),
            "line 123: bad command",
        ),
        (ReplayError::TooLong, "script too long"),
        (ReplayError::Parse(ParseError::OutOfMemory), "out of memory"),
        (ReplayError::ReadFault, "read fault"),
    ];
    for (error, text) in &rows {
        assert_eq!(error.to_string(), *text);
    }
}

#[test]
fn replies_are_shown() {
    for (reply, text) in [
        (Reply::NoRoom, "no room"),
        (Reply::Number(1_234_567_890), "value 1234567890"),
    ] {
        let call = &Call::GetFuel;
        let reply = &reply;
        assert_eq!(ReplyHead { call, reply }.to_string(), text);
    }
}
