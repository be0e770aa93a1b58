//! Runs a script of several cases in an engine, which is a program that reads a line and writes a reply, and tells the replies of the cases.
use std::fs::File;
use std::process::{Command, Stdio};

/// A module's file and the lines that follow its `module` line, and the file of a module that it imports from.
pub struct Case {
    pub seed: u64,
    pub file: String,
    pub provider: Option<String>,
    pub lines: Vec<String>,
}

/// The replies of a case. If the engine ended before the last of them, the last text is what it wrote to standard error.
pub struct Replies {
    pub lines: Vec<String>,
    pub has_ended: bool,
}

/// How many lines come between the first one and that of a module, if it imports from another one.
const PROVIDED: usize = 3;

/// Runs the cases in one process, and after one in which the engine ended the others in another process.
pub fn run(command: &str, fuel: u64, cases: &[Case], script: &str) -> Vec<Replies> {
    let mut all = replies(command, cases, script, |case| {
        let provider = case.provider.iter().flat_map(|it| [format!("module {it}"), "register other".into()]);
        let lines = [format!("module {}", case.file)].into_iter().chain(case.lines.iter().cloned());
        let begin = case.provider.iter().map(|_| "drop".into());
        begin.chain([format!("fuel {fuel}")]).chain(provider).chain(lines).collect()
    });
    for (_, it) in cases.iter().zip(&mut all).filter(|(case, _)| case.provider.is_some()) {
        // The replies to the lines before that of the module say nothing, if all is well.
        if it.lines.iter().take(PROVIDED).all(|it| it.starts_with("ok")) {
            it.lines.drain(..PROVIDED.min(it.lines.len()));
        }
    }
    all
}

/// Whether V8 finds the modules valid, without running them: `ok:`, or why not.
pub fn validate(command: &str, cases: &[Case], script: &str) -> Vec<String> {
    let all = replies(command, cases, script, |case| vec!["left".into(), format!("validate {}", case.file)]);
    all.into_iter().map(|mut it| it.lines.pop().unwrap_or_default()).collect()
}

/// The replies to the lines of each case but the first.
fn replies(command: &str, cases: &[Case], script: &str, lines_of: impl Fn(&Case) -> Vec<String>) -> Vec<Replies> {
    let mut all: Vec<Replies> = vec![];
    while all.len() < cases.len() {
        let left = &cases[all.len()..];
        std::fs::write(script, left.iter().flat_map(&lines_of).map(|it| it + "\n").collect::<String>())
            .expect("a file for the script");
        let mut words = command.split(' ');
        let mut program = Command::new(words.next().unwrap_or(""));
        program.args(words).stdin(Stdio::from(File::open(script).expect("the script")));
        let done = program.output().unwrap_or_else(|error| crate::stop(&format!("{command}: {error}")));
        let text = String::from_utf8_lossy(&done.stdout);
        let mut replies = text.lines().map(String::from);
        for case in left {
            // The reply to the first line says nothing.
            let count = lines_of(case).len();
            let mut lines: Vec<String> = replies.by_ref().take(count).collect();
            let has_ended = lines.len() < count;
            lines.drain(..1.min(lines.len()));
            if has_ended {
                lines.push(format!("ended: {} {}", done.status, String::from_utf8_lossy(&done.stderr).trim()));
            }
            all.push(Replies { lines, has_ended });
            if has_ended {
                break;
            }
        }
    }
    all
}

/// A checksum of texts (FNV-1a of 64 bits).
pub fn checksum(mut sum: u64, text: &str) -> u64 {
    for byte in text.bytes().chain([b'\n']) {
        sum = (sum ^ u64::from(byte)).wrapping_mul(0x100_0000_01b3);
    }
    sum
}
