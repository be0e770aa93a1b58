//! A script over the Rust crate's own types, in the crate of rust/, and with the feature `library` in the archive, whole and by lines in parts.
#![cfg_attr(not(kept), no_main)]
use conformance::comparison::mutant;
use conformance::generator::{Generator, PROFILES};
use conformance::random::Random;
use wasmi_core_proved::script;
use wasmi_fuzz::{agree, fuzz_target, is_planted};

fuzz_target!(is_kept, changed);

/// A status and what is printed, as text.
type Printed = (u8, String);

fn is_kept(input: &[u8]) -> bool {
    if Generator::asks_too_much(input) {
        return false;
    }
    let expected = conformance::replay(input);
    let (mut rest, mut text) = (input, Vec::new());
    let status = script::replay(&mut rest, &mut text).code();
    compare("rust", &expected, status, text);
    #[cfg(feature = "library")]
    archive::compare_both(input, &expected);
    true
}

fn compare(way: &str, expected: &Printed, status: u8, mut text: Vec<u8>) {
    if is_planted(way) {
        text.push(b'!');
    }
    agree(way, expected, &(status, String::from_utf8_lossy(&text).into_owned()));
}

/// Random lines, a change as those of `compare`, or none.
fn changed(input: &[u8], seed: u32) -> Option<Vec<u8>> {
    let mut random = Random::new(seed.into());
    let kind = random.below(16);
    if kind == 0 || input.is_empty() {
        return None;
    }
    if kind > 6 {
        return Some(mutant(input, &mut random));
    }
    let mut generator = Generator::new(random.next());
    generator.write_script(random.pick(&PROFILES), random.index(64));
    if kind < 3 {
        return Some(generator.text);
    }
    let [others, mut lines] =
        [&generator.text[..], input].map(|text| text.split_inclusive(|it| *it == b'\n').collect::<Vec<_>>());
    let (from, at) = (random.index(others.len()), random.index(lines.len() + 1));
    let end = others.len().min(from + 1 + random.index(6));
    lines.splice(at..at, others[from..end].iter().copied());
    Some(lines.concat())
}

#[cfg(feature = "library")]
mod archive {
    use super::{Printed, compare};
    use conformance::archives::{Handle, Limits, PlainReply, run_script, wasmi_machine_drop, wasmi_machine_new};
    use conformance::parse::{Headers, parse};

    const DONE: u8 = 0;
    const HEADER_LINE: u8 = 24;

    #[rustfmt::skip]
    unsafe extern "C" {
        fn wasmi_machine_run_lines(machine: &mut Handle, lines: *const u8, lines_len: usize, text: *mut u8, text_len: usize) -> PlainReply;
    }

    pub fn compare_both(input: &[u8], expected: &Printed) {
        let mut text = Vec::new();
        let status = run_script(input, &mut text);
        compare("archive", expected, status, text);
        if let Ok(script) = parse(input) {
            let (status, text) = in_parts(input, expected.1.len());
            let is_plain = matches!(
                script.headers,
                Headers { meter: None, quota: None, answers: None, region: None, reserve: None, tenants: None }
            );
            let expected = if is_plain { expected.clone() } else { (HEADER_LINE, String::new()) };
            compare("parts", &expected, status, text);
        }
    }

    /// What a machine prints for the lines, one to seven at a time, and the status of the part that isn't run.
    fn in_parts(input: &[u8], room: usize) -> (u8, Vec<u8>) {
        let limits = Limits { is_unlimited: 1, bytes_copied_per_fuel: 64, ..Limits::default() };
        let mut machine = Handle { at: std::ptr::null_mut(), is_made: false };
        let (mut text, mut printed) = (vec![0; room + 1], Vec::new());
        let mut status = unsafe { wasmi_machine_new(&mut machine, &limits) };
        let lines: Vec<&[u8]> = input.split_inclusive(|byte| *byte == b'\n').collect();
        for part in lines.chunks(1 + input.len() % 7).map(<[_]>::concat) {
            let (from, to) = (part.as_ptr(), text.as_mut_ptr());
            let reply = unsafe { wasmi_machine_run_lines(&mut machine, from, part.len(), to, text.len()) };
            status = reply.status;
            if status != DONE {
                break;
            }
            printed.extend_from_slice(&text[..text.len().min(reply.number as usize)]);
        }
        unsafe { wasmi_machine_drop(&mut machine) };
        (status, printed)
    }
}
