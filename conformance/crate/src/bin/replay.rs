//! `wasmi_replay` over the Rust crate: a script comes in, its replies go out, and the status tells how it ended.
use conformance::{LONGEST, replay};
use std::fs::File;
use std::io::{Read, Write};
use std::os::fd::FromRawFd;

fn main() {
    // The bare descriptors: the handles of the standard library take a closed one for an empty one.
    let (input, mut output) = unsafe { (File::from_raw_fd(0), File::from_raw_fd(1)) };
    let mut text = Vec::new();
    let (status, printed) = match input.take(LONGEST as u64 + 1).read_to_end(&mut text) {
        Ok(_) => replay(&text),
        Err(_) => (4, "read fault\n".into()),
    };
    let status = output.write_all(printed.as_bytes()).map_or(4, |()| status);
    std::process::exit(status.into());
}
