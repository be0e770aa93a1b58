//! Replays the script that standard input has, as the proved program `wasmi_replay` does, and ends with its status.

#![forbid(unsafe_code)]

use std::io;
use std::process::ExitCode;
use wasmi_core_proved::script::replay;

/// Standard output without a buffer: the script's printer has one, and `Stdout` would search each text for its lines.
#[cfg(unix)]
fn output() -> io::Result<impl io::Write> {
    use std::os::fd::AsFd;
    Ok(std::fs::File::from(
        io::stdout().as_fd().try_clone_to_owned()?,
    ))
}

#[cfg(not(unix))]
fn output() -> io::Result<impl io::Write> {
    Ok(io::stdout().lock())
}

fn main() -> ExitCode {
    let Ok(mut output) = output() else {
        return ExitCode::from(4);
    };
    ExitCode::from(replay(&mut io::stdin().lock(), &mut output).code())
}
