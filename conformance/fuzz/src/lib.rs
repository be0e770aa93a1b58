//! What the targets share: how libFuzzer calls them, and what is said where two sides differ.
use std::ffi::{c_char, c_int, c_long, c_ulong};
use std::fmt::Debug;
use std::path::PathBuf;
use std::sync::LazyLock;
use std::{env, fs, io};

unsafe extern "C" {
    /// libFuzzer's own change of an input; the length of the new one.
    pub fn LLVMFuzzerMutate(data: *mut u8, size: usize, max: usize) -> usize;
    /// The number at the front of a text, as the C library reads it.
    pub fn strtol(text: *const c_char, end: *mut *mut c_char, base: c_int) -> c_long;
    /// The same without a sign.
    pub fn strtoul(text: *const c_char, end: *mut *mut c_char, base: c_int) -> c_ulong;
}

/// Runs the inputs in the files and folders that the program is given, each once, and prints how many there were.
pub fn run_kept(tried: fn(&[u8]) -> bool) -> io::Result<()> {
    let mut paths: Vec<PathBuf> = env::args_os().skip(1).map(PathBuf::from).collect();
    let mut count = 0;
    while let Some(path) = paths.pop() {
        if path.is_dir() {
            paths.extend(fs::read_dir(path)?.map(|entry| Ok(entry?.path())).collect::<io::Result<Vec<_>>>()?);
        } else {
            eprintln!("input {}", path.display());
            tried(&fs::read(path)?);
            count += 1;
        }
    }
    println!("{count} inputs");
    Ok(())
}

/// A target that runs inputs from files, where there is no libFuzzer.
#[cfg(kept)]
#[macro_export]
macro_rules! fuzz_target {
    ($tried:path $(, $changed:path)?) => {
        $(#[allow(dead_code)]
        const CHANGED: fn(&[u8], u32) -> Option<Vec<u8>> = $changed;)?

        fn main() -> std::io::Result<()> {
            $crate::run_kept($tried)
        }
    };
}

/// Has libFuzzer call a function, which is false for an input that isn't worth keeping, and make inputs by another one,
/// which may leave that to libFuzzer.
#[cfg(not(kept))]
#[macro_export]
macro_rules! fuzz_target {
    ($tried:path $(, $changed:path)?) => {
        // The names by which libFuzzer calls these two if it was compiled beside glibc 2.38 or later, which an older one lacks.
        #[unsafe(no_mangle)]
        pub extern "C" fn __isoc23_strtol(text: *const std::ffi::c_char, end: *mut *mut std::ffi::c_char, base: i32) -> std::ffi::c_long {
            unsafe { $crate::strtol(text, end, base) }
        }

        #[unsafe(no_mangle)]
        pub extern "C" fn __isoc23_strtoul(text: *const std::ffi::c_char, end: *mut *mut std::ffi::c_char, base: i32) -> std::ffi::c_ulong {
            unsafe { $crate::strtoul(text, end, base) }
        }

        #[unsafe(no_mangle)]
        pub extern "C" fn LLVMFuzzerTestOneInput(data: *const u8, size: usize) -> i32 {
            let input = if size == 0 { &[] } else { unsafe { std::slice::from_raw_parts(data, size) } };
            if $tried(input) { 0 } else { -1 }
        }

        $(#[unsafe(no_mangle)]
        pub extern "C" fn LLVMFuzzerCustomMutator(data: *mut u8, size: usize, max: usize, seed: u32) -> usize {
            // Where an input is made smaller it is longer than the most that is wanted.
            let made: Option<Vec<u8>> = $changed(unsafe { std::slice::from_raw_parts(data, size) }, seed);
            let Some(made) = made.filter(|made| !made.is_empty()) else {
                return unsafe { $crate::LLVMFuzzerMutate(data, size, max) };
            };
            let len = made.len().min(max);
            unsafe { std::slice::from_raw_parts_mut(data, len) }.copy_from_slice(&made[..len]);
            len
        })?
    };
}

/// Ends the process, as libFuzzer wants it of an input that shows a fault, unless two sides agree.
pub fn agree<T: Debug + PartialEq>(comparison: &str, expected: &T, found: &T) {
    if expected != found {
        eprintln!("{expected:?}\n--- expected, and found:\n{found:?}\nDIFFERS {comparison}");
        std::process::abort();
    }
}

/// Whether a comparison is to be handed a wrong side: FUZZ_PLANTED names it, by which `run` sees that it doesn't agree always.
pub fn is_planted(comparison: &str) -> bool {
    static PLANTED: LazyLock<String> = LazyLock::new(|| std::env::var("FUZZ_PLANTED").unwrap_or_default());
    *PLANTED == comparison
}
