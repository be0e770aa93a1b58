//! WASI preview 1, as far as programs on a terminal use it. The import module is `wasi_snapshot_preview1`.
//!
//! | Functions | What they reach |
//! |---|---|
//! | `args_get`, `args_sizes_get` | the program's name, and the words after `--` |
//! | `environ_get`, `environ_sizes_get` | the variables that `--env` names |
//! | `fd_read`, `fd_write`, `fd_fdstat_get`, `fd_close` | standard input, standard output, standard error, files |
//! | `fd_seek`, `fd_tell`, `fd_filestat_get` | files |
//! | `fd_prestat_get`, `fd_prestat_dir_name`, `path_open`, `path_filestat_get` | the folders that `--dir` names, to be read |
//! | `clock_time_get`, `clock_res_get` | a clock that each reading moves on, or that of the machine |
//! | `random_get` | numbers from a seed |
//! | `proc_exit`, `sched_yield` | nothing |
//!
//! Any other function of that module answers `ENOSYS`. Fuel is charged for the bytes that are copied into a memory or out
//! of one, as `memory.copy` is charged.

use crate::host::{Host, Unwritten};
use crate::wasi::descriptors::{Descriptor, Descriptors};
use engine::library::ValType;
use engine::{Caller, Error, ExternType, Linker, Memory, Module};
use folders::Folder;
use std::io::{self, Read, Write};
use std::time::{Duration, Instant, SystemTime};

mod descriptors;
pub mod folders;

/// The name of the module that programs import from.
const MODULE: &str = "wasi_snapshot_preview1";

/// The most bytes that one `fd_read` gives, and the most buffers that it takes.
const MOST_READ: u32 = 1 << 16;
const MOST_BUFFERS: u32 = 1024;

/// The error numbers of WASI that are answered here.
#[derive(Clone, Copy, Debug, PartialEq, Eq)]
pub enum Errno {
    BadDescriptor = 8,
    Fault = 21,
    IllegalName = 25,
    Invalid = 28,
    Io = 29,
    IsFolder = 31,
    Loop = 32,
    TooManyFiles = 33,
    NoEntry = 44,
    NoSystemCall = 52,
    NotFolder = 54,
    ReadOnly = 69,
    NoSeek = 70,
    NotCapable = 76,
}

/// Why a function of WASI does nothing more: the number that it answers, or what ends the guest.
enum Stop {
    Answer(Errno),
    End(Error),
}

impl From<Errno> for Stop {
    fn from(number: Errno) -> Self {
        Self::Answer(number)
    }
}

impl From<Error> for Stop {
    fn from(error: Error) -> Self {
        Self::End(error)
    }
}

impl From<io::Error> for Errno {
    fn from(error: io::Error) -> Self {
        match error.kind() {
            io::ErrorKind::NotFound => Self::NoEntry,
            io::ErrorKind::InvalidInput => Self::Invalid,
            io::ErrorKind::PermissionDenied => Self::NotCapable,
            io::ErrorKind::NotADirectory => Self::NotFolder,
            io::ErrorKind::IsADirectory => Self::IsFolder,
            _ => Self::Io,
        }
    }
}

type Answer = Result<(), Stop>;

/// What the flags give a program.
#[derive(Default)]
pub struct Given {
    pub args: Vec<String>,
    pub variables: Vec<String>,
    pub folders: Vec<Folder>,
    pub seed: u64,
    pub has_clock: bool,
}

/// What a program has of the system.
pub struct Wasi {
    args: Vec<String>,
    variables: Vec<String>,
    descriptors: Descriptors,
    random: u64,
    clock: Clock,
}

/// Where the time comes from.
enum Clock {
    Machine(Instant),
    /// A time that each reading moves on.
    Counted(Duration),
}

impl Clock {
    const STEP: Duration = Duration::from_millis(1);

    /// The time of the clock with this number, of which 0 is that of the calendar.
    fn read(&mut self, number: u32) -> Duration {
        match self {
            Self::Machine(_) if number == 0 => SystemTime::UNIX_EPOCH.elapsed().unwrap_or_default(),
            Self::Machine(begun) => begun.elapsed(),
            Self::Counted(now) => {
                *now += Self::STEP;
                *now
            }
        }
    }

    fn resolution(&self) -> Duration {
        match self {
            Self::Machine(_) => Duration::from_nanos(1),
            Self::Counted(_) => Self::STEP,
        }
    }
}

impl Wasi {
    pub fn new(given: Given) -> Self {
        let Given { args, variables, folders, seed, has_clock } = given;
        let clock = if has_clock { Clock::Machine(Instant::now()) } else { Clock::Counted(Duration::ZERO) };
        Self { args, variables, descriptors: Descriptors::new(folders), random: seed, clock }
    }

    /// The next number of the generator SplitMix64.
    fn next_random(&mut self) -> u64 {
        self.random = self.random.wrapping_add(0x9e37_79b9_7f4a_7c15);
        let mixed = (self.random ^ self.random >> 30).wrapping_mul(0xbf58_476d_1ce4_e5b9);
        let mixed = (mixed ^ mixed >> 27).wrapping_mul(0x94d0_49bb_1331_11eb);
        mixed ^ mixed >> 31
    }
}

/// Defines what a module imports of WASI.
pub fn define(linker: &mut Linker<Host>, module: &Module) -> Result<(), Error> {
    macro_rules! functions {
        ($($name:ident($($param:ident: $ty:ty),*);)*) => {
            $(linker.func_wrap(MODULE, stringify!($name), |caller: Caller<'_, Host>, $($param: $ty),*| {
                answer(Guest::new(caller).and_then(|mut guest| guest.$name($($param),*)))
            })?;)*
        };
    }
    linker.allow_shadowing(true);
    refuse_all(linker, module)?;
    functions! {
        args_sizes_get(count: u32, size: u32);
        args_get(places: u32, texts: u32);
        environ_sizes_get(count: u32, size: u32);
        environ_get(places: u32, texts: u32);
        clock_res_get(number: u32, out: u32);
        clock_time_get(number: u32, precision: u64, out: u32);
        fd_close(fd: u32);
        fd_fdstat_get(fd: u32, out: u32);
        fd_filestat_get(fd: u32, out: u32);
        fd_prestat_get(fd: u32, out: u32);
        fd_prestat_dir_name(fd: u32, out: u32, size: u32);
        fd_read(fd: u32, list: u32, count: u32, out: u32);
        fd_seek(fd: u32, offset: i64, whence: u32, out: u32);
        fd_tell(fd: u32, out: u32);
        fd_write(fd: u32, list: u32, count: u32, out: u32);
        path_filestat_get(fd: u32, follow: u32, path: u32, size: u32, out: u32);
        path_open(fd: u32, follow: u32, path: u32, size: u32, flags: u32, rights: u64, passed: u64, mode: u32, out: u32);
        random_get(out: u32, size: u32);
    }
    linker.func_wrap(MODULE, "sched_yield", || 0_u32)?;
    linker.func_wrap(MODULE, "proc_exit", |status: i32| -> Result<(), Error> { Err(Error::i32_exit(status)) })?;
    Ok(())
}

/// Defines each function of WASI that a module imports as one that isn't there.
fn refuse_all(linker: &mut Linker<Host>, module: &Module) -> Result<(), Error> {
    for import in module.imports().filter(|it| it.module == MODULE) {
        match import.ty {
            ExternType::Func(ty) if ty.results() == [ValType::I32] => {
                linker.func_new(MODULE, import.name, ty, |_, _, results| {
                    results[0] = (Errno::NoSystemCall as i32).into();
                    Ok(())
                })?;
            }
            _ => {}
        }
    }
    Ok(())
}

fn answer(answer: Answer) -> Result<u32, Error> {
    match answer {
        Ok(()) => Ok(0),
        Err(Stop::Answer(number)) => Ok(number as u32),
        Err(Stop::End(error)) => Err(error),
    }
}

/// The program that calls, and its memory.
struct Guest<'a> {
    caller: Caller<'a, Host>,
    memory: Memory,
}

/// The places and lengths of a list of buffers.
type Buffers = Vec<(u32, u32)>;

impl<'a> Guest<'a> {
    fn new(caller: Caller<'a, Host>) -> Result<Self, Stop> {
        let memory = caller.get_memory("memory").ok_or(Error::new("the program exports no memory"))?;
        Ok(Self { caller, memory })
    }

    fn wasi(&mut self) -> &mut Wasi {
        &mut self.caller.data_mut().wasi
    }

    /// Takes the fuel for bytes that are copied.
    fn charge(&mut self, size: u64) -> Answer {
        Ok(self.caller.charge_bytes(size)?)
    }

    /// Bytes of the memory, and the data of the host.
    fn bytes(&mut self, place: u32, size: u32) -> Result<(&mut [u8], &mut Host), Errno> {
        let (bytes, host) = self.memory.data_and_store_mut(&mut self.caller);
        let bytes = bytes.get_mut(place as usize..).and_then(|it| it.get_mut(..size as usize));
        Ok((bytes.ok_or(Errno::Fault)?, host))
    }

    fn put(&mut self, place: u32, bytes: &[u8]) -> Answer {
        let size = u32::try_from(bytes.len()).or(Err(Errno::Fault))?;
        self.charge(size.into())?;
        self.bytes(place, size)?.0.copy_from_slice(bytes);
        Ok(())
    }

    fn text(&mut self, place: u32, size: u32) -> Result<String, Stop> {
        self.charge(size.into())?;
        let (bytes, _) = self.bytes(place, size)?;
        Ok(std::str::from_utf8(bytes).or(Err(Errno::IllegalName))?.to_owned())
    }

    /// A list of buffers. Fuel is taken for the list, before it is read.
    fn buffers(&mut self, list: u32, count: u32) -> Result<Buffers, Stop> {
        if count > MOST_BUFFERS {
            return Err(Errno::Invalid.into());
        }
        self.charge(8 * u64::from(count))?;
        let (bytes, _) = self.bytes(list, 8 * count)?;
        let number = |bytes: &[u8]| bytes.iter().rev().fold(0, |number, byte| number << 8 | u32::from(*byte));
        Ok(bytes.chunks_exact(8).map(|it| (number(&it[..4]), number(&it[4..]))).collect())
    }

    // ---- arguments and variables

    fn args_sizes_get(&mut self, count: u32, size: u32) -> Answer {
        let sizes = sizes(&self.wasi().args);
        self.put_sizes(sizes, count, size)
    }

    fn args_get(&mut self, places: u32, texts: u32) -> Answer {
        let args = self.wasi().args.clone();
        self.put_texts(&args, places, texts)
    }

    fn environ_sizes_get(&mut self, count: u32, size: u32) -> Answer {
        let sizes = sizes(&self.wasi().variables);
        self.put_sizes(sizes, count, size)
    }

    fn environ_get(&mut self, places: u32, texts: u32) -> Answer {
        let variables = self.wasi().variables.clone();
        self.put_texts(&variables, places, texts)
    }

    fn put_sizes(&mut self, sizes: [usize; 2], count: u32, size: u32) -> Answer {
        self.put(count, &(sizes[0] as u32).to_le_bytes())?;
        self.put(size, &(sizes[1] as u32).to_le_bytes())
    }

    /// Writes texts, each of which ends with a zero, and their places.
    fn put_texts(&mut self, texts: &[String], places: u32, mut at: u32) -> Answer {
        for (i, text) in texts.iter().enumerate() {
            self.put(places.wrapping_add(4 * i as u32), &at.to_le_bytes())?;
            self.put(at, &[text.as_bytes(), &[0]].concat())?;
            at = at.wrapping_add(text.len() as u32 + 1);
        }
        Ok(())
    }

    // ---- clocks and random numbers

    fn clock_res_get(&mut self, number: u32, out: u32) -> Answer {
        is_clock(number)?;
        let resolution = self.wasi().clock.resolution();
        self.put(out, &(resolution.as_nanos() as u64).to_le_bytes())
    }

    fn clock_time_get(&mut self, number: u32, _precision: u64, out: u32) -> Answer {
        is_clock(number)?;
        let time = self.wasi().clock.read(number);
        self.put(out, &(time.as_nanos() as u64).to_le_bytes())
    }

    fn random_get(&mut self, out: u32, size: u32) -> Answer {
        self.charge(size.into())?;
        let (bytes, host) = self.bytes(out, size)?;
        for bytes in bytes.chunks_mut(8) {
            bytes.copy_from_slice(&host.wasi.next_random().to_le_bytes()[..bytes.len()]);
        }
        Ok(())
    }

    // ---- descriptors

    fn fd_close(&mut self, fd: u32) -> Answer {
        Ok(self.wasi().descriptors.close(fd)?)
    }

    fn fd_fdstat_get(&mut self, fd: u32, out: u32) -> Answer {
        let status = self.wasi().descriptors.get(fd)?.status();
        self.put(out, &status)
    }

    fn fd_filestat_get(&mut self, fd: u32, out: u32) -> Answer {
        let status = self.wasi().descriptors.get(fd)?.file_status()?;
        self.put(out, &status)
    }

    fn fd_prestat_get(&mut self, fd: u32, out: u32) -> Answer {
        let size = self.wasi().descriptors.name(fd)?.len() as u32;
        self.put(out, &[[0; 4], size.to_le_bytes()].concat())
    }

    fn fd_prestat_dir_name(&mut self, fd: u32, out: u32, size: u32) -> Answer {
        let name = self.wasi().descriptors.name(fd)?.as_bytes().to_vec();
        if name.len() > size as usize {
            return Err(Errno::Invalid.into());
        }
        self.put(out, &name)
    }

    /// Reads into the first buffer that isn't empty. Fuel is taken for what is read.
    fn fd_read(&mut self, fd: u32, list: u32, count: u32, out: u32) -> Answer {
        let buffers = self.buffers(list, count)?;
        let (place, size) = buffers.into_iter().find(|(_, size)| *size > 0).unwrap_or((0, 0));
        let (bytes, host) = self.bytes(place, size.min(MOST_READ))?;
        let read = match host.wasi.descriptors.get(fd)? {
            Descriptor::Input => host.input.read(bytes).map_err(Errno::from)?,
            Descriptor::File(file) => file.read(bytes).map_err(Errno::from)?,
            Descriptor::Folder(_) => return Err(Errno::IsFolder.into()),
            Descriptor::Output | Descriptor::Error => return Err(Errno::NotCapable.into()),
        };
        self.charge(read as u64)?;
        self.put(out, &(read as u32).to_le_bytes())
    }

    /// Writes all buffers. Fuel is taken before the first one is written.
    fn fd_write(&mut self, fd: u32, list: u32, count: u32, out: u32) -> Answer {
        let is_error = match self.wasi().descriptors.get(fd)? {
            Descriptor::Output => false,
            Descriptor::Error => true,
            _ => return Err(Errno::NotCapable.into()),
        };
        let buffers = self.buffers(list, count)?;
        let total: u64 = buffers.iter().map(|(_, size)| u64::from(*size)).sum();
        let total = u32::try_from(total).or(Err(Errno::Invalid))?;
        self.charge(total.into())?;
        for (place, size) in buffers {
            let (bytes, host) = self.bytes(place, size)?;
            let output = if is_error { &mut host.errors } else { &mut host.output };
            output.write_all(bytes).map_err(|it| Error::host(Unwritten(it)))?;
        }
        self.put(out, &total.to_le_bytes())
    }

    fn fd_seek(&mut self, fd: u32, offset: i64, whence: u32, out: u32) -> Answer {
        let place = self.wasi().descriptors.get(fd)?.seek(offset, whence)?;
        self.put(out, &place.to_le_bytes())
    }

    fn fd_tell(&mut self, fd: u32, out: u32) -> Answer {
        const FROM_HERE: u32 = 1;
        self.fd_seek(fd, 0, FROM_HERE, out)
    }

    // ---- paths

    fn path_filestat_get(&mut self, fd: u32, follow: u32, path: u32, size: u32, out: u32) -> Answer {
        let path = self.text(path, size)?;
        let found = self.wasi().descriptors.folder(fd)?.find(&path, follow & 1 != 0)?;
        let status = descriptors::status_of(&found.symlink_metadata().map_err(Errno::from)?);
        self.put(out, &status)
    }

    #[allow(clippy::too_many_arguments)]
    fn path_open(
        &mut self,
        fd: u32,
        follow: u32,
        path: u32,
        size: u32,
        flags: u32,
        rights: u64,
        _passed: u64,
        _mode: u32,
        out: u32,
    ) -> Answer {
        let path = self.text(path, size)?;
        let descriptors = &mut self.wasi().descriptors;
        let opened = descriptors.open(fd, &path, follow & 1 != 0, flags, rights)?;
        self.put(out, &opened.to_le_bytes())
    }
}

/// How many texts there are, and how many bytes they take with a zero each.
fn sizes(texts: &[String]) -> [usize; 2] {
    [texts.len(), texts.iter().map(|it| it.len() + 1).sum()]
}

/// The clocks of the calendar, of the time that passes, of the process, and of the thread.
fn is_clock(number: u32) -> Result<(), Errno> {
    if number < 4 { Ok(()) } else { Err(Errno::Invalid) }
}
