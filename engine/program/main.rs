//! The program: runs an exported function of a module, or a module that is a program.
#![forbid(unsafe_code)]

use engine::{Config, Engine, Error, Instance, Linker, Module, Store, Val};
use host::{Host, Unwritten};
use options::Options;
use profile::Names;
use script::Script;
use std::collections::BTreeMap;
use std::io::Write;
use std::process::ExitCode;
use std::time::Duration;
use std::{env, fs, io, mem, path, thread};

mod host;
mod options;
mod profile;
mod script;
mod spectest;
mod values;
mod wasi;

/// The function that is run where none is named.
const START: &str = "_start";

/// The status where nobody reads the output: that of a program which a signal ends for it.
const CLOSED: u8 = 141;

/// Why there are no results.
enum Failed {
    /// The arguments make no sense.
    Misused(String),
    /// The file is no module that can be run.
    Refused(String),
    /// The guest stops.
    Trapped(String),
    /// The guest ends with this status.
    Ended(i32),
    /// Nobody reads the output any more.
    Closed,
}

impl Failed {
    /// The same, with the name of the file that can't be run.
    fn of_file(self, file: &str) -> Self {
        match self {
            Self::Refused(what) => Self::Refused(format!("{file}: {what}")),
            it => it,
        }
    }
}

impl From<io::Error> for Failed {
    /// For what can't be printed.
    fn from(error: io::Error) -> Self {
        match error.kind() {
            io::ErrorKind::BrokenPipe => Self::Closed,
            _ => Self::Misused(format!("the output can't be written: {error}")),
        }
    }
}

fn main() -> ExitCode {
    let args: Result<Vec<_>, _> = env::args_os().skip(1).map(|it| it.into_string()).collect();
    let args = args.map_err(|it| misused(format!("{} is no Unicode", it.display())));
    let options = args.and_then(|args| options::options(args.into_iter()).map_err(misused));
    options.and_then(run).unwrap_or_else(|failed| tell(&failed))
}

/// The exit status for what failed, which is printed.
fn tell(failed: &Failed) -> ExitCode {
    let (status, message) = match failed {
        Failed::Ended(status) => return ExitCode::from(*status as u8),
        Failed::Closed => return ExitCode::from(CLOSED),
        Failed::Trapped(what) => (1, format!("trap: {what}")),
        Failed::Misused(what) => (2, format!("engine: {what} (engine --help says how it is used)")),
        Failed::Refused(what) => (3, what.clone()),
    };
    // Where the standard error is closed too, the status alone is left.
    let _ = writeln!(io::stderr(), "{message}");
    ExitCode::from(status)
}

fn misused(what: impl Into<String>) -> Failed {
    Failed::Misused(what.into())
}

fn run(options: Options) -> Result<ExitCode, Failed> {
    if options.has_help {
        writeln!(io::stdout(), "{}", options::HELP)?;
    } else if options.has_version {
        writeln!(io::stdout(), "engine {}", env!("CARGO_PKG_VERSION"))?;
    } else if options.is_script {
        Script::new(options.caps).run(io::stdin().lock(), io::stdout())?;
    } else {
        return run_file(options);
    }
    Ok(ExitCode::SUCCESS)
}

fn run_file(mut options: Options) -> Result<ExitCode, Failed> {
    let words = mem::take(&mut options.words);
    let [file, words @ ..] = &words[..] else { return Err(misused("a file is missing")) };
    let (function, words) = words.split_first().map_or((START, words), |(first, rest)| (first.as_str(), rest));
    let bytes = fs::read(file).map_err(|it| misused(format!("{file} can't be read: {it}")))?;
    let engine = Engine::new(Config::default().consume_fuel(options.fuel.is_some()).profile(options.is_profiled()));
    let read = if options.is_strict { Module::new_strict } else { Module::new };
    let module = read(&engine, &bytes).map_err(|it| Failed::Refused(format!("{file}: {it}")))?;
    let ty = values::type_of(&module, function).map_err(misused)?;
    let args = values::arguments(&ty, function, words.iter().map(String::as_str)).map_err(misused)?;
    let name = path::Path::new(file).file_name().map_or(file.into(), |it| it.to_string_lossy());
    options.given.args.insert(0, name.into_owned());
    let mut store = Store::new(&engine, Host::new(mem::take(&mut options.given)));
    store.set_caps(options.caps);
    // A profile is of fuel too, which is there without end where no option limits it.
    let fuel = options.fuel.or(options.is_profiled().then_some(u64::MAX));
    if options.traces_calls {
        trace_calls(&mut store, &module);
    }
    let instance = instantiate(&mut store, &module, fuel);
    let instance = instance.map_err(|it| ended(&store, it).of_file(file))?;
    let begun = processor_time();
    let results = call(&instance, &mut store, function, &args);
    let time = processor_time() - begun;
    let results = results.map_err(|it| ended(&store, it)).and_then(|results| print(&mut store, &results));
    let status = results.map_or_else(|failed| tell(&failed), |()| ExitCode::SUCCESS);
    report(&options, &mut store, &module, time)?;
    Ok(status)
}

/// An instance of a module, with what it imports.
fn instantiate(store: &mut Store<Host>, module: &Module, fuel: Option<u64>) -> Result<Instance, Error> {
    if let Some(fuel) = fuel {
        store.set_fuel(fuel)?;
    }
    let mut linker = Linker::new(&store.engine().clone());
    wasi::define(&mut linker, module)?;
    spectest::define(&mut linker, store, module)?;
    linker.instantiate(store, module)
}

/// Why a call gives no results.
fn ended(store: &Store<Host>, error: Error) -> Failed {
    let closed = |it: &Unwritten| it.0.kind() == io::ErrorKind::BrokenPipe;
    match error {
        Error::Misused(what) => Failed::Misused(what),
        Error::Module(_) | Error::Link(_) => Failed::Refused(error.to_string()),
        _ => match error.i32_exit_status() {
            Some(status) => Failed::Ended(status),
            None if error.downcast_ref().is_some_and(closed) => Failed::Closed,
            None => Failed::Trapped(format!("{error}{}", backtrace(store))),
        },
    }
}

/// The functions that were open, a line each, the innermost one first.
fn backtrace(store: &Store<Host>) -> String {
    let frames = store.backtrace();
    let Some(innermost) = frames.first() else { return String::new() };
    let names = Names::of(&innermost.module);
    frames.iter().map(|it| format!("\n    in {}", names.get(it.function))).collect()
}

/// Prints the name of each function that is called, further to the right the more calls are open.
fn trace_calls(store: &mut Store<Host>, module: &Module) {
    let names: BTreeMap<_, _> = module.function_names().into_iter().map(|(it, name)| (it, name.to_owned())).collect();
    store.trace_calls(move |depth, function| {
        let name = names.get(&function).map_or_else(|| format!("function {function}"), String::clone);
        // A standard error that is closed ends no program.
        let _ = writeln!(io::stderr(), "{:indent$}{name}", "", indent = 2 * depth.min(40));
    });
}

/// Prints results after what the guest has printed.
fn print(store: &mut Store<Host>, results: &[String]) -> Result<(), Failed> {
    let output = &mut store.data_mut().output;
    results.iter().try_for_each(|it| writeln!(output, "{it}"))?;
    Ok(output.flush()?)
}

/// Prints to the standard error what the options ask for.
fn report(options: &Options, store: &mut Store<Host>, module: &Module, time: Duration) -> Result<(), Failed> {
    let mut errors = io::stderr();
    let names = Names::of(module);
    if options.has_profile {
        profile::print(&store.profile(), &names, &mut errors)?;
    }
    if let Some(path) = &options.folded {
        let file = fs::File::create(path).map_err(|it| misused(format!("{path} can't be written: {it}")))?;
        profile::write_folded(&store.profile(), &names, io::BufWriter::new(file))?;
    }
    if options.has_time {
        writeln!(errors, "time: {:.3} ms", time.as_secs_f64() * 1000.0)?;
    }
    if let (Some(given), Ok(left)) = (options.fuel, store.get_fuel()) {
        writeln!(errors, "fuel: {}", given - left)?;
    }
    Ok(())
}

/// The results of a call, as text.
fn call(instance: &Instance, store: &mut Store<Host>, name: &str, args: &[Val]) -> Result<Vec<String>, Error> {
    initialize(instance, store, name)?;
    let missing = || Error::Misused(format!("there is no function {name}"));
    let function = instance.get_func(&*store, name).ok_or_else(missing)?;
    let args: Option<Vec<_>> = args.iter().map(|it| values::referring(instance, &mut *store, *it)).collect();
    let args = args.ok_or(Error::Misused("there is no function of this number".into()))?;
    let results = function.call(&mut *store, &args)?;
    Ok(results.into_iter().map(|it| values::print(values::numbered(&*store, it))).collect())
}

/// Calls what a library that imports WASI has to be called first.
fn initialize(instance: &Instance, store: &mut Store<Host>, name: &str) -> Result<(), Error> {
    const INITIALIZE: &str = "_initialize";
    match instance.get_typed_func::<(), ()>(&*store, INITIALIZE) {
        Ok(first) if name != INITIALIZE => first.call(store, ()),
        _ => Ok(()),
    }
}

/// The processor time of this thread, as Linux counts it; elsewhere the time of the clock.
fn processor_time() -> Duration {
    // The system brings its count up to date when the thread lets others run.
    thread::yield_now();
    let line = fs::read_to_string("/proc/thread-self/schedstat").ok();
    let nanoseconds = line.and_then(|it| it.split(' ').next()?.parse().ok());
    nanoseconds.map_or_else(|| std::time::UNIX_EPOCH.elapsed().unwrap_or_default(), Duration::from_nanos)
}
