//! What the words of the command line say.

use crate::wasi::Given;
use crate::wasi::folders::Folder;
use engine::Caps;

pub const HELP: &str = "\
usage: engine FILE.wasm [FUNCTION ARGS..] [OPTION..] [-- WORDS..]
       engine --script [OPTION..]

It runs an exported function of a WebAssembly module, and prints its results, one a line. Arguments are numbers in decimal
or, after 0x, in hexadecimal, or null. A float is given and printed by its bits, in hexadecimal. Where no function is named
it runs _start: the module is a program that imports WASI preview 1, and WORDS are its arguments.

  --fuel N               stop after N units of fuel; the last line of the standard error has what was used
  --max-memory BYTES     the most bytes of all memories together; 1 GiB if it isn't given (--memory-cap is the same)
  --table-cap ELEMENTS   the most elements of all tables together; 10,000,000 if it isn't given
  --strict-floats        refuse a module with floats; without it an instruction that computes with floats traps
  --time                 print the processor time of the call to the standard error
  --profile              print to the standard error which functions and instructions were executed, and the fuel of each
                         function
  --folded FILE          write the fuel of each stack of functions to a file, in the lines that flamegraph.pl and
                         inferno-flamegraph read
  --trace-calls          print each function that is called to the standard error
  --script               read lines from the standard input, as the documentation of the module `script` says
  -h, --help             print this
  -V, --version          print the version

What a program reaches beside its standard streams:

  --dir FOLDER[::NAME]   a folder, to be read, by its name or another one; may be given several times
  --env NAME=VALUE       a variable of its environment; may be given several times
  --clock                the clock of the machine; without it the time begins at 0 and each reading is 1 ms later
  --seed N               where its random numbers begin; 0 if it isn't given

The exit status is that which a program gives, or 0, or 1 if the guest stops (`trap: ` and why, on the standard error),
2 if the arguments make no sense or results can't be written, 3 if the file is no module that can be run (`FILE: ` and
why), 141 if nobody reads the output any more.";

/// What the arguments say.
#[derive(Default)]
pub struct Options {
    /// The file, the function, and its arguments.
    pub words: Vec<String>,
    pub fuel: Option<u64>,
    pub caps: Caps,
    pub is_strict: bool,
    pub has_time: bool,
    pub has_profile: bool,
    pub folded: Option<String>,
    pub traces_calls: bool,
    pub is_script: bool,
    pub has_help: bool,
    pub has_version: bool,
    pub given: Given,
}

impl Options {
    /// Whether what is executed has to be counted.
    pub fn is_profiled(&self) -> bool {
        self.has_profile || self.folded.is_some() || self.traces_calls
    }
}

/// Reads the arguments. An error is a sentence.
pub fn options(mut args: impl Iterator<Item = String>) -> Result<Options, String> {
    let mut options = Options::default();
    while let Some(arg) = args.next() {
        match arg.as_str() {
            "--fuel" => options.fuel = Some(number(&arg, args.next())?),
            "--max-memory" | "--memory-cap" => options.caps.bytes = number(&arg, args.next())?,
            "--table-cap" => options.caps.elements = number(&arg, args.next())?,
            "--seed" => options.given.seed = number(&arg, args.next())?,
            "--strict-floats" => options.is_strict = true,
            "--time" => options.has_time = true,
            "--profile" => options.has_profile = true,
            "--folded" => options.folded = Some(text(&arg, args.next())?),
            "--trace-calls" => options.traces_calls = true,
            "--script" => options.is_script = true,
            "--clock" => options.given.has_clock = true,
            "--dir" => options.given.folders.push(Folder::named(&text(&arg, args.next())?)?),
            "--env" => options.given.variables.push(variable(text(&arg, args.next())?)?),
            "-h" | "--help" => options.has_help = true,
            "-V" | "--version" => options.has_version = true,
            "--" => options.given.args.extend(args.by_ref()),
            _ if arg.starts_with("--") => return Err(format!("{arg} is no option")),
            _ => options.words.push(arg),
        }
    }
    Ok(options)
}

fn number<N: std::str::FromStr>(option: &str, word: Option<String>) -> Result<N, String> {
    word.and_then(|it| it.parse().ok()).ok_or(format!("after {option} there is no number"))
}

fn text(option: &str, word: Option<String>) -> Result<String, String> {
    word.ok_or(format!("after {option} there is nothing"))
}

fn variable(text: String) -> Result<String, String> {
    match text.find('=') {
        None | Some(0) => Err(format!("{text} is no NAME=VALUE")),
        Some(_) => Ok(text),
    }
}
