//! Tables of what a run has executed, and the lines that programs for flame graphs read.

use engine::{Module, Profile};
use std::collections::BTreeMap;
use std::io::{self, Write};

/// The names of functions, of which those without one are named by their numbers.
pub struct Names<'m>(BTreeMap<u32, &'m str>);

impl<'m> Names<'m> {
    pub fn of(module: &'m Module) -> Self {
        Self(module.function_names())
    }

    pub fn get(&self, function: u32) -> String {
        self.0.get(&function).map_or_else(|| format!("function {function}"), |it| it.to_string())
    }
}

/// Prints the functions by their fuel, and the instructions by how often they were executed.
pub fn print(profile: &Profile, names: &Names, mut to: impl Write) -> io::Result<()> {
    let mut functions = profile.functions.clone();
    functions.sort_by_key(|it| (std::cmp::Reverse(it.fuel), it.function));
    let all: u64 = functions.iter().map(|it| it.fuel).sum();
    writeln!(to, "{:>16} {:>6} {:>16} {:>12}  function", "fuel", "%", "instructions", "calls")?;
    for it in functions {
        let share = percent(it.fuel, all);
        let name = names.get(it.function);
        writeln!(to, "{:>16} {share:>6.2} {:>16} {:>12}  {name}", it.fuel, it.instructions, it.calls)?;
    }
    let mut instructions: Vec<_> = profile.instructions.iter().filter(|(_, count)| **count > 0).collect();
    instructions.sort_by_key(|(name, count)| (std::cmp::Reverse(**count), *name));
    let all: u64 = instructions.iter().map(|(_, count)| **count).sum();
    writeln!(to, "\n{:>16} {:>6}  instruction", "times", "%")?;
    for (name, count) in instructions {
        writeln!(to, "{count:>16} {:>6.2}  {name}", percent(*count, all))?;
    }
    Ok(())
}

fn percent(part: u64, all: u64) -> f64 {
    100.0 * part as f64 / all.max(1) as f64
}

/// Writes a line for each stack of open functions: their names with `;` between them, and the fuel.
pub fn write_folded(profile: &Profile, names: &Names, mut to: impl Write) -> io::Result<()> {
    for (stack, fuel) in &profile.stacks {
        let names: Vec<_> = stack.iter().map(|it| names.get(*it).replace([';', ' '], "_")).collect();
        writeln!(to, "{} {fuel}", names.join(";"))?;
    }
    Ok(())
}
