//! What the comparison is asked to run.

use super::solver::Solver;
use crate::classes::Class;
use crate::hard_classes::{HardClass, Kind};

/// How to ask for it.
pub const USAGE: &str = "usage: cargo run --release -p bench -- peers [options]
  --sizes 6x8,15x13    the sizes, units x weeks; all where not given
  --demands easy,mid   the demands; all where not given
  --windows open       the windows; all where not given
  --off cold           whether OFF costs anything, warm, or nothing, cold; both where not given
  --hard               the hard classes instead, which have neither demands, windows nor OFF costs
  --kinds crews,equal  of these the kinds; all where not given
  --seeds 5            the instances of a class
  --limit 20           the seconds that a solver has for an instance
  --budget 268435455   the tries that planner and twin have
  --without cbc,highs  solvers that are left out
  --no-example         leaves the report's example out";

/// The options, read.
pub struct Options {
    sizes: Vec<String>,
    demands: Vec<String>,
    windows: Vec<String>,
    off: Vec<String>,
    kinds: Vec<String>,
    /// Whether the hard classes are run instead of the others.
    pub hard: bool,
    /// The instances of a class.
    pub seeds: u32,
    /// The seconds that a solver has for an instance.
    pub limit: u32,
    /// The tries that planner and twin have.
    pub budget: u32,
    /// The names of the solvers that are left out.
    pub without: Vec<String>,
    /// Whether the report's example is among the instances.
    pub with_example: bool,
}

impl Options {
    /// The options of arguments, or what is wrong with them.
    pub fn read(mut arguments: impl Iterator<Item = String>) -> Result<Self, String> {
        let mut options = Options {
            sizes: vec![],
            demands: vec![],
            windows: vec![],
            off: vec![],
            kinds: vec![],
            hard: false,
            seeds: 5,
            limit: 20,
            budget: (1 << 28) - 1,
            without: vec![],
            with_example: true,
        };
        while let Some(name) = arguments.next() {
            match name.as_str() {
                "--no-example" => options.with_example = false,
                "--hard" => options.hard = true,
                _ => {
                    let value = arguments.next().ok_or(format!("{name} wants a value"))?;
                    options.set(&name, &value)?;
                }
            }
        }
        Ok(options)
    }

    /// Sets an option to a value, where there is such an option.
    fn set(&mut self, name: &str, value: &str) -> Result<(), String> {
        match name {
            "--sizes" => self.sizes = list(value, sizes())?,
            "--demands" => self.demands = list(value, known(Class::demand))?,
            "--windows" => self.windows = list(value, known(Class::windows))?,
            "--off" => self.off = list(value, known(Class::off))?,
            "--kinds" => self.kinds = list(value, kinds())?,
            "--seeds" => self.seeds = number(value)?,
            "--limit" => self.limit = number(value)?,
            "--budget" => self.budget = number(value)?,
            "--without" => self.without = list(value, solvers())?,
            _ => return Err(format!("{name} is no option")),
        }
        Ok(())
    }

    /// Whether a class is among those chosen.
    pub fn has(&self, class: &Class) -> bool {
        !self.hard
            && chosen(&self.sizes, &class.size())
            && chosen(&self.demands, &class.demand())
            && chosen(&self.windows, &class.windows())
            && chosen(&self.off, &class.off())
    }

    /// Whether a hard class is among those chosen.
    pub fn has_hard(&self, class: &HardClass) -> bool {
        self.hard && chosen(&self.sizes, &class.size()) && chosen(&self.kinds, class.kind.name())
    }
}

/// Whether a name is among those chosen, which are all where none is.
fn chosen(names: &[String], name: &str) -> bool {
    names.is_empty() || names.iter().any(|chosen| chosen == name)
}

/// The sizes of all classes.
fn sizes() -> Vec<String> {
    let hard = HardClass::all();
    let hard = hard.iter().map(HardClass::size);
    known(Class::size).into_iter().chain(hard).collect()
}

fn kinds() -> Vec<String> {
    Kind::ALL.map(|kind| kind.name().to_string()).to_vec()
}

/// What all classes have by a name of theirs.
fn known(name: fn(&Class) -> String) -> Vec<String> {
    Class::all().iter().map(name).collect()
}

fn solvers() -> Vec<String> {
    Solver::all()
        .map(|solver| solver.name().to_string())
        .to_vec()
}

/// The names of a list, each of which is to be known.
fn list(value: &str, known: Vec<String>) -> Result<Vec<String>, String> {
    let names = value.split(',').map(str::to_string);
    let name = |name: String| {
        let is_known = known.contains(&name);
        is_known
            .then_some(name.clone())
            .ok_or(format!("{name} is not known"))
    };
    names.map(name).collect()
}

fn number(value: &str) -> Result<u32, String> {
    match value.parse() {
        Ok(number) if number > 0 => Ok(number),
        _ => Err(format!("{value} is no number from 1 on")),
    }
}
