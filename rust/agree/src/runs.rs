//! The comparison of cheapest runs: the proved one held against the reference's, number and cost,
//! or the refusal.

use crate::compare::shown;
use crate::off_costs::{thrifty_units, OffCounts};
use reference::{cheapest_run, read, run_cost, runs, CheapestRun, Plan, Refusal};
use std::collections::BTreeMap;
use std::fmt::Arguments;

/// What is said of a file's week and the units out of it: the cheapest run, none, or the refusal.
pub type RunAnswer = Result<Option<CheapestRun>, Refusal>;

/// The proved answer, in the reference's words.
pub fn proved_run(words: &[u32], week: usize, out: u32) -> RunAnswer {
    let found = |cheapest: ffi::CheapestRun| CheapestRun {
        run: cheapest.run,
        cost: cheapest.cost,
    };
    match ffi::cheapest_run(words, week, out) {
        Ok(cheapest) => Ok(cheapest.map(found)),
        Err(refusal) => Err(Refusal {
            number: refusal.number,
            place: refusal.place,
        }),
    }
}

/// The answers on which both sides agreed: how many runs were found, of how many of them the cost
/// is that of others too, how often there was none, and how many files were refused for each cause;
/// how many runs had a unit that demand does not need, how many answers a unit out that costs less
/// running than OFF, and how many of each class of OFF costs there were. A test that asserts on them
/// cannot pass by comparing nothing.
#[derive(Default)]
pub struct Runs {
    found: usize,
    tied: usize,
    none: usize,
    refused: BTreeMap<u32, usize>,
    unneeded: usize,
    thrifty_out: usize,
    off: OffCounts,
}

impl Runs {
    /// The answer that both sides give; panics, with the origin and the file, where they differ.
    pub fn agreed(&mut self, words: &[u32], week: usize, out: u32, origin: Arguments) -> RunAnswer {
        let plan = read(words);
        let expected = match &plan {
            Ok(plan) => Ok(cheapest_run(plan, week, out)),
            Err(refusal) => Err(*refusal),
        };
        let proved = proved_run(words, week, out);
        assert_eq!(
            proved,
            expected,
            "proved, then reference, on {origin}: week {week}, out {out:#b} of {}",
            shown(words)
        );
        match (plan, expected) {
            (Ok(plan), Ok(Some(cheapest))) => {
                self.found += 1;
                self.tied += usize::from(ties(&plan, week, out, cheapest));
                let unneeded = has_unneeded(&plan, week, out, cheapest.run);
                self.unneeded += usize::from(unneeded);
                self.thrifty_out += usize::from(thrifty_units(&plan, week) & out != 0);
                self.off.add(&plan);
            }
            (_, Ok(_)) => self.none += 1,
            (_, Err(refusal)) => *self.refused.entry(refusal.number).or_default() += 1,
        }
        expected
    }

    /// How many runs were found.
    pub fn found(&self) -> usize {
        self.found
    }

    /// How many of the runs found had to be told from others of the same cost.
    pub fn tied(&self) -> usize {
        self.tied
    }

    /// How often there was no run.
    pub fn none(&self) -> usize {
        self.none
    }

    /// How many of the runs found had a unit that demand does not need.
    pub fn unneeded(&self) -> usize {
        self.unneeded
    }

    /// How many runs were found with a unit out that costs less running than OFF.
    pub fn thrifty_out(&self) -> usize {
        self.thrifty_out
    }

    /// How many runs were found in files of each class of OFF costs.
    pub fn off(&self) -> &OffCounts {
        &self.off
    }

    /// The refusal numbers that arose, rising.
    pub fn refusals(&self) -> Vec<u32> {
        self.refused.keys().copied().collect()
    }

    /// Prints the counts, for those who run the tests with their output shown.
    pub fn report(&self, what: &str) {
        println!(
            "{what}: {} runs, {} of them tied, {} with a unit not needed, {} with a thrifty one out, \
             {} times none, refusals {:?}, {}",
            self.found,
            self.tied,
            self.unneeded,
            self.thrifty_out,
            self.none,
            self.refused,
            self.off
        );
    }
}

/// Whether another run costs as much as the cheapest.
fn ties(plan: &Plan, week: usize, out: u32, cheapest: CheapestRun) -> bool {
    runs(plan, week, out)
        .into_iter()
        .any(|run| run != cheapest.run && run_cost(plan, week, out, run) == cheapest.cost)
}

/// Whether a run still meets the demand without one of its units.
fn has_unneeded(plan: &Plan, week: usize, out: u32, run: u32) -> bool {
    let serving = runs(plan, week, out);
    let without = (0..plan.units).map(|unit| run & !(1 << unit));
    without
        .filter(|&fewer| fewer != run)
        .any(|fewer| serving.binary_search(&fewer).is_ok())
}
