//! The cheapest run of a week, found by trying every run. Weeks count from 1.

use crate::plan::counted;
use crate::{read, Plan, Refusal};

/// What stands for a cost where there is no run. No run costs so much: 16 units, running or OFF,
/// cost at most 4,000,000 euros.
const NO_RUN: u32 = 268_435_456;

/// The cheapest run of a week.
#[derive(Clone, Copy, Debug, PartialEq, Eq)]
pub struct CheapestRun {
    /// The run as a bit mask: bit i-1 for unit i.
    pub run: u32,
    /// Its cost, in euros, that of the units OFF included.
    pub cost: u64,
}

/// Of the runs that reach a week's demand with the units of `out` out, one of lowest cost; ties go
/// to the lowest number. There may be none, and a week that the plan has not has none.
pub fn cheapest_run(plan: &Plan, week: usize, out: u32) -> Option<CheapestRun> {
    let priced = |run| CheapestRun {
        run,
        cost: run_cost(plan, week, out, run),
    };
    // the first of equals, and the numbers rise
    runs(plan, week, out)
        .into_iter()
        .map(priced)
        .min_by_key(|cheapest| cheapest.cost)
}

/// The numbers of all runs that meet a week's demand with the units of `out` out, rising. `out` is
/// a set as a run's number is one; units that the plan has not do not count.
pub fn runs(plan: &Plan, week: usize, out: u32) -> Vec<u32> {
    if !counted(plan.weeks, week) {
        return vec![];
    }
    let demand = u64::from(plan.demand[week - 1]);
    let others = |run: &u32| run & out == 0;
    (0..2u32.pow(plan.units))
        .filter(others)
        .filter(|&run| total(&plan.capacity, run) >= demand)
        .collect()
}

/// What a run costs in a week of the plan with the units of `out` out: the running costs of its
/// units, and the OFF costs of those that neither run nor are out.
pub fn run_cost(plan: &Plan, week: usize, out: u32, run: u32) -> u64 {
    let cost = |unit: usize| match (is_in(run, unit), is_in(out, unit)) {
        (true, _) => plan.running[week - 1][unit - 1],
        (false, true) => 0,
        (false, false) => plan.off_cost(week, unit),
    };
    (1..=plan.units as usize)
        .map(|unit| u64::from(cost(unit)))
        .sum()
}

/// Whether a set of units, as a run's number, has a unit, which counts from 1.
fn is_in(set: u32, unit: usize) -> bool {
    set >> (unit - 1) & 1 == 1
}

/// The costs of the cheapest runs that a list of queries asks for, where `lent` is the number of
/// words there is room for: the file's refusal, then 17 where the queries are more than lent. A
/// query is week × 65,536 + set out; one without a run gets 268,435,456.
pub fn week_costs(words: &[u32], queries: &[u32], lent: usize) -> Result<Vec<u32>, Refusal> {
    let plan = read(words)?;
    if lent < queries.len() {
        return Err(Refusal {
            number: 17,
            place: 0,
        });
    }
    let cost = |&query: &u32| {
        let (week, out) = (query / 65_536, query % 65_536);
        let cheapest = cheapest_run(&plan, week as usize, out);
        cheapest.map_or(NO_RUN, |cheapest| cheapest.cost as u32)
    };
    Ok(queries.iter().map(cost).collect())
}

/// The sum of the values of a run's units.
fn total(values: &[u32], run: u32) -> u64 {
    (1..)
        .zip(values)
        .filter(|&(unit, _)| is_in(run, unit))
        .map(|(_, &value)| u64::from(value))
        .sum()
}
