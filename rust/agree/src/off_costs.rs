//! OFF costs of every class: left out, all 0, and below, equal to and above the running costs. A
//! mistake that shows with one class only would stay hidden where a sweep has none of its files, so
//! sweeps count them.

use crate::Random;
use reference::Plan;
use std::cmp::Ordering;
use std::collections::BTreeMap;
use std::fmt;

/// The highest cost.
const HIGHEST: u32 = 250_000;

/// How the OFF costs of a file stand to its running costs.
#[derive(Clone, Copy, Debug, PartialEq, Eq, PartialOrd, Ord)]
pub enum OffClass {
    /// The file leaves them out.
    Absent,
    /// All are 0.
    Zero,
    /// Not 0, and below the running cost.
    Below,
    /// Not 0, and as high as the running cost.
    Equal,
    /// Above the running cost.
    Above,
    /// Any, by chance.
    Mixed,
}

impl OffClass {
    /// All of them.
    pub const ALL: [OffClass; 6] = [
        OffClass::Absent,
        OffClass::Zero,
        OffClass::Below,
        OffClass::Equal,
        OffClass::Above,
        OffClass::Mixed,
    ];

    /// OFF costs of the class beside these running costs, as far as the range of costs allows.
    pub fn costs(self, running: &[Vec<u32>], random: &mut Random) -> Option<Vec<Vec<u32>>> {
        let row = |row: &Vec<u32>| row.iter().map(|&cost| self.cost(cost, random)).collect();
        let rows = running.iter().map(row).collect();
        (self != OffClass::Absent).then_some(rows)
    }

    /// An OFF cost of the class beside a running cost.
    fn cost(self, running: u32, random: &mut Random) -> u32 {
        let twice = (2 * running + 3).min(HIGHEST);
        match self {
            OffClass::Absent | OffClass::Zero => 0,
            OffClass::Below if running < 2 => 0,
            OffClass::Below => random.edgy(1, running - 1),
            OffClass::Equal => running,
            OffClass::Above => random.edgy((running + 1).min(HIGHEST), twice),
            OffClass::Mixed => match random.within(0, 5) {
                0 => 0,
                1 => running,
                2 => running.saturating_sub(1),
                3 => (running + 1).min(HIGHEST),
                4 => random.edgy(0, HIGHEST),
                _ => random.within(0, twice),
            },
        }
    }

    /// The classes that the cells of a plan have; cells of 0 count only where there are no others.
    fn all_of(plan: &Plan) -> Vec<OffClass> {
        let Some(off) = &plan.off else {
            return vec![OffClass::Absent];
        };
        let cells = off.iter().flatten().zip(plan.running.iter().flatten());
        let mut classes: Vec<OffClass> = cells
            .filter(|(&off, _)| off > 0)
            .map(|(off, running)| match off.cmp(running) {
                Ordering::Less => OffClass::Below,
                Ordering::Equal => OffClass::Equal,
                Ordering::Greater => OffClass::Above,
            })
            .collect();
        classes.sort_unstable();
        classes.dedup();
        if classes.is_empty() {
            classes.push(OffClass::Zero);
        }
        classes
    }
}

/// Gives a plan OFF costs of any class, or leaves them out.
pub fn choose_off(plan: &mut Plan, random: &mut Random) {
    let class = OffClass::ALL[random.place(OffClass::ALL.len())];
    plan.off = class.costs(&plan.running, random);
}

/// All rows of a plan's costs, those of OFF costs too where it has any.
pub fn cost_rows(plan: &mut Plan) -> impl Iterator<Item = &mut Vec<u32>> {
    let rows = plan.maint.iter_mut().chain(&mut plan.running);
    rows.chain(plan.off.iter_mut().flatten())
}

/// The units that cost less running than OFF in a week, which counts from 1, as a run's number.
pub fn thrifty_units(plan: &Plan, week: usize) -> u32 {
    let running = (1..).zip(&plan.running[week - 1]);
    running
        .filter(|&(unit, &cost)| cost < plan.off_cost(week, unit))
        .map(|(unit, _)| 1 << (unit - 1))
        .sum()
}

/// How many files, or calls on files, had OFF costs of each class.
#[derive(Default)]
pub struct OffCounts(BTreeMap<OffClass, usize>);

impl OffCounts {
    /// Counts a plan under each class that it has.
    pub fn add(&mut self, plan: &Plan) {
        for class in OffClass::all_of(plan) {
            *self.0.entry(class).or_default() += 1;
        }
    }

    /// How many had OFF costs of the rarest class; a mixed plan counts by its cells.
    pub fn rarest(&self) -> usize {
        let count = |class| self.0.get(class).copied().unwrap_or(0);
        let classes = OffClass::ALL
            .iter()
            .filter(|&&class| class != OffClass::Mixed);
        classes.map(count).min().unwrap_or(0)
    }
}

impl fmt::Display for OffCounts {
    fn fmt(&self, f: &mut fmt::Formatter) -> fmt::Result {
        write!(f, "OFF costs {:?}", self.0)
    }
}
