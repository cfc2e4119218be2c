//! A plan file's content, the words that say it, and file A of the worked figures.

use crate::words::{word, words_from};

/// What an accepted plan file says. Lists by week or unit start with week or unit 1 at index 0.
#[derive(Clone, Debug, PartialEq, Eq)]
pub struct Plan {
    /// The number of weeks, W.
    pub weeks: u32,
    /// The number of units, U.
    pub units: u32,
    /// The number of crews, M.
    pub crews: u32,
    /// Each week's demand, in kilograms of dry matter.
    pub demand: Vec<u32>,
    /// Each unit's capacity, in kilograms of dry matter.
    pub capacity: Vec<u32>,
    /// The first week of each unit's window.
    pub earliest: Vec<u32>,
    /// The last week of each unit's window.
    pub latest: Vec<u32>,
    /// The weeks each unit's overhaul takes.
    pub duration: Vec<u32>,
    /// Maintenance costs in euros, by week, then unit.
    pub maint: Vec<Vec<u32>>,
    /// Running costs in euros, by week, then unit.
    pub running: Vec<Vec<u32>>,
    /// OFF costs in euros, by week, then unit; none where the file leaves them out, which are other
    /// words than costs of 0.
    pub off: Option<Vec<Vec<u32>>>,
    /// The excluded pairs of units, counted from 1.
    pub pairs: Vec<(u32, u32)>,
}

impl Plan {
    /// What a unit costs in a week in which it is OFF, 0 where the file leaves these costs out. Weeks
    /// and units count from 1.
    pub fn off_cost(&self, week: usize, unit: usize) -> u32 {
        let costs = self.off.as_ref();
        costs.map_or(0, |costs| costs[week - 1][unit - 1])
    }
}

/// The words of a plan, in the order of the file table. It tests no range, so that tests can also
/// write files that are to be refused.
pub fn encode(plan: &Plan) -> Vec<u32> {
    let mut words = vec![
        word(1, plan.weeks),
        word(2, plan.units),
        word(3, plan.crews),
    ];
    words.extend(plan.demand.iter().map(|&demand| word(4, demand)));
    for unit in 0..plan.units as usize {
        words.push(word(5, plan.capacity[unit]));
        words.push(word(6, plan.earliest[unit] * 64 + plan.latest[unit]));
        words.push(word(7, plan.duration[unit]));
    }
    words.extend(plan.maint.iter().flatten().map(|&cost| word(8, cost)));
    words.extend(plan.running.iter().flatten().map(|&cost| word(9, cost)));
    let off = plan.off.iter().flatten().flatten();
    words.extend(off.map(|&cost| word(0, cost)));
    words.extend(plan.pairs.iter().map(|&(a, b)| word(10, a * 32 + b)));
    words.push(word(15, words.len() as u32));
    words
}

/// File A of the worked figures, as a plan.
pub fn example_a() -> Plan {
    Plan {
        demand: vec![10, 10, 10],
        capacity: vec![10, 15],
        latest: vec![3, 3],
        maint: vec![vec![5, 5], vec![4, 7], vec![6, 6]],
        running: vec![vec![3, 4], vec![3, 4], vec![3, 4]],
        ..smallest(3, 2)
    }
}

/// A plan of the given size with the smallest legal values, and without what a file may leave out.
pub fn smallest(weeks: u32, units: u32) -> Plan {
    let (by_week, by_unit) = (weeks as usize, units as usize);
    Plan {
        weeks,
        units,
        crews: 1,
        demand: vec![0; by_week],
        capacity: vec![0; by_unit],
        earliest: vec![1; by_unit],
        latest: vec![1; by_unit],
        duration: vec![1; by_unit],
        maint: vec![vec![0; by_unit]; by_week],
        running: vec![vec![0; by_unit]; by_week],
        off: None,
        pairs: vec![],
    }
}

/// File A of the worked figures, as the words that document 01 prints.
pub fn example_a_words() -> Vec<u32> {
    let printed = "1:3 2:2 3:1 4:10 4:10 4:10 5:10 6:67 7:1 5:15 6:67 7:1 \
                   8:5 8:5 8:4 8:7 8:6 8:6 9:3 9:4 9:3 9:4 9:3 9:4 15:24";
    words_from(printed)
}

/// Whether a week or unit is one of so many, which count from 1.
pub(crate) fn counted(count: u32, number: usize) -> bool {
    1 <= number && number <= count as usize
}
