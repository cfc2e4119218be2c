//! Schedules: all of a small plan, and plans made to fit one, so that it meets (1) to (8).

use crate::plans::{largest, random_plan};
use crate::Random;
use reference::{lay_out, permitted_starts, Plan};

/// A plan with a schedule of it.
#[derive(Clone)]
pub struct Scheduled {
    /// The plan.
    pub plan: Plan,
    /// Each unit's start.
    pub starts: Vec<u32>,
    /// The number of each week's run.
    pub runs: Vec<u32>,
}

impl Scheduled {
    /// The schedule laid out.
    pub fn grid(&self) -> Vec<u8> {
        lay_out(&self.plan, &self.starts, &self.runs)
    }

    /// The set of units out in each week, as a run's number.
    pub fn out(&self) -> Vec<u32> {
        let bit = |week: u32, unit: usize| {
            let first = self.starts[unit];
            let span = first..first + self.plan.duration[unit];
            u32::from(span.contains(&week)) << unit
        };
        let units = 0..self.starts.len();
        (1..=self.plan.weeks)
            .map(|week| units.clone().map(|unit| bit(week, unit)).sum())
            .collect()
    }

    /// What each week's run gives.
    pub fn output(&self) -> Vec<u32> {
        let part = |run: u32, unit: usize| (run >> unit & 1) * self.plan.capacity[unit];
        let units = 0..self.starts.len();
        self.runs
            .iter()
            .map(|&run| units.clone().map(|unit| part(run, unit)).sum())
            .collect()
    }

    /// Whether two units are out in the same week.
    pub fn meet(&self, (a, b): (u32, u32)) -> bool {
        let both = 1 << (a - 1) | 1 << (b - 1);
        self.out().iter().any(|out| out & both == both)
    }
}

/// The largest plan with overhauls of 3 weeks, each in weeks of its own, so that one crew is enough
/// and all pairs are excluded. The other units run, which in weeks 1 to 48 just meets the demand.
pub fn staggered() -> Scheduled {
    let mut scheduled = at_starts((0..16).map(|unit| 3 * unit + 1).collect(), 3);
    scheduled.plan.crews = 1;
    scheduled
}

/// The largest plan with overhauls of 6 weeks, two units at a time. Two crews are enough, and all
/// pairs are excluded but those of the two that are out together.
pub fn in_twos() -> Scheduled {
    let mut scheduled = at_starts((0..16).map(|unit| 6 * (unit / 2) + 1).collect(), 6);
    scheduled.plan.crews = 2;
    scheduled.plan.demand.fill(14_000_000);
    let apart = |&(a, b): &(u32, u32)| (a - 1) / 2 != (b - 1) / 2;
    scheduled.plan.pairs.retain(apart);
    scheduled
}

/// The largest plan with overhauls of 3 weeks, all in the same weeks. No pair is excluded, and
/// nothing is demanded.
pub fn together() -> Scheduled {
    let mut scheduled = at_starts(vec![25; 16], 3);
    scheduled.plan.demand.fill(0);
    scheduled.plan.pairs.clear();
    scheduled
}

fn at_starts(starts: Vec<u32>, duration: u32) -> Scheduled {
    let plan = Plan {
        demand: vec![15_000_000; 52],
        duration: vec![duration; 16],
        ..largest()
    };
    let runs = vec![0; 52];
    let mut scheduled = Scheduled { plan, starts, runs };
    scheduled.runs = scheduled.out().iter().map(|out| 0xFFFF - out).collect();
    scheduled
}

/// A random plan of at most the given size, fitted to a schedule.
pub fn random_scheduled(random: &mut Random, most_weeks: u32, most_units: u32) -> Scheduled {
    let mut plan = random_plan(random, most_weeks, most_units);
    if random.once_in(2) {
        let short = plan.weeks.min(4);
        plan.duration.fill_with(|| random.edgy(1, short));
    }
    fitted(plan, random)
}

/// The plan with a random schedule, its windows, demands and crews set anew and pairs left out, so
/// that the schedule meets (1) to (8), often with nothing to spare.
pub fn fitted(plan: Plan, random: &mut Random) -> Scheduled {
    let mut scheduled = Scheduled {
        plan,
        starts: vec![],
        runs: vec![],
    };
    choose_starts(&mut scheduled, random);
    choose_runs(&mut scheduled, random);
    let out = scheduled.out();
    let most_out = out.iter().map(|out| out.count_ones()).max().unwrap_or(1);
    scheduled.plan.crews = random.edgy(most_out, scheduled.plan.units);
    let mut pairs = scheduled.plan.pairs.clone();
    pairs.retain(|&pair| !scheduled.meet(pair));
    scheduled.plan.pairs = pairs;
    scheduled
}

/// Starts that leave each overhaul finished, and windows around them.
fn choose_starts(scheduled: &mut Scheduled, random: &mut Random) {
    let plan = &mut scheduled.plan;
    for unit in 0..plan.units as usize {
        let start = random.edgy(1, plan.weeks + 1 - plan.duration[unit]);
        plan.earliest[unit] = random.edgy(1, start);
        plan.latest[unit] = random.edgy(start, plan.weeks);
        scheduled.starts.push(start);
    }
}

/// Runs of units that are not out, and demands that they meet.
fn choose_runs(scheduled: &mut Scheduled, random: &mut Random) {
    let units = (1 << scheduled.plan.units) - 1;
    let out = scheduled.out();
    scheduled.runs = out.iter().map(|out| random.word() & units & !out).collect();
    let output = scheduled.output();
    for (demand, most) in scheduled.plan.demand.iter_mut().zip(output) {
        *demand = random.edgy(0, most);
    }
}

/// Every schedule of a small plan, the earlier ones first: each permitted start for each unit, each
/// number for each week's run, also where it has units that are out.
pub fn all_schedules(plan: &Plan) -> Vec<Scheduled> {
    let units = 1..=plan.units as usize;
    let starts: Vec<Vec<u32>> = units.map(|unit| permitted_starts(plan, unit)).collect();
    let runs: Vec<Vec<u32>> = vec![(0..1 << plan.units).collect(); plan.weeks as usize];
    let mut schedules = vec![];
    for starts in lists(&starts) {
        schedules.extend(lists(&runs).into_iter().map(|runs| Scheduled {
            plan: plan.clone(),
            starts: starts.clone(),
            runs,
        }));
    }
    schedules
}

/// Every list that has its first number from the first choices, its second from the second, and so
/// on, in lexicographic order.
fn lists(choices: &[Vec<u32>]) -> Vec<Vec<u32>> {
    choices.iter().fold(vec![vec![]], |lists, numbers| {
        let longer = |list: &Vec<u32>, &number: &u32| [&list[..], &[number]].concat();
        lists
            .iter()
            .flat_map(|list| numbers.iter().map(move |number| longer(list, number)))
            .collect()
    })
}
