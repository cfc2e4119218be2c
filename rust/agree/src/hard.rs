//! Files on which a planner has much to rule out and that are still small enough for all their
//! schedules: short of one thing, or with just enough of it, and with many schedules that tie.

use crate::off_costs::{choose_off, cost_rows};
use crate::plans::all_pairs;
use crate::Random;
use reference::{smallest, Plan};

/// What a file is short of, or has just enough of.
#[derive(Clone, Copy, Debug, PartialEq, Eq)]
pub enum Want {
    /// Crews: one alone.
    Crews,
    /// Kilograms: each week wants all units but one.
    Kilograms,
    /// Weeks in which units are compatible: each pair is excluded.
    Compatible,
    /// Windows: each unit has to be out in a part of the season that is too short for them all.
    Windows,
}

impl Want {
    /// All of them.
    pub const ALL: [Want; 4] = [
        Want::Crews,
        Want::Kilograms,
        Want::Compatible,
        Want::Windows,
    ];
}

/// A plan in which no two units may be out together, for want of one thing, whose overhauls take as
/// many weeks as there are together, or `more`: with none more there are schedules, and the units are
/// out one after the other in any of them; with one more there are none.
pub fn wanting_plan(want: Want, more: u32, random: &mut Random) -> Plan {
    let units = random.within(2, 5);
    let span = random.within(units, 5);
    let season = if want == Want::Windows {
        span + 2
    } else {
        span
    };
    let mut plan = Plan {
        crews: units,
        capacity: vec![random.within(1, 9); units as usize],
        duration: shared_out(span + more, units, random),
        latest: vec![season; units as usize],
        ..smallest(season, units)
    };
    let all: u32 = plan.capacity.iter().sum();
    match want {
        Want::Crews => plan.crews = 1,
        Want::Kilograms => plan.demand.fill(all - plan.capacity[0]),
        Want::Compatible => plan.pairs = all_pairs(units),
        Want::Windows => close_windows(&mut plan, span, random),
    }
    choose_tied_costs(&mut plan, random);
    plan
}

/// So many weeks as durations of so many units, one for each at least.
fn shared_out(weeks: u32, units: u32, random: &mut Random) -> Vec<u32> {
    let mut durations = vec![1; units as usize];
    for _ in units..weeks {
        durations[random.place(units as usize)] += 1;
    }
    durations
}

/// One crew, and windows that keep all overhauls within so many weeks.
fn close_windows(plan: &mut Plan, span: u32, random: &mut Random) {
    let first = random.within(1, plan.weeks - span + 1);
    plan.crews = 1;
    plan.earliest.fill(first);
    for (latest, &duration) in plan.latest.iter_mut().zip(&plan.duration) {
        *latest = (first + span).saturating_sub(duration).max(first);
    }
}

/// Costs that are all alike, or 0 and 1, or small; OFF costs of any class.
fn choose_tied_costs(plan: &mut Plan, random: &mut Random) {
    let (same, top) = (random.within(0, 3), random.one_of(&[0, 1, 4]));
    let alike = random.once_in(2);
    for row in plan.maint.iter_mut().chain(&mut plan.running) {
        row.fill_with(|| if alike { same } else { random.within(0, top) });
    }
    choose_off(plan, random);
}

/// A plan of 6 to 9 units with one start or two for each, few crews, and a demand and pairs that leave
/// little choice: some have a few schedules, some none.
pub fn near_plan(random: &mut Random) -> Plan {
    let units = random.within(6, 9);
    let weeks = random.within(units, units + 3);
    let mut plan = Plan {
        crews: random.within(2, 3),
        capacity: vec![0; units as usize],
        duration: vec![1; units as usize],
        ..smallest(weeks, units)
    };
    plan.capacity.fill_with(|| random.within(1, 4));
    for unit in 0..units as usize {
        plan.duration[unit] = random.within(1, 2).min(weeks);
        plan.earliest[unit] = random.within(1, weeks - 2);
        plan.latest[unit] = plan.earliest[unit] + random.within(0, 1);
    }
    let all: u32 = plan.capacity.iter().sum();
    let spare = random.within(4, 9).min(all);
    plan.demand.fill(all - spare);
    plan.pairs = all_pairs(units);
    plan.pairs.retain(|_| random.once_in(12));
    choose_tied_costs(&mut plan, random);
    plan
}

/// A plan of some units and weeks in which all schedules cost nearly the same: every week is like the
/// others but for one, which costs a euro more or less.
pub fn level_plan(random: &mut Random) -> Plan {
    let (units, weeks) = (random.within(3, 4), random.within(4, 5));
    let mut plan = Plan {
        crews: random.within(2, units),
        capacity: vec![1; units as usize],
        duration: vec![1; units as usize],
        latest: vec![weeks; units as usize],
        ..smallest(weeks, units)
    };
    plan.duration.fill_with(|| random.within(1, 2));
    plan.demand.fill(random.within(0, units - 2));
    for row in cost_rows(&mut plan) {
        row.fill(5);
    }
    let (week, cost) = (random.place(weeks as usize), random.within(4, 6));
    plan.maint[week].fill(cost);
    if random.once_in(3) {
        plan.off = Some(vec![
            vec![random.within(0, 6); units as usize];
            weeks as usize
        ]);
    }
    plan
}
