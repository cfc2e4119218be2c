//! Plans whose files are accepted: smallest, largest, at the borders of the ranges, random.

use crate::off_costs::choose_off;
use crate::Random;
use reference::{example_a, smallest, Plan};

/// The plan with the longest file: 52 weeks, 16 units, OFF costs, 120 pairs, every value the
/// largest.
pub fn largest() -> Plan {
    Plan {
        demand: vec![16_000_000; 52],
        capacity: vec![1_000_000; 16],
        off: Some(vec![vec![250_000; 16]; 52]),
        pairs: all_pairs(16),
        ..filled(52, 16, 16, 250_000, (1, 52), 52)
    }
}

fn filled(
    weeks: u32,
    units: u32,
    crews: u32,
    cost: u32,
    (earliest, latest): (u32, u32),
    duration: u32,
) -> Plan {
    let (by_week, by_unit) = (weeks as usize, units as usize);
    Plan {
        crews,
        earliest: vec![earliest; by_unit],
        latest: vec![latest; by_unit],
        duration: vec![duration; by_unit],
        maint: vec![vec![cost; by_unit]; by_week],
        running: vec![vec![cost; by_unit]; by_week],
        ..smallest(weeks, units)
    }
}

/// Every pair that a file with so many units may exclude, rising.
pub fn all_pairs(units: u32) -> Vec<(u32, u32)> {
    (1..=units)
        .flat_map(|a| (a + 1..=units).map(move |b| (a, b)))
        .collect()
}

/// Plans with short files, to be damaged in every word.
pub fn small_plans() -> Vec<Plan> {
    let one_pair = Plan {
        pairs: vec![(1, 3)],
        ..smallest(1, 3)
    };
    let four_pairs = Plan {
        pairs: vec![(1, 2), (1, 4), (2, 3), (3, 4)],
        crews: 16,
        ..filled(2, 4, 2, 250_000, (1, 2), 2)
    };
    let most_pairs = Plan {
        pairs: all_pairs(16),
        ..smallest(1, 16)
    };
    let late_window = filled(5, 1, 1, 7, (5, 5), 5);
    let free_off = Plan {
        off: Some(vec![vec![0; 2]; 2]),
        ..filled(2, 2, 1, 3, (1, 2), 1)
    };
    let one_off = Plan {
        off: Some(vec![vec![250_000]]),
        ..smallest(1, 1)
    };
    let off_and_pairs = Plan {
        off: Some((1..=3).map(|week| vec![99 + week; 3]).collect()),
        pairs: vec![(1, 2), (2, 3)],
        ..filled(3, 3, 3, 101, (1, 3), 2)
    };
    vec![
        example_a(),
        smallest(1, 1),
        one_pair,
        four_pairs,
        most_pairs,
        late_window,
        smallest(52, 1),
        filled(4, 3, 3, 100, (2, 3), 2),
        free_off,
        one_off,
        off_and_pairs,
    ]
}

/// Plans at the borders: of size, of the number of pairs, of each range, of the windows.
pub fn border_plans() -> Vec<Plan> {
    let mut plans = small_plans();
    plans.push(largest());
    plans.push(smallest(52, 16));
    plans.push(smallest(1, 16));
    for (weeks, units) in [(1, 1), (3, 2), (52, 3), (52, 16)] {
        plans.extend(at_the_top(weeks, units));
        plans.extend(with_window_borders(weeks, units));
    }
    for units in 2..=16 {
        plans.extend(with_border_pairs(units));
    }
    plans
}

/// One plan for each kind of value, with that value at the top of its range; OFF costs of 0 too.
fn at_the_top(weeks: u32, units: u32) -> Vec<Plan> {
    let base = smallest(weeks, units);
    let (by_week, by_unit) = (weeks as usize, units as usize);
    let mut plans = vec![base; 8];
    plans[0].crews = 16;
    plans[1].demand = vec![16_000_000; by_week];
    plans[2].capacity = vec![1_000_000; by_unit];
    plans[3].duration = vec![weeks; by_unit];
    plans[4].maint = vec![vec![250_000; by_unit]; by_week];
    plans[5].running = vec![vec![250_000; by_unit]; by_week];
    plans[6].off = Some(vec![vec![0; by_unit]; by_week]);
    plans[7].off = Some(vec![vec![250_000; by_unit]; by_week]);
    plans
}

/// Every unit with the same window, for each window at the borders.
fn with_window_borders(weeks: u32, units: u32) -> Vec<Plan> {
    let middle = weeks.div_ceil(2);
    let windows = [(1, 1), (1, weeks), (weeks, weeks), (middle, middle)];
    windows
        .iter()
        .map(|&window| filled(weeks, units, 1, 0, window, 1))
        .collect()
}

/// The first pair alone, the last alone, the two together, and all.
fn with_border_pairs(units: u32) -> Vec<Plan> {
    let all = all_pairs(units);
    let (first, last) = (all[0], all[all.len() - 1]);
    let mut both = vec![first, last];
    both.dedup();
    [vec![first], vec![last], both, all]
        .into_iter()
        .map(|pairs| Plan {
            pairs,
            ..smallest(2, units)
        })
        .collect()
}

/// A plan of at most the given size, its values anywhere in their ranges and often at their ends.
/// This and all that follow have OFF costs of any class.
pub fn random_plan(random: &mut Random, most_weeks: u32, most_units: u32) -> Plan {
    let weeks = random.edgy(1, most_weeks);
    let units = random.edgy(1, most_units);
    let mut plan = smallest(weeks, units);
    plan.crews = random.edgy(1, 16);
    fill(&mut plan.demand, || random.edgy(0, 16_000_000));
    fill(&mut plan.capacity, || random.edgy(0, 1_000_000));
    choose_overhauls(&mut plan, random);
    for row in plan.maint.iter_mut().chain(&mut plan.running) {
        fill(row, || random.edgy(0, 250_000));
    }
    plan.pairs = random_pairs(random, units);
    choose_off(&mut plan, random);
    plan
}

/// A plan of the given size with small figures, so that its grids break any of the formulas first,
/// or none.
pub fn tiny_plan(random: &mut Random, weeks: u32, units: u32) -> Plan {
    let mut plan = smallest(weeks, units);
    plan.crews = random.within(1, units);
    fill(&mut plan.demand, || random.within(0, 2));
    fill(&mut plan.capacity, || random.within(0, 3));
    choose_overhauls(&mut plan, random);
    for row in plan.maint.iter_mut().chain(&mut plan.running) {
        fill(row, || random.edgy(0, 9));
    }
    plan.pairs = random_pairs(random, units);
    choose_off(&mut plan, random);
    plan
}

/// A plan of the given size for the runs of its weeks: often with few different capacities or
/// costs, so that runs tie, and with demands that some run just meets or just misses.
pub fn tied_plan(random: &mut Random, weeks: u32, units: u32) -> Plan {
    let mut plan = smallest(weeks, units);
    plan.crews = random.edgy(1, 16);
    choose_capacities(&mut plan.capacity, random);
    choose_overhauls(&mut plan, random);
    for row in plan.maint.iter_mut().chain(&mut plan.running) {
        choose_costs(row, &plan.capacity, random);
    }
    for demand in &mut plan.demand {
        *demand = tight_demand(&plan.capacity, random);
    }
    plan.pairs = random_pairs(random, units);
    choose_off(&mut plan, random);
    plan
}

/// All the same, 0 or 1, small, or any.
fn choose_capacities(capacity: &mut [u32], random: &mut Random) {
    let same = random.edgy(0, 1_000_000);
    match random.within(0, 3) {
        0 => capacity.fill(same),
        1 => fill(capacity, || random.within(0, 1)),
        2 => fill(capacity, || random.within(0, 5)),
        _ => fill(capacity, || random.edgy(0, 1_000_000)),
    }
}

/// All the same, 0 or 1, small, the same for each kilogram, or any.
fn choose_costs(costs: &mut [u32], capacity: &[u32], random: &mut Random) {
    let same = random.edgy(0, 250_000);
    match random.within(0, 4) {
        0 => costs.fill(same),
        1 => fill(costs, || random.within(0, 1)),
        2 => fill(costs, || random.within(0, 5)),
        3 => costs
            .iter_mut()
            .zip(capacity)
            .for_each(|(cost, &capacity)| *cost = capacity.min(250_000)),
        _ => fill(costs, || random.edgy(0, 250_000)),
    }
}

/// What some units give together, or all; a kilogram more; nothing, or the most that is legal.
fn tight_demand(capacity: &[u32], random: &mut Random) -> u32 {
    let all: u32 = capacity.iter().sum();
    let some: u32 = capacity.iter().filter(|_| random.once_in(2)).sum();
    let demand = match random.within(0, 9) {
        0 => 0,
        1 => 16_000_000,
        2 => all,
        3 => all + 1,
        4 | 5 => some + 1,
        _ => some,
    };
    demand.min(16_000_000)
}

/// Any durations and windows.
fn choose_overhauls(plan: &mut Plan, random: &mut Random) {
    let weeks = plan.weeks;
    fill(&mut plan.duration, || random.edgy(1, weeks));
    fill(&mut plan.earliest, || random.edgy(1, weeks));
    for (latest, &earliest) in plan.latest.iter_mut().zip(&plan.earliest) {
        *latest = random.edgy(earliest, weeks);
    }
}

fn fill(values: &mut [u32], mut value: impl FnMut() -> u32) {
    values.fill_with(&mut value);
}

/// No pair, a few, half of them, or all.
fn random_pairs(random: &mut Random, units: u32) -> Vec<(u32, u32)> {
    let mut pairs = all_pairs(units);
    match random.within(0, 3) {
        0 => pairs.clear(),
        1 => pairs.retain(|_| random.once_in(8)),
        2 => pairs.retain(|_| random.once_in(2)),
        _ => {}
    }
    pairs
}
