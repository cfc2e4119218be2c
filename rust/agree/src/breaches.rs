//! Grids that break one formula and meet the others, made from a schedule that meets them all.

use crate::plans::all_pairs;
use crate::schedules::Scheduled;
use reference::{Plan, MAINT, OFF, ON};

/// A plan and one of its grids.
pub type Case = (Plan, Vec<u8>);

/// The plan and grid of a schedule that meets (1) to (8), changed so that formula `number` is
/// broken alone: a case for each week, unit, pair or cell where such a change can be made.
pub fn breaches(number: u32, scheduled: &Scheduled) -> Vec<Case> {
    match number {
        1 => [demand_raised(scheduled), unit_stopped(scheduled)].concat(),
        2 => window_too_late(scheduled),
        3 => window_too_early(scheduled),
        4 => overhaul_parted(scheduled),
        5 => [overhaul_cut(scheduled), duration_changed(scheduled)].concat(),
        6 => overhaul_left_out(scheduled),
        7 => crew_too_few(scheduled),
        8 => pair_excluded(scheduled),
        _ => panic!("there is no formula {number} to break"),
    }
}

/// The cases of an edit at each index from 0 on; those where it gives false are left out.
fn cases(
    scheduled: &Scheduled,
    count: usize,
    edit: impl Fn(usize, &mut Plan, &mut [u8]) -> bool,
) -> Vec<Case> {
    let (plan, grid) = (&scheduled.plan, scheduled.grid());
    (0..count)
        .filter_map(|index| {
            let mut case = (plan.clone(), grid.clone());
            edit(index, &mut case.0, &mut case.1).then_some(case)
        })
        .collect()
}

/// A week's demand raised to one kilogram more than its run gives.
fn demand_raised(scheduled: &Scheduled) -> Vec<Case> {
    let output = scheduled.output();
    cases(scheduled, output.len(), |week, plan, _| {
        plan.demand[week] = output[week] + 1;
        plan.demand[week] <= 16_000_000
    })
}

/// A unit turned OFF that the week's demand needs.
fn unit_stopped(scheduled: &Scheduled) -> Vec<Case> {
    let output = scheduled.output();
    cases(scheduled, scheduled.grid().len(), |place, plan, grid| {
        let (week, unit) = (place / plan.units as usize, place % plan.units as usize);
        let was_on = grid[place] == ON;
        grid[place] = OFF;
        was_on && output[week] < plan.demand[week] + plan.capacity[unit]
    })
}

/// A window that opens the week after the unit's start.
fn window_too_late(scheduled: &Scheduled) -> Vec<Case> {
    cases(scheduled, scheduled.starts.len(), |unit, plan, _| {
        let next = scheduled.starts[unit] + 1;
        plan.earliest[unit] = next;
        plan.latest[unit] = plan.latest[unit].max(next);
        next <= plan.weeks
    })
}

/// A window that closes the week before the unit's start.
fn window_too_early(scheduled: &Scheduled) -> Vec<Case> {
    cases(scheduled, scheduled.starts.len(), |unit, plan, _| {
        let before = scheduled.starts[unit] - 1;
        plan.latest[unit] = before;
        plan.earliest[unit] = plan.earliest[unit].min(before);
        1 <= before
    })
}

/// A week turned OFF between the first and the last of an overhaul.
fn overhaul_parted(scheduled: &Scheduled) -> Vec<Case> {
    cases(scheduled, scheduled.grid().len(), |place, plan, grid| {
        let (first, last) = overhaul(scheduled, place % plan.units as usize);
        let week = place as u32 / plan.units + 1;
        grid[place] = OFF;
        first < week && week < last
    })
}

/// The first week of an overhaul turned OFF, or the last, where it has others.
fn overhaul_cut(scheduled: &Scheduled) -> Vec<Case> {
    cases(scheduled, scheduled.grid().len(), |place, plan, grid| {
        let (first, last) = overhaul(scheduled, place % plan.units as usize);
        let week = place as u32 / plan.units + 1;
        grid[place] = OFF;
        first < last && (week == first || week == last)
    })
}

/// A duration one week longer or shorter than the unit's overhaul, where it still ends in time.
fn duration_changed(scheduled: &Scheduled) -> Vec<Case> {
    let units = scheduled.starts.len();
    let longer = cases(scheduled, units, |unit, plan, _| {
        plan.duration[unit] += 1;
        plan.duration[unit] <= plan.weeks
    });
    let shorter = cases(scheduled, units, |unit, plan, _| {
        plan.duration[unit] -= 1;
        plan.duration[unit] >= 1 && scheduled.starts[unit] < plan.latest[unit]
    });
    [longer, shorter].concat()
}

/// A unit OFF wherever it was MAINT.
fn overhaul_left_out(scheduled: &Scheduled) -> Vec<Case> {
    cases(scheduled, scheduled.starts.len(), |unit, plan, grid| {
        let weeks = grid.iter_mut().skip(unit).step_by(plan.units as usize);
        weeks
            .filter(|state| **state == MAINT)
            .for_each(|state| *state = OFF);
        true
    })
}

/// One crew fewer than the most units out in a week, where that leaves one.
fn crew_too_few(scheduled: &Scheduled) -> Vec<Case> {
    let out = scheduled.out();
    cases(scheduled, 1, |_, plan, _| {
        let most = out.iter().map(|out| out.count_ones()).max().unwrap_or(0);
        plan.crews = most.saturating_sub(1);
        plan.crews >= 1
    })
}

/// A further pair excluded, of units that are out together.
fn pair_excluded(scheduled: &Scheduled) -> Vec<Case> {
    let pairs = all_pairs(scheduled.plan.units);
    cases(scheduled, pairs.len(), |index, plan, _| {
        plan.pairs.push(pairs[index]);
        plan.pairs.sort_unstable();
        scheduled.meet(pairs[index])
    })
}

/// The first and last week of a unit's overhaul; the unit counts from 0, the weeks from 1.
fn overhaul(scheduled: &Scheduled, unit: usize) -> (u32, u32) {
    let first = scheduled.starts[unit];
    (first, first + scheduled.plan.duration[unit] - 1)
}
