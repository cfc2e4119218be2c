//! Schedules, a start for each unit and a run for each week, laid out as grids.

use crate::formulas::{MAINT, OFF, ON};
use crate::{read, Plan, Refusal};

/// The grid of a schedule: MAINT from each unit's start for its duration, ON for the units in a
/// week's run that are not in maintenance, OFF elsewhere. A start or run past the end of its list
/// is 0, and those beyond the plan's units or weeks do not count.
pub fn lay_out(plan: &Plan, starts: &[u32], runs: &[u32]) -> Vec<u8> {
    let mut grid = vec![];
    for week in 0..plan.weeks as usize {
        for unit in 0..plan.units as usize {
            let out = in_span(listed(starts, unit), plan.duration[unit], week as u64 + 1);
            let on = in_run(listed(runs, week), unit);
            grid.push(match (out, on) {
                (true, _) => MAINT,
                (false, true) => ON,
                (false, false) => OFF,
            });
        }
    }
    grid
}

/// The grid of a schedule of a file, where `lent` is the number of bytes there is room for: the
/// file's refusal, then 17 where the grid's bytes are more than lent.
pub fn draw(words: &[u32], starts: &[u32], runs: &[u32], lent: usize) -> Result<Vec<u8>, Refusal> {
    let grid = lay_out(&read(words)?, starts, runs);
    if lent < grid.len() {
        return Err(Refusal {
            number: 17,
            place: 0,
        });
    }
    Ok(grid)
}

fn listed(list: &[u32], index: usize) -> u32 {
    list.get(index).copied().unwrap_or(0)
}

/// The week, from 1, is one of the `duration` weeks from `start` on.
fn in_span(start: u32, duration: u32, week: u64) -> bool {
    let start = u64::from(start);
    start <= week && week < start + u64::from(duration)
}

/// A run's number is the sum of 2^(i-1) over its units i; `unit` counts from 0.
fn in_run(run: u32, unit: usize) -> bool {
    run / 2u32.pow(unit as u32) % 2 == 1
}
