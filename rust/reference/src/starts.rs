//! The permitted starts of a unit, and what its overhaul costs from each. Units and starts count
//! from 1.

use crate::plan::counted;
use crate::Plan;

/// The weeks of a unit's window from which its overhaul still ends by the last week, rising; the
/// list may be empty, and is for a unit that the plan has not.
pub fn permitted_starts(plan: &Plan, unit: usize) -> Vec<u32> {
    if !counted(plan.units, unit) {
        return vec![];
    }
    let finished = plan.weeks - plan.duration[unit - 1] + 1;
    let last = plan.latest[unit - 1].min(finished);
    (plan.earliest[unit - 1]..=last).collect()
}

/// What a unit's overhaul costs from a start, its maintenance costs over as many weeks as it
/// takes; none where the start is not permitted.
pub fn upkeep(plan: &Plan, unit: usize, start: usize) -> Option<u64> {
    let mut starts = permitted_starts(plan, unit).into_iter();
    let permitted = starts.any(|permitted| permitted as usize == start);
    permitted.then(|| {
        let weeks = start..start + plan.duration[unit - 1] as usize;
        weeks
            .map(|week| u64::from(plan.maint[week - 1][unit - 1]))
            .sum()
    })
}
