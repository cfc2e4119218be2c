//! The sizing figure: a bound on the number of places that a walk can come to.

use crate::Plan;

/// The smaller of 268,435,455 and W + W² + … + W^U. The sum is taken whole: 52^16 is below 2^92.
pub fn sizing(plan: &Plan) -> usize {
    let weeks = u128::from(plan.weeks);
    let sum: u128 = (1..=plan.units).map(|power| weeks.pow(power)).sum();
    sum.min(268_435_455) as usize
}
