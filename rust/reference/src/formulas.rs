//! Formulas (1) to (9) of source document 000, section 3.2, as they are written there: slow, and
//! tried for every week t, unit i or pair that they speak of. Weeks and units count from 1.

use crate::Plan;
use std::ops::RangeInclusive;

/// The byte of a unit that is off in a week.
pub const OFF: u8 = 0;
/// The byte of a unit that runs in a week.
pub const ON: u8 = 1;
/// The byte of a unit that is overhauled in a week.
pub const MAINT: u8 = 2;

/// The numbers of the formulas (1) to (8) that a grid of W × U bytes breaks, rising.
pub fn broken(plan: &Plan, grid: &[u8]) -> Vec<u32> {
    let states = States { plan, grid };
    let met = [
        states.demand(),
        states.start(),
        states.end(),
        states.continuous(),
        states.length(),
        states.existence(),
        states.crews(),
        states.pairs(),
    ];
    (1..)
        .zip(met)
        .filter(|&(_, met)| !met)
        .map(|(number, _)| number)
        .collect()
}

/// (9) The sum of w over all i and t: a unit's maintenance cost in a week where it is MAINT, its
/// running cost where it is ON, and its OFF cost where it is OFF.
pub fn cost(plan: &Plan, grid: &[u8]) -> u64 {
    let states = States { plan, grid };
    states.cells().map(|(i, t)| states.w(i, t)).sum()
}

/// The states that a plan's grid tells.
struct States<'a> {
    plan: &'a Plan,
    grid: &'a [u8],
}

impl States<'_> {
    /// (1) The sum of k over the units that are ON is at least D, for each t.
    fn demand(&self) -> bool {
        self.weeks().all(|t| {
            let on = self.units().filter(|&i| self.x(i, t) == ON);
            let output: u32 = on.map(|i| at(&self.plan.capacity, i)).sum();
            output >= at(&self.plan.demand, t)
        })
    }

    /// (2) If t < e, then x is not MAINT.
    fn start(&self) -> bool {
        let e = &self.plan.earliest;
        self.cells()
            .all(|(i, t)| implies(t < at(e, i), self.x(i, t) != MAINT))
    }

    /// (3) If t ≥ l + d, then x is not MAINT.
    fn end(&self) -> bool {
        let (l, d) = (&self.plan.latest, &self.plan.duration);
        self.cells()
            .all(|(i, t)| implies(t >= at(l, i) + at(d, i), self.x(i, t) != MAINT))
    }

    /// (4) If x is MAINT in t1 and in t2, and t1 < t2, then it is MAINT for all t1 < t < t2.
    fn continuous(&self) -> bool {
        self.units().all(|i| {
            let maint = |t: u32| self.x(i, t) == MAINT;
            let between = |t1: u32, t2: u32| (t1 + 1..t2).all(maint);
            self.weeks().all(|t1| {
                let mut later = t1 + 1..=self.plan.weeks;
                later.all(|t2| implies(maint(t1) && maint(t2), between(t1, t2)))
            })
        })
    }

    /// (5) If t1 is the first week with MAINT and t2 the last, then t2 - t1 + 1 = d.
    fn length(&self) -> bool {
        self.units().all(|i| {
            let out = self.weeks().filter(|&t| self.x(i, t) == MAINT);
            let (t1, t2) = (out.clone().min(), out.max());
            t1.zip(t2)
                .is_none_or(|(t1, t2)| t2 - t1 + 1 == at(&self.plan.duration, i))
        })
    }

    /// (6) There is a t such that x is MAINT.
    fn existence(&self) -> bool {
        self.units()
            .all(|i| self.weeks().any(|t| self.x(i, t) == MAINT))
    }

    /// (7) The number of units that are MAINT is at most M, for each t.
    fn crews(&self) -> bool {
        self.weeks().all(|t| {
            let out = self.units().filter(|&i| self.x(i, t) == MAINT);
            out.count() <= self.plan.crews as usize
        })
    }

    /// (8) If (i1, i2) is an excluded pair and x of i1 is MAINT, then x of i2 is not, for each t.
    fn pairs(&self) -> bool {
        self.plan.pairs.iter().all(|&(i1, i2)| {
            self.weeks()
                .all(|t| implies(self.x(i1, t) == MAINT, self.x(i2, t) != MAINT))
        })
    }

    /// The cost w of unit i in week t.
    fn w(&self, i: u32, t: u32) -> u64 {
        let (week, unit) = (t as usize, i as usize);
        u64::from(match self.x(i, t) {
            ON => at(&self.plan.running[week - 1], i),
            MAINT => at(&self.plan.maint[week - 1], i),
            _ => self.plan.off_cost(week, unit),
        })
    }

    /// The state x of unit i in week t: bytes go week by week, unit by unit within a week.
    fn x(&self, i: u32, t: u32) -> u8 {
        let place = (t - 1) * self.plan.units + (i - 1);
        self.grid[place as usize]
    }

    fn weeks(&self) -> RangeInclusive<u32> {
        1..=self.plan.weeks
    }

    fn units(&self) -> RangeInclusive<u32> {
        1..=self.plan.units
    }

    /// Every unit with every week.
    fn cells(&self) -> impl Iterator<Item = (u32, u32)> + '_ {
        self.units().flat_map(|i| self.weeks().map(move |t| (i, t)))
    }
}

/// The value of a week or unit, which counts from 1.
fn at(values: &[u32], number: u32) -> u32 {
    values[number as usize - 1]
}

fn implies(condition: bool, conclusion: bool) -> bool {
    !condition || conclusion
}
