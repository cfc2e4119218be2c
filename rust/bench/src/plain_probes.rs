//! The walks of an ask of the plain twin: probes at rising ceilings first, which share one budget,
//! then one at its own; from a plan that a probe found the descent to the earliest; and where tries
//! do not suffice for all that, the walk in the file's order.

use crate::plain_free::Free;
use crate::plain_tuning::Tuning;
use crate::plain_walk::{Spent, Walk};

/// The walks to come.
pub struct Probes {
    root: u64,
    first_gap: u64,
    last_gap: u64,
    growth: u64,
    ceiling: u64,
    budget: u32,
    probes: bool,
    any_order: bool,
    free_tries: u32,
    early_tries: u32,
}

/// How a probe ended.
enum Probed {
    /// All was looked through.
    Ended,
    /// The few tries of an early probe did not suffice.
    CutShort,
    /// No tries are left.
    Spent,
}

impl Probes {
    /// The walks of an ask.
    pub fn new(root: u64, ceiling: u32, budget: u32, tuning: &Tuning) -> Self {
        Probes {
            root,
            first_gap: (root / tuning.first_gap).max(1),
            last_gap: root / tuning.last_gap,
            growth: tuning.growth,
            ceiling: u64::from(ceiling),
            budget,
            probes: tuning.probes,
            any_order: tuning.any_order,
            free_tries: tuning.free_tries,
            early_tries: tuning.early_tries,
        }
    }

    /// Walks until one ends with what the ask wants; how the last one ends, and how many there were.
    pub fn run(&self, walk: &mut Walk, free: Option<Free>) -> (Result<(), Spent>, u32) {
        let mut walks = 0;
        let settled = match (self.probes, self.any_order) {
            (false, _) => false,
            (true, false) => self.in_order(walk, &mut walks),
            (true, true) => self.in_any_order(walk, free, &mut walks),
        };
        if settled {
            return (Ok(()), walks);
        }
        (walk.run(self.ceiling + 1, self.budget), walks + 1)
    }

    /// The limits of probes, rising.
    fn limits(&self) -> impl Iterator<Item = u64> + '_ {
        let gaps = std::iter::successors(Some(self.first_gap), |gap| Some(gap * self.growth));
        let gaps = gaps.take_while(|&gap| gap <= self.last_gap && self.root + gap < self.ceiling);
        gaps.map(|gap| self.root + gap + 1)
    }

    /// Probes in the file's order; whether one ended with the ask's plan.
    fn in_order(&self, walk: &mut Walk, walks: &mut u32) -> bool {
        let mut left = self.budget;
        for limit in self.limits() {
            if left == 0 {
                break;
            }
            *walks += 1;
            if walk.run(limit, left).is_err() {
                break;
            }
            if walk.best.is_some() {
                return true;
            }
            left = walk.left;
        }
        false
    }

    /// Probes in any order; whether they ended with the ask's plan, or with none at its ceiling.
    fn in_any_order(&self, walk: &mut Walk, mut free: Option<Free>, walks: &mut u32) -> bool {
        for limit in self.limits() {
            if walk.tries == self.budget {
                break;
            }
            *walks += 1;
            let ended = self.probe(limit, walk, free.is_some());
            if matches!(ended, Probed::CutShort) {
                if self.shows_none(free.take(), walk) {
                    return true;
                }
                *walks += 1;
                if walk.probe(limit, self.left(walk)).is_err() {
                    return false;
                }
            }
            let is_vain = matches!(ended, Probed::Spent) || walk.best.is_none();
            if is_vain && self.free_tries <= walk.tries && self.shows_none(free.take(), walk) {
                return true;
            }
            if matches!(ended, Probed::Spent) {
                return false;
            }
            if walk.best.is_some() {
                return self.descends(walk, walks);
            }
        }
        if walk.tries < self.budget && self.shows_none(free, walk) {
            return true;
        }
        *walks += 1;
        if walk.probe(self.ceiling + 1, self.left(walk)).is_err() {
            return false;
        }
        walk.best.is_none() || self.descends(walk, walks)
    }

    /// The tries that are left to probes and to the descent.
    fn left(&self, walk: &Walk) -> u32 {
        self.budget - walk.tries
    }

    /// Probes with all tries that are left, or with few of them where it is early.
    fn probe(&self, limit: u64, walk: &mut Walk, is_early: bool) -> Probed {
        let left = self.left(walk);
        let is_cut = is_early && self.early_tries < left;
        let tries = if is_cut { self.early_tries } else { left };
        match walk.probe(limit, tries) {
            Ok(()) => Probed::Ended,
            Err(_) if is_cut => Probed::CutShort,
            Err(_) => Probed::Spent,
        }
    }

    /// Whether the free plant, where it was not asked yet, shows that there is no schedule; the walk is
    /// then as one that ended without a plan.
    fn shows_none(&self, free: Option<Free>, walk: &mut Walk) -> bool {
        let is_none = free.is_some_and(|free| free.shows_none());
        if is_none {
            (walk.limit, walk.best) = (self.ceiling + 1, None);
        }
        is_none
    }

    /// Descends to the earliest plan from a cheapest one, which a probe found at its limit; whether the
    /// tries that are left suffice.
    fn descends(&self, walk: &mut Walk, walks: &mut u32) -> bool {
        let Some(plan) = walk.best else {
            return false;
        };
        *walks += 1;
        let cost = walk.limit;
        let earliest = walk.descend(plan, cost, self.left(walk));
        (walk.best, walk.limit) = (earliest, cost);
        earliest.is_some()
    }
}
