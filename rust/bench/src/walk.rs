//! A small walk over the starts of an instance's units, for the queries that it asks in turn. It is
//! no planner: units are placed in order, starts rise, and a try is cut by pairs, crews, and the
//! plain bound alone.

use crate::plain_week::{self, NO_RUN};
use agree::query;
use reference::{encode, permitted_starts, upkeep, Plan};
use std::collections::HashMap;

/// The first queries, at most `most`, of a walk under a ceiling of 3 % above its first bound.
pub fn queries(plan: &Plan, most: usize) -> Vec<u32> {
    let mut walk = Walk::new(plan, most);
    let mut row = Row {
        out: [0; 52],
        costs: [0; 52],
    };
    let mut bound = walk.least.iter().sum();
    for week in 0..plan.weeks as usize {
        row.costs[week] = walk.ask(week, 0).unwrap_or(0);
        bound += row.costs[week];
    }
    walk.ceiling = bound + bound * 3 / 100;
    walk.place(0, &row, bound);
    walk.asked
}

/// The units out of each week, and what its cheapest run costs. Weeks count from 0.
#[derive(Clone, Copy)]
struct Row {
    out: [u32; 52],
    costs: [u64; 52],
}

struct Walk<'a> {
    plan: &'a Plan,
    words: Vec<u32>,
    /// What each unit's overhaul costs at least.
    least: Vec<u64>,
    /// The units that form an excluded pair with each unit.
    partners: [u32; 16],
    ceiling: u64,
    known: HashMap<u32, u32>,
    asked: Vec<u32>,
    most: usize,
}

impl<'a> Walk<'a> {
    fn new(plan: &'a Plan, most: usize) -> Self {
        let costs = |unit| {
            let starts = permitted_starts(plan, unit).into_iter();
            starts.filter_map(move |start| upkeep(plan, unit, start as usize))
        };
        let mut partners = [0; 16];
        for &(a, b) in &plan.pairs {
            partners[a as usize - 1] |= 1 << (b - 1);
            partners[b as usize - 1] |= 1 << (a - 1);
        }
        Walk {
            plan,
            words: encode(plan),
            least: (1..=plan.units as usize)
                .map(|unit| costs(unit).min().unwrap_or(0))
                .collect(),
            partners,
            ceiling: 0,
            known: HashMap::new(),
            asked: vec![],
            most,
        }
    }

    /// Tries the starts of a unit, which counts from 0, in turn; the units before it stand.
    fn place(&mut self, unit: usize, row: &Row, bound: u64) {
        if unit == self.plan.units as usize {
            self.ceiling = bound.saturating_sub(1);
            return;
        }
        for start in permitted_starts(self.plan, unit + 1) {
            if self.asked.len() == self.most {
                return;
            }
            self.attempt(unit, start as usize, *row, bound);
        }
    }

    /// Tries one start, and goes on to the next unit where it holds.
    fn attempt(&mut self, unit: usize, start: usize, mut row: Row, bound: u64) {
        let weeks = start - 1..start - 1 + self.plan.duration[unit] as usize;
        if weeks
            .clone()
            .any(|week| self.is_closed(unit, row.out[week]))
        {
            return;
        }
        let cost = upkeep(self.plan, unit + 1, start).expect("the start is permitted");
        let mut bound = bound + cost - self.least[unit];
        for week in weeks {
            if bound > self.ceiling || self.asked.len() == self.most {
                return;
            }
            row.out[week] |= 1 << unit;
            let Some(cost) = self.ask(week, row.out[week]) else {
                return;
            };
            // with OFF costs a week may be cheaper with one more unit out
            bound = bound + cost - row.costs[week];
            row.costs[week] = cost;
        }
        if bound <= self.ceiling {
            self.place(unit + 1, &row, bound);
        }
    }

    /// Whether crews or pairs keep a unit from going out beside others.
    fn is_closed(&self, unit: usize, out: u32) -> bool {
        out.count_ones() == self.plan.crews || self.partners[unit] & out != 0
    }

    /// What the cheapest run costs; none where there is no run. The query is noted.
    fn ask(&mut self, week: usize, out: u32) -> Option<u64> {
        let asked = query(week as u32 + 1, out);
        self.asked.push(asked);
        let words = &self.words;
        let cost = *self.known.entry(asked).or_insert_with(|| {
            let mut cost = [0];
            plain_week::week_costs(words, &[asked], &mut cost).expect("the file is accepted");
            cost[0]
        });
        (cost != NO_RUN).then_some(u64::from(cost))
    }
}

#[cfg(test)]
mod tests {
    use super::queries;
    use crate::generated::Scheme;
    use agree::query;

    /// The weeks with nobody out come first, then unit 1 alone from the first start on; no query
    /// has more units out than there are crews.
    #[test]
    fn a_walk_asks_as_many_queries_as_it_may_in_its_order() {
        let plan = Scheme::default().plan();
        let asked = queries(&plan, 5000);
        let first: Vec<u32> = (1..=13).map(|week| query(week, 0)).collect();
        assert_eq!(asked.len(), 5000);
        assert_eq!(asked[..13], first);
        assert_eq!(asked[13], query(1, 1));
        let out = |query: &u32| (query % 65_536).count_ones();
        assert_eq!(asked.iter().map(out).max(), Some(3));
        assert_eq!(queries(&plan, 100), asked[..100]);
    }
}
