//! Walks of the plain twin in any order of units: of those that are left, the one with the fewest
//! open starts is next. They find what the cheapest plan costs; the earliest such plan is then found
//! by a descent, in which each smaller start of each unit is refuted by such a walk.

use crate::plain_file::{File, Unit, Units};
use crate::plain_walk::Walk;

/// What tells the next unit; no answer depends on it.
pub struct Advice {
    /// For each unit the weeks in which it can not be out, with the units that stand.
    shut: [u64; 16],
    /// When each unit that stands was placed.
    turns: [u32; 16],
    /// Whether the first plan ends the walk.
    stops: bool,
}

/// Why a walk ended before all was looked through.
pub enum Stop {
    /// The tries are used up.
    Spent,
    /// There is a plan.
    Plan,
}

impl Advice {
    /// With nobody out: the weeks that want a unit for their demand.
    pub fn new(file: &File) -> Self {
        let all: u64 = file.units.iter().map(|unit| unit.capacity).sum();
        let mut shut = [0; 16];
        for (shut, unit) in shut.iter_mut().zip(&file.units) {
            for (week, &demand) in file.demand.iter().enumerate() {
                *shut |= u64::from(all < demand + unit.capacity) << week;
            }
        }
        Advice {
            shut,
            turns: [0; 16],
            stops: false,
        }
    }
}

impl Walk<'_> {
    /// Walks in any order, with so many tries, until no schedule below the limit is left.
    pub fn probe(&mut self, limit: u64, tries: u32) -> Result<(), Stop> {
        self.advice.stops = false;
        if let Some(bound) = self.begin(limit, tries) {
            self.place_any(bound)?;
        }
        Ok(())
    }

    /// Tries the starts of some unit in turn, where others stand at this bound; the units to blame.
    fn place_any(&mut self, bound: u64) -> Result<Units, Stop> {
        let unit = self.choose(bound);
        let Unit { first, last, .. } = self.file.units[unit];
        let mut blame = 0;
        for start in first..=last {
            self.starts[unit] = start;
            let units = self.try_any(unit, bound)?;
            if units >> unit & 1 == 0 {
                return Ok(units);
            }
            blame |= units & !(1 << unit);
        }
        self.note(blame);
        Ok(blame)
    }

    /// Notes a dead end under the unit that was placed last.
    fn note(&mut self, blame: Units) {
        let units = (0..16).filter(|unit| blame >> unit & 1 == 1);
        if let Some(last) = units.max_by_key(|&unit: &usize| self.advice.turns[unit]) {
            self.notes.add(&self.starts, blame, last, self.limit);
        }
    }

    /// Tries a unit's start, and places a further unit where it holds; the units to blame.
    fn try_any(&mut self, unit: usize, bound: u64) -> Result<Units, Stop> {
        if !self.count_try() {
            return Err(Stop::Spent);
        }
        if let Some(units) = self.recall(unit) {
            return Ok(units);
        }
        let (kept, shut) = (self.kept(), self.advice.shut);
        let ended = match self.put_out_any(unit, bound) {
            Ok(bound) => self.go_on_any(bound),
            Err(units) => Ok(units),
        };
        self.put_back(unit, kept);
        self.advice.shut = shut;
        ended
    }

    /// Puts a unit out in the weeks of its overhaul, and shuts these for others where it holds.
    fn put_out_any(&mut self, unit: usize, bound: u64) -> Result<u64, Units> {
        self.advice.turns[unit] = self.placed.count_ones();
        let bound = self.put_out(unit, bound)?;
        for week in self.file.units[unit].weeks_from(self.starts[unit]) {
            self.shut_week(week);
        }
        Ok(bound)
    }

    /// Shuts a week for the units that do not stand and can not be out of it.
    fn shut_week(&mut self, week: usize) {
        let (out, demand) = (self.rows[week].out, self.file.demand[week]);
        let is_full = self.rows[week].count == self.file.crews;
        let partners = self.file.partners_of(out);
        let stay = self.file.units.iter().enumerate();
        let stay = stay.filter(|(unit, _)| out >> unit & 1 == 0);
        let room: u64 = stay.map(|(_, unit)| unit.capacity).sum();
        for (unit, of_unit) in self.file.units.iter().enumerate() {
            let is_short = room < demand + of_unit.capacity;
            let is_shut = is_full || partners >> unit & 1 == 1 || is_short;
            if self.placed >> unit & 1 == 0 && is_shut {
                self.advice.shut[unit] |= 1 << week;
            }
        }
    }

    /// Places a further unit; where all stand, their starts are weighed.
    fn go_on_any(&mut self, bound: u64) -> Result<Units, Stop> {
        if (self.placed.count_ones() as usize) < self.file.units.len() {
            return self.place_any(bound);
        }
        let before = self.limit;
        let blame = self.weigh_all(bound);
        if self.advice.stops && self.limit < before {
            return Err(Stop::Plan);
        }
        Ok(blame)
    }

    /// The unit with the fewest open starts, then the longest, then the first; at once one that has
    /// none.
    fn choose(&self, bound: u64) -> usize {
        let (mut chosen, mut fewest) = (0, (u32::MAX, 0));
        for (unit, of_unit) in self.file.units.iter().enumerate() {
            if self.placed >> unit & 1 == 1 {
                continue;
            }
            let count = self.open_starts(unit, bound);
            if count == 0 {
                return unit;
            }
            let key = (count, 52 - of_unit.duration);
            if key < fewest {
                (chosen, fewest) = (unit, key);
            }
        }
        chosen
    }

    /// How many starts of a unit keep the bound below what is too much and meet no week that is shut.
    fn open_starts(&self, unit: usize, bound: u64) -> u32 {
        let of_unit = &self.file.units[unit];
        let shut = self.advice.shut[unit];
        let meets = (1..of_unit.duration).fold(shut, |meets, week| meets | shut >> week);
        let room = self.too_much() - bound;
        let open = |&start: &u8| meets >> (start - 1) & 1 == 0 && self.excess(unit, start) < room;
        (of_unit.first..=of_unit.last).filter(open).count() as u32
    }

    /// The earliest plan that costs as much as a plan than which none is cheaper, with so many tries;
    /// none where these do not suffice.
    pub fn descend(&mut self, plan: [u8; 16], cost: u64, tries: u32) -> Option<[u8; 16]> {
        let shut = self.advice.shut;
        let mut bound = self.begin(cost + 1, tries)?;
        self.advice.stops = true;
        self.best = Some(plan);
        let lowered = (0..self.file.units.len()).try_for_each(|unit| {
            bound = self.lower(unit, cost, bound)?;
            Some(())
        });
        self.put_back_all();
        self.advice.shut = shut;
        lowered.and(self.best)
    }

    /// Finds the first start of a unit that a plan of the cost has, with the units before it as they
    /// stand, and places the unit there; the bound then.
    fn lower(&mut self, unit: usize, cost: u64, bound: u64) -> Option<u64> {
        for start in self.file.units[unit].first.. {
            self.starts[unit] = start;
            if !self.count_try() {
                return None;
            }
            let is_own = self.best?[unit] == start;
            if !is_own && self.recall(unit).is_some() {
                continue;
            }
            let (kept, shut) = (self.kept(), self.advice.shut);
            let held = self.put_out_any(unit, bound);
            if is_own {
                return held.ok();
            }
            if let Ok(bound) = held {
                let ended = self.go_on_any(bound);
                self.limit = cost + 1;
                match ended {
                    Err(Stop::Plan) => return Some(bound),
                    Err(Stop::Spent) => return None,
                    Ok(_) => {}
                }
            }
            self.put_back(unit, kept);
            self.advice.shut = shut;
        }
        None
    }
}
