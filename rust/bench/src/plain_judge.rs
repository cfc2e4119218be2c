//! The plain twin of the judge, as one would write it in Rust for speed and clarity, without
//! proofs: the file by the plain reader, then the grid's bytes, then the formulas in order up to
//! the first that is broken.

use crate::plain::{self, VALUE};
use reference::{Judgement, Refusal, MAINT, ON};

/// The judgement on a grid of a plan file's words.
#[inline(never)]
pub fn judge(words: &[u32], grid: &[u8]) -> Judgement {
    match tested(words, grid) {
        Err(refusal) => Judgement::Rejected(refusal),
        Ok(file) => match file.broken(grid) {
            Some(number) => Judgement::Breaks(number),
            None => Judgement::Sound(file.cost(grid)),
        },
    }
}

/// The file, where it is accepted and the grid has a state for each of its cells.
fn tested<'a>(words: &'a [u32], grid: &[u8]) -> Result<File<'a>, Refusal> {
    plain::read(words)?;
    let file = File::of(words);
    if grid.len() != file.maint.len() {
        return plain::refuse(11, 0);
    }
    match grid.iter().position(|&state| state > MAINT) {
        Some(place) => plain::refuse(12, place),
        None => Ok(file),
    }
}

/// The parts of an accepted file.
struct File<'a> {
    crews: u32,
    demands: &'a [u32],
    units: Vec<Unit>,
    maint: &'a [u32],
    running: &'a [u32],
    /// No word where the file leaves OFF costs out.
    off: &'a [u32],
    pairs: &'a [u32],
}

struct Unit {
    capacity: u64,
    earliest: u32,
    latest: u32,
    duration: u32,
}

/// The weeks, from 1, in which a unit is MAINT: the first, the last, and how many.
#[derive(Clone, Copy, Default)]
struct Outage {
    first: u32,
    last: u32,
    weeks: u32,
}

impl<'a> File<'a> {
    fn of(words: &'a [u32]) -> Self {
        let (weeks, units) = (value(words[0]) as usize, value(words[1]) as usize);
        let (demands, rest) = words[3..].split_at(weeks);
        let (triples, rest) = rest.split_at(3 * units);
        let (maint, rest) = rest.split_at(weeks * units);
        let (running, rest) = rest.split_at(weeks * units);
        let (off, rest) = plain::split_off(rest, weeks * units);
        File {
            crews: value(words[2]),
            demands,
            units: triples.chunks_exact(3).map(Unit::of).collect(),
            maint,
            running,
            off,
            pairs: &rest[..rest.len() - 1],
        }
    }

    /// The smallest number among the formulas (1) to (8) that are broken.
    fn broken(&self, grid: &[u8]) -> Option<u32> {
        if self.falls_short(grid) {
            return Some(1);
        }
        let outages = self.outages(grid);
        let any = |breaks: fn(&Unit, &Outage) -> bool| {
            let mut units = self.units.iter().zip(&outages);
            units.any(|(unit, outage)| breaks(unit, outage))
        };
        if any(|unit, outage| outage.weeks > 0 && outage.first < unit.earliest) {
            return Some(2);
        }
        if any(|unit, outage| outage.weeks > 0 && outage.last >= unit.latest + unit.duration) {
            return Some(3);
        }
        if any(|_, outage| outage.weeks > 0 && outage.span() != outage.weeks) {
            return Some(4);
        }
        if any(|unit, outage| outage.weeks > 0 && outage.span() != unit.duration) {
            return Some(5);
        }
        if any(|_, outage| outage.weeks == 0) {
            return Some(6);
        }
        let out = self.out(grid);
        if out.iter().any(|out| out.count_ones() > self.crews) {
            return Some(7);
        }
        if self.clashes(&out) {
            return Some(8);
        }
        None
    }

    /// Formula (1) is broken: in some week the units that are ON give less than the demand.
    fn falls_short(&self, grid: &[u8]) -> bool {
        let mut weeks = grid.chunks_exact(self.units.len()).zip(self.demands);
        weeks.any(|(row, &demand)| {
            let on = row
                .iter()
                .zip(&self.units)
                .filter(|(&state, _)| state == ON);
            let output: u64 = on.map(|(_, unit)| unit.capacity).sum();
            output < u64::from(value(demand))
        })
    }

    /// Each unit's outage, all 0 where it has none.
    fn outages(&self, grid: &[u8]) -> Vec<Outage> {
        let mut outages = vec![Outage::default(); self.units.len()];
        for (week, row) in (1..).zip(grid.chunks_exact(self.units.len())) {
            for (outage, &state) in outages.iter_mut().zip(row) {
                if state == MAINT {
                    outage.add(week);
                }
            }
        }
        outages
    }

    /// The set of units that are MAINT in each week, as bits.
    fn out(&self, grid: &[u8]) -> Vec<u32> {
        let bit = |(unit, &state): (u32, &u8)| u32::from(state == MAINT) << unit;
        grid.chunks_exact(self.units.len())
            .map(|row| (0..).zip(row).map(bit).sum())
            .collect()
    }

    /// Formula (8) is broken: in some week a unit is MAINT, and so is one of its partners.
    fn clashes(&self, out: &[u32]) -> bool {
        let partners = self.partners();
        let clash =
            |out: u32| (0..16).any(|unit| out >> unit & 1 == 1 && partners[unit] & out != 0);
        out.iter().any(|&out| out != 0 && clash(out))
    }

    /// The units that form an excluded pair with each unit, as bits.
    fn partners(&self) -> [u32; 16] {
        let mut partners = [0; 16];
        for &pair in self.pairs {
            let (a, b) = (value(pair) / 32 - 1, value(pair) % 32 - 1);
            partners[a as usize] |= 1 << b;
            partners[b as usize] |= 1 << a;
        }
        partners
    }

    /// Formula (9).
    fn cost(&self, grid: &[u8]) -> u64 {
        let cost = |(cell, &state): (usize, &u8)| match state {
            MAINT => value(self.maint[cell]),
            ON => value(self.running[cell]),
            _ => self.off.get(cell).map_or(0, |&cost| value(cost)),
        };
        let cells = grid.iter().enumerate();
        cells.map(|cell| u64::from(cost(cell))).sum()
    }
}

impl Unit {
    /// The unit of a capacity, a window and a duration.
    fn of(triple: &[u32]) -> Self {
        Unit {
            capacity: u64::from(value(triple[0])),
            earliest: value(triple[1]) / 64,
            latest: value(triple[1]) % 64,
            duration: value(triple[2]),
        }
    }
}

impl Outage {
    fn add(&mut self, week: u32) {
        if self.weeks == 0 {
            self.first = week;
        }
        self.last = week;
        self.weeks += 1;
    }

    /// The weeks from the first to the last.
    fn span(&self) -> u32 {
        self.last - self.first + 1
    }
}

fn value(word: u32) -> u32 {
    word & VALUE
}

#[cfg(test)]
mod tests {
    use super::judge;
    use agree::{
        all_grids, breaches, edited, edited_grid, random_scheduled, staggered, together, Random,
    };
    use reference::{encode, example_a_words, Judgement};

    fn check(words: &[u32], grid: &[u8], seed: u64) {
        let expected = reference::judge(words, grid);
        assert_eq!(judge(words, grid), expected, "seed {seed}");
    }

    #[test]
    fn agrees_on_all_grids_of_file_a() {
        let sound = all_grids(6).filter(|grid| {
            check(&example_a_words(), grid, 0);
            matches!(judge(&example_a_words(), grid), Judgement::Sound(_))
        });
        assert!(sound.count() > 0);
    }

    #[test]
    fn agrees_on_random_grids_and_files() {
        for seed in 0..3000 {
            let mut random = Random::seeded(seed);
            let scheduled = random_scheduled(&mut random, 10, 8);
            let (words, sound) = (encode(&scheduled.plan), scheduled.grid());
            let grid = edited_grid(sound.clone(), &scheduled.plan, &mut random);
            let damaged = edited(&words, &scheduled.plan, &mut random);
            check(&words, &sound, seed);
            check(&words, &grid, seed);
            check(&damaged, &grid, seed);
            check(&words, &random.bytes(sound.len()), seed);
            check(&words, &sound[1..], seed);
        }
    }

    #[test]
    fn agrees_where_one_formula_is_broken() {
        let small = (0..50).map(|seed| random_scheduled(&mut Random::seeded(seed), 7, 5));
        for scheduled in small.chain([staggered(), together()]) {
            for number in 1..=8 {
                for (plan, grid) in breaches(number, &scheduled) {
                    check(&encode(&plan), &grid, 0);
                }
            }
        }
    }
}
