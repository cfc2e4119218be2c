//! The plain twin of the cheapest runs, as one would write it in Rust for speed and clarity,
//! without proofs: the file by the plain reader, then for each query the search that the proved
//! code makes. Beside it stands the scan of all runs, which the search is to save.
//!
//! A run's score is its cost × 65,536 + its number, so the least score is that of the cheapest run,
//! among equals of the smallest number. The cost is the full one, with OFF charged to the units out
//! too: by so much it is more for every run.
//!
//! Units that cost less running than OFF are in every cheapest run. Of the others those are sought
//! that cover what is needed yet at least weight, which is what a unit adds to the score.

use crate::plain::{self, VALUE};
use reference::Refusal;

/// The cost that stands for no run.
pub const NO_RUN: u32 = 1 << 28;
/// The numbers of runs, and so what a euro adds to the score.
const NUMBERS: u64 = 1 << 16;
/// The score that stands for no run, and the weight that stands for no cover.
const NO_SCORE: u64 = NO_RUN as u64 * NUMBERS;

/// Writes what the cheapest runs cost that the queries ask for, each by a search; the refusal of
/// the file, or 17.
#[inline(never)]
pub fn week_costs(words: &[u32], queries: &[u32], costs: &mut [u32]) -> Result<(), Refusal> {
    write_costs(words, queries, costs, Week::search)
}

/// Writes the same, each by a scan of all runs.
#[inline(never)]
pub fn scanned_costs(words: &[u32], queries: &[u32], costs: &mut [u32]) -> Result<(), Refusal> {
    write_costs(words, queries, costs, Week::scan)
}

/// The cheapest run that a query on an accepted file asks for, by a search: its full cost and its
/// number; none where there is no run, or no such week.
pub fn cheapest(words: &[u32], query: u32) -> Option<(u32, u32)> {
    let score = Week::of(words, query)?.search();
    let run = ((score / NUMBERS) as u32, (score % NUMBERS) as u32);
    (score < NO_SCORE).then_some(run)
}

fn write_costs(
    words: &[u32],
    queries: &[u32],
    costs: &mut [u32],
    least: impl Fn(&Week) -> u64,
) -> Result<(), Refusal> {
    plain::read(words)?;
    if costs.len() < queries.len() {
        return plain::refuse(17, 0);
    }
    for (cost, &query) in costs.iter_mut().zip(queries) {
        let week = Week::of(words, query);
        *cost = week.map_or(NO_RUN, |week| week.net_cost(least(&week)));
    }
    Ok(())
}

/// A week of an accepted file and the units out of it.
pub struct Week {
    /// What is to be met.
    pub demand: u64,
    units: usize,
    out: u32,
    /// What each unit gives.
    pub capacity: [u64; 16],
    /// What it costs running.
    pub running: [u64; 16],
    /// What it costs OFF.
    pub off: [u64; 16],
}

impl Week {
    /// The week and the units out of a query, where the file has that week.
    pub fn of(words: &[u32], query: u32) -> Option<Self> {
        let (weeks, units) = (value(words[0]) as usize, value(words[1]) as usize);
        let week = (query as usize >> 16).checked_sub(1)?;
        if week >= weeks {
            return None;
        }
        let (cells, first) = (weeks * units, week * units);
        let triples = &words[3 + weeks..];
        let running = &triples[3 * units + cells..];
        let (all_off, _) = plain::split_off(&running[cells..], cells);
        let mut found = Week {
            demand: value(words[3 + week]),
            units,
            out: query & 0xFFFF,
            capacity: [0; 16],
            running: [0; 16],
            off: [0; 16],
        };
        for unit in 0..units {
            found.capacity[unit] = value(triples[3 * unit]);
            found.running[unit] = value(running[first + unit]);
        }
        if let Some(off) = all_off.get(first..first + units) {
            let costs = found.off.iter_mut().zip(off);
            costs.for_each(|(cost, &word)| *cost = u64::from(word));
        }
        Some(found)
    }

    /// What a score's run costs with nothing charged to the units out.
    fn net_cost(&self, score: u64) -> u32 {
        if score == NO_SCORE {
            return NO_RUN;
        }
        let out = (0..self.units).filter(|&unit| has(self.out, unit));
        let off = out.map(|unit| self.off[unit]).sum::<u64>();
        (score / NUMBERS - off) as u32
    }

    /// The score of a run.
    fn score(&self, run: u32) -> u64 {
        let cost = |unit| match has(run, unit) {
            true => self.running[unit],
            false => self.off[unit],
        };
        (0..self.units).map(cost).sum::<u64>() * NUMBERS + u64::from(run)
    }

    /// The units that are not out and cost less running than OFF.
    fn thrifty(&self) -> u32 {
        let is_thrifty =
            |&unit: &usize| !has(self.out, unit) && self.running[unit] < self.off[unit];
        (0..self.units)
            .filter(is_thrifty)
            .fold(0, |run, unit| run | 1 << unit)
    }

    /// The least score of a run that meets the demand, by a search for a cover.
    fn search(&self) -> u64 {
        let own = self.thrifty();
        let cover = Cover::new(self, own);
        match Search::new(&cover).least() {
            NO_SCORE => NO_SCORE,
            weight => self.score(own) + weight,
        }
    }

    /// The least score of a run that meets the demand, over all runs: each differs from the one
    /// before in one unit, which is taken in or out.
    fn scan(&self) -> u64 {
        let (mut run, mut output, mut score) = (0u32, 0, self.score(0));
        let mut least = if self.demand == 0 { score } else { NO_SCORE };
        for step in 1u32..1 << self.units {
            let unit = step.trailing_zeros() as usize;
            let (on, off) = (
                self.running[unit] * NUMBERS + (1 << unit),
                self.off[unit] * NUMBERS,
            );
            run ^= 1 << unit;
            if has(run, unit) {
                output += self.capacity[unit];
                score = score - off + on;
            } else {
                output -= self.capacity[unit];
                score = score - on + off;
            }
            if output >= self.demand && run & self.out == 0 && score < least {
                least = score;
            }
        }
        least
    }
}

/// What is sought beside the units that are in anyway.
struct Cover {
    /// What is needed yet.
    need: u64,
    units: usize,
    /// The units that are no choice: out, or in.
    settled: u32,
    capacity: [u64; 16],
    weight: [u64; 16],
}

impl Cover {
    /// The cover that a week wants beside its own units.
    fn new(week: &Week, own: u32) -> Self {
        let (mut need, mut weight) = (week.demand, [0; 16]);
        for (unit, weight) in weight.iter_mut().enumerate().take(week.units) {
            if has(own, unit) {
                need = need.saturating_sub(week.capacity[unit]);
            }
            let more = week.running[unit].saturating_sub(week.off[unit]);
            *weight = more * NUMBERS + (1 << unit);
        }
        Cover {
            need,
            units: week.units,
            settled: week.out | own,
            capacity: week.capacity,
            weight,
        }
    }
}

/// The search for the least weight, from the last unit to the first.
struct Search<'a> {
    cover: &'a Cover,
    /// What a kilogram is worth; any figure gives a sound bound.
    rate: u64,
    /// The capacity of the units below each that are a choice.
    room: [u64; 17],
    /// What those of them are worth more than they weigh, at the rate.
    gain: [u64; 17],
    /// The least weight so far.
    best: u64,
}

impl<'a> Search<'a> {
    fn new(cover: &'a Cover) -> Self {
        let (best, rate) = greedy(cover);
        let (mut room, mut gain) = ([0; 17], [0; 17]);
        for unit in 0..cover.units {
            let (mut more, mut worth) = (0, 0);
            if !has(cover.settled, unit) {
                more = cover.capacity[unit];
                worth = (rate * more).saturating_sub(cover.weight[unit]);
            }
            room[unit + 1] = room[unit] + more;
            gain[unit + 1] = gain[unit] + worth;
        }
        Search {
            cover,
            rate,
            room,
            gain,
            best,
        }
    }

    fn least(mut self) -> u64 {
        self.walk(self.cover.units, self.cover.need, 0);
        self.best
    }

    /// Tries the sets of the first `units` units that meet what is needed yet, beside those chosen
    /// above them at this weight.
    fn walk(&mut self, units: usize, need: u64, weight: u64) {
        let fails = self.best <= weight || self.room[units] < need;
        if fails || self.best + self.gain[units] <= weight + self.rate * need {
            return;
        }
        if units == 0 {
            self.best = weight;
            return;
        }
        let last = units - 1;
        self.walk(last, need, weight);
        if !has(self.cover.settled, last) {
            let rest = need.saturating_sub(self.cover.capacity[last]);
            self.walk(last, rest, weight + self.cover.weight[last]);
        }
    }
}

/// A first cover: the units that weigh least for a kilogram, until they meet what is needed. Its
/// weight, or that of none where all fall short; and what a kilogram of the last one weighs.
fn greedy(cover: &Cover) -> (u64, u64) {
    let (mut taken, mut output, mut weight, mut rate) = (cover.settled, 0, 0, 0);
    while output < cover.need {
        let left = |&unit: &usize| cover.capacity[unit] > 0 && !has(taken, unit);
        let lighter = |&a: &usize, &b: &usize| {
            (cover.weight[a] * cover.capacity[b]).cmp(&(cover.weight[b] * cover.capacity[a]))
        };
        let Some(unit) = (0..cover.units).filter(left).min_by(lighter) else {
            return (NO_SCORE, rate);
        };
        taken |= 1 << unit;
        output += cover.capacity[unit];
        weight += cover.weight[unit];
        rate = cover.weight[unit] / cover.capacity[unit];
    }
    (weight, rate)
}

/// Whether a set has a unit.
fn has(set: u32, unit: usize) -> bool {
    set >> unit & 1 == 1
}

fn value(word: u32) -> u64 {
    u64::from(word & VALUE)
}

#[cfg(test)]
mod tests {
    use super::{scanned_costs, week_costs};
    use agree::{all_queries, edited, query, random_queries, tied_plan, Random};
    use reference::{encode, Refusal};

    /// Panics unless the search and the scan give the reference's costs, and keep those beyond.
    fn check(words: &[u32], queries: &[u32], lent: usize, seed: u64) {
        let expected = reference::week_costs(words, queries, lent);
        let (mut searched, mut scanned) = (vec![7; lent], vec![7; lent]);
        let verdict = expected.clone().map(|_| ());
        let answers = [
            week_costs(words, queries, &mut searched),
            scanned_costs(words, queries, &mut scanned),
        ];
        let mut after = vec![7; lent];
        if let Ok(costs) = expected {
            after[..costs.len()].copy_from_slice(&costs);
        }
        assert_eq!(answers, [verdict; 2], "seed {seed}");
        assert_eq!(searched, after, "seed {seed}");
        assert_eq!(scanned, after, "seed {seed}");
    }

    #[test]
    fn agrees_on_every_set_out_of_small_files() {
        for seed in 0..400 {
            let (units, weeks) = (seed as u32 % 8 + 1, seed as u32 / 8 % 3 + 1);
            let plan = tied_plan(&mut Random::seeded(seed), weeks, units);
            let queries = all_queries(&plan);
            check(&encode(&plan), &queries, queries.len() + 1, seed);
        }
    }

    #[test]
    fn agrees_on_some_sets_out_of_files_of_16_units() {
        for seed in 0..20 {
            let mut random = Random::seeded(seed);
            let plan = tied_plan(&mut random, 5, 16);
            let few = |random: &mut Random| random.word() & random.word() & 0xFFFF;
            let queries = [0; 3].map(|_| query(random.within(1, 5), few(&mut random)));
            check(&encode(&plan), &queries, 3, seed);
        }
    }

    #[test]
    fn agrees_on_edited_files_and_where_costs_are_too_few() {
        for seed in 0..2000 {
            let mut random = Random::seeded(seed);
            let plan = tied_plan(&mut random, 3, 4);
            let words = edited(&encode(&plan), &plan, &mut random);
            let queries = random_queries(&plan, 5, &mut random);
            check(&words, &queries, random.within(4, 6) as usize, seed);
            check(&encode(&plan), &queries, random.within(4, 6) as usize, seed);
        }
        let words = encode(&tied_plan(&mut Random::seeded(0), 3, 4));
        let refusal = Refusal {
            number: 17,
            place: 0,
        };
        assert_eq!(week_costs(&words, &[65_536], &mut []), Err(refusal));
    }
}
