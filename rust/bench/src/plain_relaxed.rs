//! A week on its own, as the plain twin values it: with some units out that stand, and whichever
//! others are best out of it at given prices, as far as crews and pairs allow.

use crate::plain_file::{File, Units};
use crate::plain_memo::Memo;
use crate::plain_places::charged;
use crate::plain_states;
use crate::plain_tuning::Tuning;

/// The most units, and the places of a week in a list of prices.
pub const UNITS: usize = 16;
/// How many prices there are: week × 16 + unit.
pub const PRICES: usize = 52 * UNITS;

/// A choice of units out: what the week's run costs, with OFF charged to the units out too, and the
/// prices of the others, together.
#[derive(Clone, Copy)]
pub struct Choice {
    /// That sum.
    pub value: u64,
    /// The units out.
    pub out: Units,
}

/// What is known of the weeks of a run: those with too many sets to look at each, and the nodes that
/// the searches of price rounds have used.
#[derive(Clone, Copy, Default)]
pub struct Weeks {
    hard: u64,
    nodes: u64,
}

impl Weeks {
    /// A week's least choice in price rounds, with nobody out that stands; a lower bound where nodes
    /// run out, none where it has no run.
    pub fn in_rounds(
        &mut self,
        file: &File,
        prices: &[u32; PRICES],
        memo: &mut Memo,
        tuning: &Tuning,
        week: usize,
    ) -> Option<Choice> {
        let run = memo.full_cost(week, 0)?;
        let prices = &prices[week * UNITS..][..UNITS];
        let is_short = tuning.pool * file.weeks as u64 <= self.nodes;
        let nodes = match is_short {
            true => tuning.short_nodes,
            false => tuning.round_nodes,
        };
        let sets = match is_short {
            true => 0,
            false => self.sets(tuning, week),
        };
        let effort = Effort { sets, nodes };
        let (choice, left) = least_choice(file, prices, memo, week, (run, 0), effort);
        self.nodes += u64::from(nodes - left.nodes);
        self.hard |= u64::from(sets > 0 && left.sets == 0) << week;
        Some(choice)
    }

    /// A week's value with these units out; a lower bound where nodes run out, none where it has no
    /// run.
    pub fn in_walks(
        &self,
        file: &File,
        prices: &[u32; PRICES],
        memo: &mut Memo,
        tuning: &Tuning,
        week: usize,
        out: Units,
    ) -> Option<u64> {
        let run = memo.full_cost(week, out)?;
        let prices = &prices[week * UNITS..][..UNITS];
        let effort = Effort {
            sets: self.sets(tuning, week),
            nodes: tuning.nodes(out),
        };
        let (choice, _) = least_choice(file, prices, memo, week, (run, out), effort);
        Some(choice.value)
    }

    /// How many sets are looked at.
    fn sets(&self, tuning: &Tuning, week: usize) -> u32 {
        if self.is_hard(week) {
            return 0;
        }
        tuning.sets
    }

    /// Whether a week has too many sets to look at each.
    fn is_hard(&self, week: usize) -> bool {
        self.hard >> week & 1 == 1
    }

    /// Whether a value of price rounds may be another one in walks.
    pub fn is_rough(&self, file: &File, tuning: &Tuning, week: usize) -> bool {
        self.is_hard(week) || tuning.pool * file.weeks as u64 <= self.nodes
    }
}

/// What may be spent on a week, or what is left of it.
#[derive(Clone, Copy)]
struct Effort {
    /// How many sets may be looked at.
    sets: u32,
    /// How many nodes there may be where these are too few.
    nodes: u32,
}

/// The least choice for a week that has these units out, whose run costs so much, and what is left of the
/// effort: just these where no crew is left, else by sets, and where these are too many, or come to
/// nothing, by states.
fn least_choice(
    file: &File,
    prices: &[u32],
    memo: &mut Memo,
    week: usize,
    (run, out): (u64, Units),
    effort: Effort,
) -> (Choice, Effort) {
    let own = Choice {
        value: run + prices_below(prices, out)[file.units.len()],
        out,
    };
    if file.crews <= out.count_ones() {
        return (own, effort);
    }
    let Effort { sets, nodes } = effort;
    let (choice, sets) = by_sets(file, prices, memo, week, (run, out), sets);
    if let Some(choice) = choice.filter(|choice| choice.value > 0) {
        return (choice, Effort { sets, nodes });
    }
    let week = charged(file, week, out);
    let (choice, nodes) = plain_states::least(file, &week, prices, own, nodes);
    (choice, Effort { sets: 0, nodes })
}

/// The least choice for a week that has these units out, whose run costs so much, by a look at each set
/// that may be out, and how many sets could be looked at yet; none where these are too many.
fn by_sets(
    file: &File,
    prices: &[u32],
    memo: &mut Memo,
    week: usize,
    (run, out): (u64, Units),
    sets: u32,
) -> (Option<Choice>, u32) {
    let Some(sets) = sets.checked_sub(1) else {
        return (None, 0);
    };
    let left = prices_below(prices, out);
    let rest = left[file.units.len()];
    let mut search = Search {
        file,
        week,
        prices,
        left,
        memo,
        sets,
    };
    let first = Choice {
        value: run + rest,
        out,
    };
    let more = More {
        below: file.units.len(),
        count: out.count_ones(),
        bar: file.partners_of(out),
        run,
        rest,
        out,
    };
    let choice = search.least(more, first);
    (choice, search.sets)
}

/// For each unit the prices of those before it that are not out.
fn prices_below(prices: &[u32], out: Units) -> [u64; UNITS + 1] {
    let mut left = [0; UNITS + 1];
    for unit in 0..UNITS {
        let is_out = out >> unit & 1 == 1;
        left[unit + 1] = left[unit] + if is_out { 0 } else { u64::from(prices[unit]) };
    }
    left
}

/// The search for a week's least choice.
struct Search<'a, 'b, 'c> {
    file: &'a File<'b>,
    week: usize,
    prices: &'a [u32],
    left: [u64; UNITS + 1],
    memo: &'a mut Memo<'c>,
    /// How many sets may still be looked at.
    sets: u32,
}

/// Units out, to which units before `below` may come.
#[derive(Clone, Copy)]
struct More {
    below: usize,
    out: Units,
    /// How many are out.
    count: u32,
    /// Their partners in excluded pairs.
    bar: Units,
    /// What the run costs, with OFF charged to them too.
    run: u64,
    /// The prices of the others.
    rest: u64,
}

impl Search<'_, '_, '_> {
    /// The least of a choice, these units out, and these with more; none where sets run out.
    fn least(&mut self, more: More, mut low: Choice) -> Option<Choice> {
        let More { out, run, rest, .. } = more;
        let value = run + rest;
        if value < low.value {
            low = Choice { value, out };
        }
        if self.file.crews <= more.count || low.value + self.left[more.below] <= value {
            return Some(low);
        }
        for unit in 0..more.below {
            let closed = (out | more.bar) >> unit & 1 == 1 || self.prices[unit] == 0;
            if closed || low.value + self.left[unit + 1] <= value {
                continue;
            }
            self.sets = self.sets.checked_sub(1)?;
            if let Some(next) = self.with(unit, more) {
                if next.run + next.rest < low.value + self.left[unit] {
                    low = self.least(next, low)?;
                }
            }
        }
        Some(low)
    }

    /// The units out with one more; none where there is no run.
    fn with(&mut self, unit: usize, more: More) -> Option<More> {
        let out = more.out | 1 << unit;
        let run = self.memo.full_cost(self.week, out)?;
        Some(More {
            below: unit,
            out,
            count: more.count + 1,
            bar: more.bar | self.file.units[unit].partners,
            run,
            rest: more.rest - u64::from(self.prices[unit]),
        })
    }
}

#[cfg(test)]
mod tests {
    use super::{by_sets, charged, plain_states, prices_below, Choice, Units, UNITS};
    use crate::plain_file::File;
    use crate::plain_memo::Memo;
    use agree::{asked_plan, tied_plan, Random};
    use reference::encode;

    /// Some prices: small ones, equal ones, large ones, and 0 among them.
    fn prices(random: &mut Random) -> [u32; UNITS] {
        let most = random.one_of(&[1, 5, 300, 4_000, 1 << 22]);
        [0; UNITS].map(|_| match random.once_in(4) {
            true => 0,
            false => random.within(1, most),
        })
    }

    /// Units out that crews and pairs allow.
    fn some_out(file: &File, random: &mut Random) -> Units {
        let mut out: Units = 0;
        for unit in 0..file.units.len() {
            let is_free = file.partners_of(out) >> unit & 1 == 0;
            if is_free && out.count_ones() < file.crews && random.once_in(3) {
                out |= 1 << unit;
            }
        }
        out
    }

    /// With nodes enough the units one by one come to what all sets come to; with few they never come to
    /// more.
    #[test]
    fn states_come_to_what_sets_come_to() {
        let (mut compared, mut below) = (0, 0);
        for seed in 0..4000 {
            let mut random = Random::seeded(seed);
            let units = random.within(1, 9);
            let plan = match random.once_in(2) {
                true => asked_plan(&mut random, 2, units),
                false => tied_plan(&mut random, 2, units),
            };
            let words = encode(&plan);
            let (file, mut scratch) = (File::new(&words), vec![0; 1 << units]);
            let mut memo = Memo::new(&words, &mut scratch);
            let (prices, out) = (prices(&mut random), some_out(&file, &mut random));
            let Some(run) = memo.full_cost(1, out) else {
                continue;
            };
            let (sets, _) = by_sets(&file, &prices, &mut memo, 1, (run, out), u32::MAX);
            let least = sets.expect("sets are enough").value;
            let value = run + prices_below(&prices, out)[file.units.len()];
            let own = Choice { value, out };
            let week = charged(&file, 1, out);
            let (all, left) = plain_states::least(&file, &week, &prices, own, 1 << 20);
            assert!(left > 0 && all.value == least, "seed {seed}");
            let few = random.within(0, 5);
            let (some, _) = plain_states::least(&file, &week, &prices, own, few);
            assert!(some.value <= least, "{few} nodes, seed {seed}");
            compared += 1;
            below += usize::from(some.value < least);
        }
        println!("{compared} weeks, {below} cut short");
        assert!(compared > 2500 && below > 100);
    }
}
