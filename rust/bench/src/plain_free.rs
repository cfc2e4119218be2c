//! The free plant of the plain twin: the same file with all costs 0. A schedule costs nothing there, so
//! where overhauls and weeks come to more than all prices there is none, whatever the costs are.

use crate::plain_file::{File, Units};
use crate::plain_prices::{turn, Prices, LEVEL, MOST};
use crate::plain_relaxed::{Choice, PRICES, UNITS};
use crate::plain_tuning::Tuning;

/// A price of one.
const ONE: u64 = 4096;
/// After so many rounds steps are half as long, after twice as many a third.
const HALVING: u64 = 16;

/// Prices for the free plant.
pub struct Free<'a> {
    file: &'a File<'a>,
    tuning: &'a Tuning,
    /// What all units give.
    room: u64,
}

impl<'a> Free<'a> {
    /// Looks at three tables of prices: where an overhaul is in a week whatever its start, where it may
    /// be, and the same by what the unit gives. None where they show that there is no schedule.
    pub fn new(file: &'a File, tuning: &'a Tuning) -> Option<Self> {
        let room: u64 = file.units.iter().map(|unit| unit.capacity).sum();
        let free = Free { file, tuning, room };
        free.open(free.table(|week, unit| ONE * u64::from(is_always_out(file, week, unit))))?;
        free.open(free.even())?;
        let mean = room / file.units.len() as u64;
        let price = |unit: usize| {
            let capacity = file.units[unit].capacity;
            let price = (ONE * capacity).checked_div(mean);
            price.unwrap_or(ONE).min(MOST)
        };
        let by_capacity = |week, unit| price(unit) * u64::from(may_be_out(file, week, unit));
        free.open(free.table(by_capacity))?;
        Some(free)
    }

    /// The prices of each week and unit.
    fn table(&self, price: impl Fn(usize, usize) -> u64) -> [u32; PRICES] {
        let mut prices = [0; PRICES];
        for week in 0..self.file.weeks {
            for unit in 0..self.file.units.len() {
                prices[week * UNITS + unit] = price(week, unit) as u32;
            }
        }
        prices
    }

    /// One in each week that an overhaul may be in.
    fn even(&self) -> [u32; PRICES] {
        self.table(|week, unit| ONE * u64::from(may_be_out(self.file, week, unit)))
    }

    /// What follows from prices, unless it is that there is no schedule.
    fn open(&self, price: [u32; PRICES]) -> Option<Prices> {
        let total = price.iter().map(|&price| u64::from(price)).sum();
        let mut prices = Prices::of(price, total);
        for (unit, of_unit) in self.file.units.iter().enumerate() {
            let price = |week: usize| u64::from(price[week * UNITS + unit]);
            let cost = |start| of_unit.weeks_from(start).map(price).sum::<u64>();
            let costs = (of_unit.first..=of_unit.last).map(|start| (cost(start), start));
            (prices.least[unit], prices.starts[unit]) = costs.min()?;
        }
        for week in 0..self.file.weeks {
            let choice = self.choice(&price[week * UNITS..][..UNITS], week)?;
            (prices.values[week], prices.outs[week]) = (choice.value, choice.out);
        }
        (prices.sum() <= prices.total).then_some(prices)
    }

    /// A week's least choice, or a lower bound; none where its demand is not met.
    fn choice(&self, prices: &[u32], week: usize) -> Option<Choice> {
        let (file, demand) = (self.file, self.file.demand[week]);
        let mut search = Search {
            file,
            prices,
            sums: [Sums::default(); UNITS + 1],
            least: None,
            out: 0,
            nodes: self.tuning.free_nodes,
        };
        let mut never = 0;
        for (unit, of_unit) in file.units.iter().enumerate() {
            let is_never = self.room < demand + of_unit.capacity;
            never |= u32::from(is_never) << unit;
            let price = u64::from(prices[unit]);
            let open = if is_never { 0 } else { price };
            search.sums[unit + 1] = search.sums[unit].with(of_unit.capacity, price, open);
        }
        let root = Node {
            need: demand,
            crews: u64::from(file.crews),
            bar: never,
            out: 0,
            score: 0,
        };
        search.walk(file.units.len(), root);
        let (value, out) = (search.least?, search.out);
        Some(Choice { value, out })
    }

    /// Goes on from even prices by rounds; whether these show that there is no schedule.
    pub fn shows_none(&self) -> bool {
        let Some(mut now) = self.open(self.even()) else {
            return true;
        };
        let mut push = [LEVEL; PRICES];
        for round in 0..self.tuning.free_rounds * self.file.units.len() as u32 {
            turn(&mut push, self.file, &now);
            match self.open(multiplied(&now.price, &push, u64::from(round))) {
                Some(next) => now = next,
                None => return true,
            }
        }
        false
    }
}

/// Over the units below one: what they give, their prices, the prices of those that may be out, and the
/// highest of these.
#[derive(Clone, Copy, Default)]
struct Sums {
    capacity: u64,
    prices: u64,
    open: u64,
    top: u64,
}

impl Sums {
    fn with(self, capacity: u64, price: u64, open: u64) -> Self {
        Sums {
            capacity: self.capacity + capacity,
            prices: self.prices + price,
            open: self.open + open,
            top: self.top.max(open),
        }
    }
}

/// What the units decided so far leave.
#[derive(Clone, Copy)]
struct Node {
    need: u64,
    crews: u64,
    bar: Units,
    out: Units,
    score: u64,
}

/// The search for a week's least choice: from the last unit down, out first.
struct Search<'a> {
    file: &'a File<'a>,
    prices: &'a [u32],
    sums: [Sums; UNITS + 1],
    least: Option<u64>,
    out: Units,
    nodes: u32,
}

impl Search<'_> {
    fn walk(&mut self, below: usize, node: Node) {
        let sums = self.sums[below];
        if sums.capacity < node.need {
            return;
        }
        let saved = sums.open.min(node.crews * sums.top);
        let value = (node.score + sums.prices).saturating_sub(saved);
        if self.least.is_some_and(|least| least <= value) {
            return;
        }
        if below == 0 || node.crews == 0 {
            (self.least, self.out) = (Some(value), node.out);
            return;
        }
        if self.nodes == 0 {
            self.least = Some(value);
            return;
        }
        self.nodes -= 1;
        let unit = below - 1;
        if node.bar >> unit & 1 == 0 && self.prices[unit] > 0 {
            let out = Node {
                crews: node.crews - 1,
                bar: node.bar | self.file.units[unit].partners,
                out: node.out | 1 << unit,
                ..node
            };
            self.walk(unit, out);
        }
        let stay = Node {
            need: node.need.saturating_sub(self.file.units[unit].capacity),
            score: node.score + u64::from(self.prices[unit]),
            ..node
        };
        self.walk(unit, stay);
    }
}

/// Whether every permitted start has a unit out in a week.
fn is_always_out(file: &File, week: usize, unit: usize) -> bool {
    let unit = &file.units[unit];
    let (first, last) = (usize::from(unit.first), usize::from(unit.last));
    first <= last && last <= week + 1 && week + 1 < first + unit.duration
}

/// Whether some permitted start has it out.
fn may_be_out(file: &File, week: usize, unit: usize) -> bool {
    let unit = &file.units[unit];
    let (first, last) = (usize::from(unit.first), usize::from(unit.last));
    first <= week + 1 && week + 1 < last + unit.duration
}

/// The prices a round on: by a part of themselves, so that their scale stays, and ever less.
fn multiplied(price: &[u32; PRICES], push: &[u64; PRICES], round: u64) -> [u32; PRICES] {
    std::array::from_fn(|place| {
        let (price, push) = (u64::from(price[place]), push[place]);
        let part = price * push.abs_diff(LEVEL) / LEVEL / (1 + round / HALVING);
        let step = part + u64::from(push != LEVEL);
        let moved = match (price, push < LEVEL) {
            (0, _) => 0,
            (_, true) => price.saturating_sub(step).max(1),
            (_, false) => (price + step).min(MOST),
        };
        moved as u32
    })
}
