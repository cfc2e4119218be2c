//! The places of a week whose units are put ON, OFF or OUT one by one, and lower bounds on what they
//! cost, which hold at any rate and price.

use crate::plain_file::{File, Units};
use crate::plain_memo::query;
use crate::plain_relaxed::UNITS;
use crate::plain_week::Week;

/// What a euro counts, so that rates for a kilogram are whole numbers.
pub const SCALE: u64 = 4096;

/// A state of a place.
#[derive(Clone, Copy)]
pub enum State {
    /// It runs.
    On,
    /// It does not, though it could.
    Off,
    /// It is out.
    Out,
}

/// A place: what it gives, and what it costs in each state.
#[derive(Clone, Copy, Default)]
pub struct Place {
    /// What it gives ON.
    pub capacity: u64,
    /// What it costs ON.
    pub on: u64,
    /// What it costs OFF.
    pub off: u64,
    /// What it costs OUT.
    pub out: u64,
    /// Whether it may be OUT, as long as crews are left and no partner is.
    pub may_go: bool,
}

/// A lower bound: what a place that is ON is worth for each of its size, what one that is OUT is
/// charged, and sums over the places below each.
pub struct Bound {
    /// That worth.
    pub rate: u64,
    /// That charge.
    pub price: u64,
    idle: [u64; UNITS + 1],
    gain: [u64; UNITS + 1],
}

/// A week with these units out, as the file charges it.
pub fn charged(file: &File, week: usize, out: Units) -> Week {
    Week::of(file.words, query(week, out)).expect("the file has the week")
}

/// The places of a week.
pub fn places(file: &File, week: &Week, prices: &[u32], out: Units) -> [Place; UNITS] {
    let bar = out | file.partners_of(out);
    let crews_left = out.count_ones() < file.crews;
    std::array::from_fn(|unit| {
        if unit >= file.units.len() {
            return Place::default();
        }
        let (off, price) = (week.off[unit] * SCALE, u64::from(prices[unit]) * SCALE);
        if out >> unit & 1 == 1 {
            return Place {
                capacity: 0,
                on: off,
                off,
                out: off,
                may_go: false,
            };
        }
        Place {
            capacity: week.capacity[unit],
            on: week.running[unit] * SCALE + price,
            off: off + price,
            out: off,
            may_go: crews_left && price > 0 && bar >> unit & 1 == 0,
        }
    })
}

impl Place {
    /// Its states by what they cost at a bound's rate and price.
    pub fn order(&self, bound: &Bound) -> [State; 3] {
        use State::{Off, On, Out};
        let lost = bound.rate * self.capacity;
        let (on, off, out) = (self.on, self.off + lost, self.out + bound.price + lost);
        match (on <= off, off <= out, on <= out) {
            (true, true, _) => [On, Off, Out],
            (true, false, true) => [On, Out, Off],
            (true, false, false) => [Out, On, Off],
            (false, _, true) => [Off, On, Out],
            (false, true, false) => [Off, Out, On],
            (false, false, false) => [Out, Off, On],
        }
    }

    /// What it costs at least where it is not ON, and a place that is OUT is charged a price.
    pub fn idle(&self, price: u64) -> u64 {
        if self.may_go {
            return self.off.min(self.out + price);
        }
        self.off
    }

    /// What it costs ON above that.
    fn weight(&self, price: u64) -> u64 {
        self.on.saturating_sub(self.idle(price))
    }

    /// What is saved by its being OUT, where ON is worth so much.
    pub fn saved(&self, worth: u64) -> u64 {
        let kept = self.off.min(self.on.saturating_sub(worth));
        kept.saturating_sub(self.out)
    }
}

/// What a place is for a bound: its size, and what it is taken for where it may be more.
#[derive(Clone, Copy)]
pub struct Size {
    size: fn(&Place) -> u64,
    at_most: fn(&Place) -> u64,
}

/// Places that are weighed.
pub const WEIGHED: Size = Size {
    size: |place| place.capacity,
    at_most: |place| place.capacity,
};

/// Places that are counted: one that gives nothing does not count, but is not told apart in the bound.
pub const COUNTED: Size = Size {
    size: |place| place.capacity.min(1),
    at_most: |_| 1,
};

impl Bound {
    /// The bound for places of some size that are to come to `need`: a rate and a price, each found
    /// at the other in turn.
    pub fn new(places: &[Place], size: Size, need: u64, crews: usize) -> Self {
        let Size { size, at_most } = size;
        let mut price = 0;
        let mut rate = rate_at(places, size, need, price);
        for _ in 0..2 {
            price = price_at(places, size, crews, rate);
            rate = rate_at(places, size, need, price);
        }
        let (mut idle, mut gain) = ([0; UNITS + 1], [0; UNITS + 1]);
        for (below, place) in places.iter().enumerate() {
            let own = place.idle(price);
            idle[below + 1] = idle[below] + own;
            let worth = rate * at_most(place) + own;
            gain[below + 1] = gain[below] + worth.saturating_sub(place.on);
        }
        Bound {
            rate,
            price,
            idle,
            gain,
        }
    }

    /// What every choice for the places below one comes to at least, above a score, whose sizes ON are
    /// to come to `need`.
    pub fn least(&self, below: usize, score: u64, need: u64, crews: u64) -> u64 {
        let all = score + self.rate * need + self.idle[below];
        all.saturating_sub(self.gain[below] + self.price * crews)
    }
}

/// What the place weighs for each of its size that completes the need, the lightest first, where a
/// place OUT is charged a price.
fn rate_at(places: &[Place], size: fn(&Place) -> u64, need: u64, price: u64) -> u64 {
    let (mut output, mut rate) = (0, 0);
    let mut lightest: Vec<(u64, u64)> = vec![];
    for place in places {
        match place.weight(price) {
            0 => output += size(place),
            weight if size(place) > 0 => lightest.push((weight, size(place))),
            _ => {}
        }
    }
    lightest.sort_by(|a, b| (a.0 * b.1).cmp(&(b.0 * a.1)));
    for (weight, size) in lightest {
        if need <= output {
            break;
        }
        output += size;
        rate = weight / size;
    }
    rate
}

/// The most that is saved by a place OUT where all crews have better ones, at a rate for ON.
fn price_at(places: &[Place], size: fn(&Place) -> u64, crews: usize, rate: u64) -> u64 {
    let may_go = places.iter().filter(|place| place.may_go);
    let mut saved: Vec<u64> = may_go
        .map(|place| place.saved(rate * size(place)))
        .collect();
    saved.sort_unstable_by(|a, b| b.cmp(a));
    saved.get(crews).copied().unwrap_or(0)
}
