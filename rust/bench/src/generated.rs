//! Instances after section 4.3 of source document 000: capacities, durations and costs normally
//! distributed, a demand that peaks in the middle of the season, and maintenance costs that go from
//! 10,000 euros in the first week to a figure of each unit's own in the last. OFF costs, which the
//! document has not, are drawn last, so that an instance without them is as it was.

#[cfg(test)]
use agree::OffClass;
use agree::Random;
use reference::{smallest, Plan};
use std::f64::consts::PI;

/// What an instance is drawn from.
#[derive(Clone, Copy)]
pub struct Scheme {
    /// The number of weeks.
    pub weeks: u32,
    /// The number of units.
    pub units: u32,
    /// The number of crews.
    pub crews: u32,
    /// The seed; equal schemes give equal instances.
    pub seed: u64,
    /// The demand in the first and the last week, in thousandths of all capacity.
    pub low: f64,
    /// The demand at the peak, likewise.
    pub high: f64,
    /// The capacities of the units.
    pub capacity: Normal,
    /// The durations of the overhauls.
    pub duration: Normal,
    /// The longest duration; 0 for half the season.
    pub longest: u32,
    /// How many starts a window leaves; 0 for windows that are open all season.
    pub window: u32,
    /// The deviation of a maintenance cost from its curve.
    pub maint_deviation: f64,
    /// The deviation of a running cost from 5,000 euros.
    pub running_deviation: f64,
    /// How many pairs are excluded.
    pub pairs: usize,
    /// The OFF costs; none for files that leave them out.
    pub off: Option<Normal>,
}

/// A normal distribution.
#[derive(Clone, Copy)]
pub struct Normal {
    /// Its mean.
    pub mean: f64,
    /// Its standard deviation.
    pub deviation: f64,
}

impl Default for Scheme {
    fn default() -> Self {
        Scheme {
            weeks: 13,
            units: 15,
            crews: 3,
            seed: 1,
            low: 600.0,
            high: 720.0,
            capacity: Normal::new(200.0, 25.0),
            duration: Normal::new(2.0, 1.0),
            longest: 0,
            window: 0,
            maint_deviation: 1000.0,
            running_deviation: 2000.0,
            pairs: 2,
            off: None,
        }
    }
}

impl Scheme {
    /// The instance. Its figures are drawn in the order in which they stand here.
    pub fn plan(&self) -> Plan {
        let mut draws = Draws::seeded(self.seed);
        let longest = match self.longest {
            0 => (f64::from(self.weeks) / 2.0).max(1.0),
            longest => f64::from(longest),
        };
        let capacity = draws.list(self.units, |draws| draws.value(self.capacity, 1.0, 1e6));
        let duration = draws.list(self.units, |draws| draws.value(self.duration, 1.0, longest));
        let windows = self.windows(&duration, &mut draws);
        Plan {
            crews: self.crews,
            demand: self.demand(&capacity),
            earliest: windows.iter().map(|window| window.0).collect(),
            latest: windows.iter().map(|window| window.1).collect(),
            maint: self.maint(&mut draws),
            running: self.by_cell(Normal::new(5000.0, self.running_deviation), &mut draws),
            pairs: self.pairs(&mut draws),
            off: self.off.map(|costs| self.by_cell(costs, &mut draws)),
            capacity,
            duration,
            ..smallest(self.weeks, self.units)
        }
    }

    /// Each week's demand: up to the peak in mid-season, and down again.
    fn demand(&self, capacity: &[u32]) -> Vec<u32> {
        let total: f64 = capacity.iter().map(|&capacity| f64::from(capacity)).sum();
        let weeks = f64::from(self.weeks);
        let (low, high) = (self.low / 1000.0 * total, self.high / 1000.0 * total);
        let curve = [(0.0, low), (weeks / 2.0, high), (weeks - 1.0, low)];
        (0..self.weeks)
            .map(|week| clipped(on_curve(&curve, f64::from(week)), 0.0, 16e6))
            .collect()
    }

    /// Each unit's earliest and latest week.
    fn windows(&self, duration: &[u32], draws: &mut Draws) -> Vec<(u32, u32)> {
        let window = |&duration: &u32| {
            if self.window == 0 {
                return (1, self.weeks);
            }
            let last = self.weeks - duration + 1;
            let starts = self.window.min(last);
            let earliest = draws.0.within(1, last - starts + 1);
            (earliest, earliest + starts - 1)
        };
        duration.iter().map(window).collect()
    }

    /// Maintenance costs around each unit's curve.
    fn maint(&self, draws: &mut Draws) -> Vec<Vec<u32>> {
        let ends = draws.list(self.units, |draws| 7000 + 3000 * draws.0.within(0, 4));
        let last = f64::from(self.weeks) - 1.0;
        let cost = |week: u32, end: u32, draws: &mut Draws| {
            let curve = [(0.0, 10_000.0), (last, f64::from(end))];
            let mean = on_curve(&curve, f64::from(week));
            draws.value(Normal::new(mean, self.maint_deviation), 0.0, 250_000.0)
        };
        (0..self.weeks)
            .map(|week| ends.iter().map(|&end| cost(week, end, draws)).collect())
            .collect()
    }

    /// Costs that are the same for all units but for chance.
    fn by_cell(&self, costs: Normal, draws: &mut Draws) -> Vec<Vec<u32>> {
        (0..self.weeks)
            .map(|_| draws.list(self.units, |draws| draws.value(costs, 0.0, 250_000.0)))
            .collect()
    }

    /// Excluded pairs, all different, rising.
    fn pairs(&self, draws: &mut Draws) -> Vec<(u32, u32)> {
        let most = (self.units * (self.units - 1) / 2) as usize;
        let mut pairs = vec![];
        while pairs.len() < self.pairs.min(most) {
            let a = draws.0.within(1, self.units);
            let b = draws.0.within(1, self.units);
            if a < b && !pairs.contains(&(a, b)) {
                pairs.push((a, b));
            }
        }
        pairs.sort_unstable();
        pairs
    }
}

impl Normal {
    /// The distribution of a mean and a standard deviation.
    pub const fn new(mean: f64, deviation: f64) -> Self {
        Normal { mean, deviation }
    }
}

/// The generator that all figures of an instance come from.
struct Draws(Random);

impl Draws {
    fn seeded(seed: u64) -> Self {
        let mut random = Random::seeded(seed ^ 0xAB_CDEF);
        for _ in 0..8 {
            random.bits();
        }
        Draws(random)
    }

    /// As many values, each drawn after the one before.
    fn list(&mut self, count: u32, mut value: impl FnMut(&mut Self) -> u32) -> Vec<u32> {
        (0..count).map(|_| value(self)).collect()
    }

    /// A whole number from `low` to `high`, normally distributed between them.
    fn value(&mut self, normal: Normal, low: f64, high: f64) -> u32 {
        // two numbers of the unit interval give one of the normal distribution
        let (a, b) = (self.unit(), self.unit());
        let deviate = normal.deviation * (-2.0 * a.ln()).sqrt() * (2.0 * PI * b).cos();
        clipped(normal.mean + deviate, low, high)
    }

    /// A number between 0 and 1, neither of them.
    fn unit(&mut self) -> f64 {
        ((self.0.bits() >> 11) as f64 + 0.5) / (1u64 << 53) as f64
    }
}

fn clipped(value: f64, low: f64, high: f64) -> u32 {
    value.round().max(low).min(high) as u32
}

/// The value at `at` of the curve through points that rise: straight between them, level outside.
fn on_curve(points: &[(f64, f64)], at: f64) -> f64 {
    if at <= points[0].0 {
        return points[0].1;
    }
    let straight = points.windows(2).find(|ends| at <= ends[1].0);
    straight.map_or(points[points.len() - 1].1, |ends| {
        let ((from, low), (to, high)) = (ends[0], ends[1]);
        low + (high - low) * (at - from) / (to - from)
    })
}

/// A small plan of its own for each seed, for tests: of every size up to 5 weeks and 4 units, with
/// costs in whole 4,000 euros, so that many are equal, or all 0, OFF costs of each class in turn, and
/// some with a unit that has no permitted start.
#[cfg(test)]
pub fn small_plan(seed: u64) -> Plan {
    let digit = |place: u64, count: u64| (seed / place % count) as u32;
    let scheme = Scheme {
        weeks: digit(1, 5) + 1,
        units: digit(5, 4) + 1,
        crews: digit(20, 4) + 1,
        seed,
        low: 0.0,
        high: f64::from(150 * digit(1, 4)),
        window: digit(2, 5),
        pairs: digit(1, 7) as usize / 2,
        ..Scheme::default()
    };
    let mut plan = scheme.plan();
    let euros = if digit(1, 19) == 0 { 250_001 } else { 4000 };
    for cost in plan.maint.iter_mut().chain(&mut plan.running).flatten() {
        *cost /= euros;
    }
    let class = OffClass::ALL[digit(3, 6) as usize];
    plan.off = class.costs(&plan.running, &mut Random::seeded(seed));
    if digit(1, 13) == 0 {
        plan.duration[0] = plan.weeks.min(2);
        (plan.earliest[0], plan.latest[0]) = (plan.weeks, plan.weeks);
    }
    plan
}

/// The FNV-1a sum of a list of bytes.
#[cfg(test)]
pub fn checksum(bytes: &[u8]) -> u64 {
    bytes.iter().fold(0xCBF2_9CE4_8422_2325, |sum, &byte| {
        (sum ^ u64::from(byte)).wrapping_mul(0x0100_0000_01B3)
    })
}

#[cfg(test)]
mod tests {
    use super::{checksum, Normal, Scheme};
    use reference::{bytes_of, encode, read, Plan};

    /// Panics unless the instance is accepted and its file has so many words and this sum.
    fn check(scheme: Scheme, count: usize, sum: u64) {
        let words = encode(&scheme.plan());
        assert_eq!(read(&words), Ok(scheme.plan()));
        assert_eq!(words.len(), count);
        assert_eq!(checksum(&bytes_of(&words)), sum);
    }

    /// Figures of different days are of the same instances. The figures come from `ln` and `cos`, so
    /// on another platform one may round otherwise.
    #[test]
    fn instances_stay_as_they_were() {
        check(Scheme::default(), 454, 0x1E00_8D65_3871_B444);
        let mid = Scheme {
            weeks: 20,
            units: 16,
            seed: 11_620,
            ..Scheme::default()
        };
        check(mid, 714, 0x315B_760D_C95F_8F97);
        let odd = Scheme {
            units: 7,
            crews: 2,
            seed: 7,
            low: 500.0,
            high: 620.0,
            capacity: Normal::new(300.0, 80.0),
            duration: Normal::new(4.0, 1.5),
            window: 5,
            maint_deviation: 0.0,
            running_deviation: 300.0,
            pairs: 9,
            ..Scheme::default()
        };
        check(odd, 229, 0xDA56_41E0_98C9_0350);
        let warm = Scheme {
            off: Some(Normal::new(1500.0, 500.0)),
            ..Scheme::default()
        };
        check(warm, 649, 0xDA6D_904A_DF22_7393);
    }

    /// With OFF costs all else is as without them.
    #[test]
    fn off_costs_are_drawn_last() {
        let cold = Scheme::default().plan();
        let warm = Scheme {
            off: Some(Normal::new(1500.0, 500.0)),
            ..Scheme::default()
        };
        let warm = warm.plan();
        let costs: Vec<u32> = warm.off.iter().flatten().flatten().copied().collect();
        let mean = costs.iter().sum::<u32>() / costs.len() as u32;
        assert!((1400..1600).contains(&mean), "{mean}");
        assert_eq!(Plan { off: None, ..warm }, cold);
    }
}
