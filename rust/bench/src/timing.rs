//! Timing two pieces of code in turns, so that what else the machine does falls on both.

use std::hint::black_box;
use std::time::Instant;

/// How often each side of a case is timed.
pub const ROUNDS: usize = 400;
/// How many calls are timed together.
pub const CALLS: u32 = 100;

/// The nanoseconds for one call of each side of a case, one figure a round. The first side is most
/// often the proved code, and the second its plain twin.
#[derive(Default)]
pub struct Times {
    first: Vec<f64>,
    second: Vec<f64>,
}

impl Times {
    /// Times both sides of a case in turns, the one that goes first changing from round to round.
    ///
    /// The rounds of a case follow one another at once. A processor may switch its wide registers
    /// off when nothing has used them for some 0.7 ms, and code that then does is slow for longer
    /// than a round takes; the plain loader's copy is such code, the proved loader's is not.
    pub fn in_turns<A, B>(first: impl FnMut() -> A, second: impl FnMut() -> B) -> Self {
        Times::in_rounds(ROUNDS, CALLS, first, second)
    }

    /// The same in so many rounds of so many calls, for calls that are long in themselves.
    pub fn in_rounds<A, B>(
        rounds: usize,
        calls: u32,
        mut first: impl FnMut() -> A,
        mut second: impl FnMut() -> B,
    ) -> Self {
        let mut times = Times::default();
        for round in 0..rounds {
            if round.is_multiple_of(2) {
                times.first.push(nanoseconds(calls, &mut first));
                times.second.push(nanoseconds(calls, &mut second));
            } else {
                times.second.push(nanoseconds(calls, &mut second));
                times.first.push(nanoseconds(calls, &mut first));
            }
        }
        times
    }

    /// The medians over the rounds: first, second.
    pub fn medians(&self) -> (f64, f64) {
        (median(&self.first), median(&self.second))
    }

    /// The median over the rounds of first to second. Not the ratio of the medians: where the
    /// machine slows down during a case, one of them may be from before and the other from after.
    pub fn ratio(&self) -> f64 {
        let rounds = self.first.iter().zip(&self.second);
        let ratios: Vec<f64> = rounds.map(|(first, second)| first / second).collect();
        median(&ratios)
    }
}

/// The nanoseconds for one call, over so many of them.
fn nanoseconds<T>(calls: u32, call: &mut impl FnMut() -> T) -> f64 {
    let start = Instant::now();
    for _ in 0..calls {
        black_box(call());
    }
    start.elapsed().as_nanos() as f64 / f64::from(calls)
}

fn median(figures: &[f64]) -> f64 {
    let mut sorted = figures.to_vec();
    sorted.sort_by(f64::total_cmp);
    sorted[sorted.len() / 2]
}
