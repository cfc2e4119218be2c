//! Seeds for tests that go on for a time: as many as it allows, and never fewer than a test needs
//! for what it asserts.

use std::env;
use std::time::{Duration, Instant};

/// The seconds for all tests of this kind together, where the environment does not say.
const SECONDS: f64 = 60.0;

/// Seeds from NOVELBRISCA_SEED on, 0 where that is not set: at least so many, and more while less
/// than the given part of NOVELBRISCA_SECONDS is over, of 60 where that is not set. Prints the
/// first, so that the same files can be made again, and the parts of all tests add up to about 1.
pub fn seeds_for(part: f64, least: u64, what: &str) -> impl Iterator<Item = u64> {
    let first: u64 = set("NOVELBRISCA_SEED").unwrap_or(0);
    let seconds = part * set("NOVELBRISCA_SECONDS").unwrap_or(SECONDS);
    println!("{what}: seeds from {first} on, at least {least}, for {seconds} seconds");
    let (time, begun) = (Duration::from_secs_f64(seconds), Instant::now());
    (first..).take_while(move |seed| seed - first < least || begun.elapsed() < time)
}

/// The number that the environment sets for a name; panics where it is set to anything else.
fn set<T: std::str::FromStr>(name: &str) -> Option<T> {
    let value = env::var(name).ok()?;
    let number = value.parse().ok();
    Some(number.unwrap_or_else(|| panic!("{name} is {value:?}, which is no number")))
}
