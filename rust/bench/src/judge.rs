//! The judge on sound grids of the largest size, with many pairs excluded and with none.

use crate::timing::Times;
use crate::{plain_judge, table};
use agree::{in_twos, proved_judgement, staggered, Scheduled};
use reference::{encode, judge, Judgement};
use std::hint::black_box;

/// Holds both judges against the reference on the timed cases, times them, prints the table.
pub fn run() {
    table::heading();
    for (case, words, grid) in cases() {
        check(&words, &grid);
        let times = Times::in_turns(
            || ffi::judge(black_box(&words), black_box(&grid)),
            || plain_judge::judge(black_box(&words), black_box(&grid)),
        );
        table::row(case, words.len(), &times);
    }
}

/// Files and sound grids, named: units overhauled one at a time, with all pairs excluded, with none
/// and without OFF costs, and two at a time, with all others excluded.
fn cases() -> [(&'static str, Vec<u32>, Vec<u8>); 4] {
    let (mut free, mut cold) = (staggered(), staggered());
    free.plan.pairs.clear();
    cold.plan.off = None;
    [
        case("one out at a time, 120 pairs", staggered()),
        case("one out at a time, no pair", free),
        case("one out at a time, no OFF costs", cold),
        case("two out at a time, 112 pairs", in_twos()),
    ]
}

fn case(name: &'static str, scheduled: Scheduled) -> (&'static str, Vec<u32>, Vec<u8>) {
    (name, encode(&scheduled.plan), scheduled.grid())
}

/// Panics unless both judges find the grid sound at the reference's cost.
fn check(words: &[u32], grid: &[u8]) {
    let expected = judge(words, grid);
    assert!(matches!(expected, Judgement::Sound(_)), "{expected}");
    assert_eq!(proved_judgement(words, grid), expected, "proved judge");
    assert_eq!(plain_judge::judge(words, grid), expected, "plain judge");
}
