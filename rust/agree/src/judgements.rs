//! The comparison of judgements: the proved judge's held against the reference's, with the cost,
//! the formula, or the refusal's number and place.

use crate::compare::shown;
use crate::off_costs::OffCounts;
use reference::{judge, read, Judgement, Refusal};
use std::collections::BTreeMap;
use std::fmt::Arguments;

/// The proved judge's judgement, in the reference's words.
pub fn proved_judgement(words: &[u32], grid: &[u8]) -> Judgement {
    match ffi::judge(words, grid) {
        ffi::Judgement::Sound(cost) => Judgement::Sound(cost),
        ffi::Judgement::Breaks(number) => Judgement::Breaks(number),
        ffi::Judgement::Rejected(refusal) => Judgement::Rejected(Refusal {
            number: refusal.number,
            place: refusal.place,
        }),
    }
}

/// The judgements on which both judges agreed: how many were sound, how many broke each formula,
/// how many were refused for each cause, and the classes of OFF costs of those that were sound. A
/// test that asserts on them cannot pass by comparing nothing.
#[derive(Default)]
pub struct Judgements {
    sound: usize,
    broken: BTreeMap<u32, usize>,
    refused: BTreeMap<u32, usize>,
    off: OffCounts,
}

impl Judgements {
    /// The judgement that both judges give; panics, with the origin, the file and the grid, where
    /// they differ.
    pub fn agreed(&mut self, words: &[u32], grid: &[u8], origin: Arguments) -> Judgement {
        let expected = judge(words, grid);
        let proved = proved_judgement(words, grid);
        assert_eq!(
            proved,
            expected,
            "proved, then reference, on {origin}: grid {grid:?} of {}",
            shown(words)
        );
        match expected {
            Judgement::Sound(_) => {
                self.sound += 1;
                read(words).iter().for_each(|plan| self.off.add(plan));
            }
            Judgement::Breaks(number) => *self.broken.entry(number).or_default() += 1,
            Judgement::Rejected(refusal) => *self.refused.entry(refusal.number).or_default() += 1,
        }
        if !matches!(expected, Judgement::Rejected(_)) {
            let place = ffi::judge_place(words, grid);
            assert_eq!(place, 0, "a judged grid has place 0, on {origin}");
        }
        expected
    }

    /// How many grids were sound.
    pub fn sound(&self) -> usize {
        self.sound
    }

    /// How many sound grids were of files of each class of OFF costs.
    pub fn off(&self) -> &OffCounts {
        &self.off
    }

    /// How many grids were compared.
    pub fn total(&self) -> usize {
        self.sound + self.broken.values().sum::<usize>() + self.refused.values().sum::<usize>()
    }

    /// The formulas that were broken, rising.
    pub fn formulas(&self) -> Vec<u32> {
        self.broken.keys().copied().collect()
    }

    /// The refusal numbers that arose, rising.
    pub fn refusals(&self) -> Vec<u32> {
        self.refused.keys().copied().collect()
    }

    /// Prints the counts, for those who run the tests with their output shown.
    pub fn report(&self, what: &str) {
        println!(
            "{what}: {} grids, {} sound, formulas {:?}, refusals {:?}, {}",
            self.total(),
            self.sound,
            self.broken,
            self.refused,
            self.off
        );
    }
}
