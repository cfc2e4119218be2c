//! The comparison: the proved reader's verdict held against the reference's, number and place.

use crate::off_costs::OffCounts;
use crate::Random;
use reference::{kind_of, read, value_of, Refusal};
use std::collections::BTreeSet;
use std::fmt::Arguments;

/// What a reader says of a file: accepted, or the refusal.
pub type Verdict = Result<(), Refusal>;

/// The proved reader's verdict, in the reference's words.
pub fn proved_verdict(words: &[u32]) -> Verdict {
    ffi::read(words).map_err(|refusal| Refusal {
        number: refusal.number,
        place: refusal.place,
    })
}

/// The verdicts on which both readers agreed, counted by refusal number, the places of the refusals,
/// and the classes of OFF costs in files that were accepted. A test that asserts on them cannot pass
/// by comparing nothing.
#[derive(Default)]
pub struct Counts {
    accepted: usize,
    refused: [usize; 8],
    places: BTreeSet<usize>,
    off: OffCounts,
}

impl Counts {
    /// The verdicts on the file of each seed; a failure prints the seed.
    pub fn over_seeds(seeds: u64, file: impl Fn(&mut Random) -> Vec<u32>) -> Self {
        let mut counts = Counts::default();
        for seed in 0..seeds {
            let words = file(&mut Random::seeded(seed));
            let _ = counts.agreed(&words, format_args!("seed {seed}"));
        }
        counts
    }

    /// The verdict that both readers give; panics, with the origin and the file, where they differ.
    pub fn agreed(&mut self, words: &[u32], origin: Arguments) -> Verdict {
        let plan = read(words);
        let expected = plan.as_ref().map(|_| ()).map_err(|&refusal| refusal);
        let proved = proved_verdict(words);
        assert_eq!(
            proved,
            expected,
            "proved, then reference, on {origin}: {}",
            shown(words)
        );
        match plan {
            Ok(plan) => {
                let place = ffi::read_place(words);
                assert_eq!(place, 0, "accepted has place 0, on {origin}");
                self.accepted += 1;
                self.off.add(&plan);
            }
            Err(refusal) => {
                self.refused[refusal.number as usize] += 1;
                self.places.insert(refusal.place);
            }
        }
        expected
    }

    /// How many files were accepted.
    pub fn accepted(&self) -> usize {
        self.accepted
    }

    /// How many of the files accepted had OFF costs of each class.
    pub fn off(&self) -> &OffCounts {
        &self.off
    }

    /// How many files were compared.
    pub fn total(&self) -> usize {
        self.accepted + self.refused.iter().sum::<usize>()
    }

    /// The refusal numbers that arose, rising.
    pub fn numbers(&self) -> Vec<usize> {
        (0..8).filter(|&number| self.refused[number] > 0).collect()
    }

    /// At how many different places files were refused.
    pub fn places(&self) -> usize {
        self.places.len()
    }

    /// Prints the counts, for those who run the tests with their output shown.
    pub fn report(&self, what: &str) {
        println!(
            "{what}: {} files, {} accepted, refusals 1 to 7: {:?}, places: {}, {}",
            self.total(),
            self.accepted,
            &self.refused[1..],
            self.places(),
            self.off
        );
    }
}

/// The words as document 01 prints them.
pub(crate) fn shown(words: &[u32]) -> String {
    let pairs: Vec<String> = words
        .iter()
        .map(|&word| format!("{}:{}", kind_of(word), value_of(word)))
        .collect();
    pairs.join(" ")
}
