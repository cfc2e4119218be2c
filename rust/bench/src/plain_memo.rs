//! The memo of the plain twin: in the lent scratch, direct mapped, entries of a key and a value.
//! A key is made of a week and the units out, one for the cheapest run and another for the week's
//! value; an entry that is overwritten is only computed again.

use crate::plain_file::Units;
use crate::plain_week::{self, NO_RUN};

/// What the key of a value has more than that of a run.
const VALUES: u32 = 1 << 22;

/// The memo over a file's words and the scratch.
pub struct Memo<'a> {
    words: &'a [u32],
    entries: &'a mut [[u32; 2]],
    /// How many were asked for.
    pub lookups: u64,
    /// The runs that the memo did not have.
    pub misses: u64,
}

impl<'a> Memo<'a> {
    /// The memo over a file's words and the scratch, which is all 0 and has an entry at least.
    pub fn new(words: &'a [u32], scratch: &'a mut [u32]) -> Self {
        let (entries, _) = scratch.as_chunks_mut();
        Memo {
            words,
            entries,
            lookups: 0,
            misses: 0,
        }
    }

    /// What a week's cheapest run costs with these units out, with OFF charged to them too, so that
    /// it is no less with more units out; none where there is no run.
    pub fn full_cost(&mut self, week: usize, out: Units) -> Option<u64> {
        let key = run_key(week, out);
        let slot = self.slot(key);
        self.lookups += 1;
        if self.entries[slot][0] != key {
            let run = plain_week::cheapest(self.words, query(week, out));
            self.entries[slot] = [key, run.map_or(NO_RUN, |(cost, _)| cost)];
            self.misses += 1;
        }
        known(self.entries[slot][1])
    }

    /// A week's value with these units out, where the memo has it; none within where the week has
    /// no run.
    pub fn value(&mut self, week: usize, out: Units) -> Option<Option<u64>> {
        let key = VALUES + run_key(week, out);
        let entry = self.entries[self.slot(key)];
        self.lookups += 1;
        (entry[0] == key).then(|| known(entry[1]))
    }

    /// Keeps a week's value with these units out.
    pub fn keep_value(&mut self, week: usize, out: Units, value: Option<u64>) {
        let key = VALUES + run_key(week, out);
        let slot = self.slot(key);
        self.entries[slot] = [key, value.map_or(NO_RUN, |value| value as u32)];
    }

    fn slot(&self, key: u32) -> usize {
        (key as usize * 2_654_435_761 % (1 << 32) * self.entries.len()) >> 32
    }
}

/// The key of a week's cheapest run with these units out.
fn run_key(week: usize, out: Units) -> u32 {
    ((week as u32) << 16 | out) + 1
}

/// What a word of the memo stands for.
fn known(word: u32) -> Option<u64> {
    (word != NO_RUN).then_some(u64::from(word))
}

/// The query for a week's cheapest run with these units out.
pub fn query(week: usize, out: Units) -> u32 {
    (week as u32 + 1) << 16 | out
}
