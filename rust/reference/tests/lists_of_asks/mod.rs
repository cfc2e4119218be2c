//! What tests of lists of asks share.

use reference::{check_run, example_a, Ask, Checked, Survey};
use std::collections::BTreeSet;

/// The largest ceiling and the largest budget.
pub const MOST: u32 = (1 << 28) - 1;

/// The blocks of file A that are not spent.
pub const PLAN: [u32; 9] = [1, 19, 2, 1, 1, 2, 1, 0, 0];
pub const NONE: [u32; 9] = [2, 0, 0, 0, 0, 0, 0, 0, 0];

pub fn ask(ceiling: u32, budget: u32) -> Ask {
    Ask { ceiling, budget }
}

/// A table of 64 words that begins with these.
pub fn table_of(words: &[u32]) -> Vec<u32> {
    let mut table = words.to_vec();
    table.resize(64, 0);
    table
}

/// What is found of a run on file A with these asks, blocks and first words of the table.
pub fn said(asks: &[Ask], blocks: &[[u32; 9]], table: &[u32]) -> Result<Checked, String> {
    let survey = Survey::new(&example_a());
    let mut known = BTreeSet::new();
    check_run(
        &survey,
        asks,
        &blocks.concat(),
        &table_of(table),
        &mut known,
    )
}
