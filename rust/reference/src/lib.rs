//! Document 01, the formulas of source document 000 that it names, and of the later requests of
//! document 02 that on OFF costs, in plain Rust: slow, short, and written from their text. Where a
//! sentence can be read in two ways, or the text is silent, it takes the project's reading, so
//! agreement says nothing about that choice.
//!
//! Nothing here is taken from the proved code or links it, so that a mistake in one is not
//! repeated in the other. Start at [`read`], then [`judge`], then [`cheapest_run`], then
//! [`Survey`], [`check_block`] and [`check_run`], then [`plan_text`].

mod asks;
mod block;
mod commitment;
mod conflicts;
mod formulas;
mod judge;
mod outcome;
mod plan;
mod plan_program;
mod reader;
mod schedule;
mod sizing;
mod starts;
mod survey;
mod words;

pub use asks::{accept, ask_words, read_asks, Ask, Lent};
pub use block::{block_len, check_block, mark_of, place_of, runs_of, starts_of, Status};
pub use commitment::{cheapest_run, run_cost, runs, week_costs, CheapestRun};
pub use conflicts::{conflicts, is_true, Conflict};
pub use formulas::{broken, cost, MAINT, OFF, ON};
pub use judge::{judge, judge_input, Judgement};
pub use outcome::{check_answers, check_run, check_settled, check_table, determined, Checked};
pub use plan::{encode, example_a, example_a_words, smallest, Plan};
pub use plan_program::{check_plan_text, plan_input, plan_lines, plan_text};
pub use reader::read;
pub use schedule::{draw, lay_out};
pub use sizing::sizing;
pub use starts::{permitted_starts, upkeep};
pub use survey::{counted_rank, Place, Schedule, Survey};
pub use words::{bytes_of, kind_of, load, value_of, word, words_from};

use std::fmt;

/// Why a call was turned away: the listed number and the word's place, from 0 in its own list; a
/// grid's place is a byte's.
#[derive(Clone, Copy, Debug, PartialEq, Eq)]
pub struct Refusal {
    /// The number in the list of document 01.
    pub number: u32,
    /// The place of the word or byte at fault; 0 for the causes that have none.
    pub place: usize,
}

/// The line that a program prints, without its line feed.
impl fmt::Display for Refusal {
    fn fmt(&self, f: &mut fmt::Formatter) -> fmt::Result {
        write!(f, "refused {} {}", self.number, self.place)
    }
}
