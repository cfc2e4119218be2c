//! What the tests of the proved code against the reference share: files to read, OFF costs of every
//! class, ways to damage files, grids to judge, queries on weeks, asks, the comparisons, and the
//! programs. The tests are in `tests`, one file a subject.

mod asking;
mod asks;
mod breaches;
mod compare;
mod damage;
mod grids;
mod hard;
mod judgements;
mod large;
mod off_costs;
mod plans;
mod programs;
mod queries;
mod random;
mod runs;
mod schedules;
mod seeds;

pub use asking::{
    ask, asked_plan, dirty_buffers, dirty_table, leave_no_start, listed_plan, many_units,
    telling_asks, telling_budgets, telling_ceilings, tiny_size, MOST, TABLES,
};
pub use asks::{proved_asks, Answers, AskedFile, Buffers, ListAnswer};
pub use breaches::{breaches, Case};
pub use compare::{proved_verdict, Counts, Verdict};
pub use damage::{edited, near, off_damages, random_from, recounted, replacements};
pub use grids::{all_grids, cells_of, edited_grid, random_grid};
pub use hard::{level_plan, near_plan, wanting_plan, Want};
pub use judgements::{proved_judgement, Judgements};
pub use large::{asks_around, KnownFile};
pub use off_costs::{choose_off, cost_rows, thrifty_units, OffClass, OffCounts};
pub use plans::{all_pairs, border_plans, largest, random_plan, small_plans, tied_plan, tiny_plan};
pub use programs::printed;
pub use queries::{all_queries, dirty_scratch, query, random_queries};
pub use random::Random;
pub use reference::smallest;
pub use runs::{proved_run, RunAnswer, Runs};
pub use schedules::{
    all_schedules, fitted, in_twos, random_scheduled, staggered, together, Scheduled,
};
pub use seeds::seeds_for;
