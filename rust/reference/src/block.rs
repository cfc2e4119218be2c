//! One block: whether it is right for its own ceiling and budget. Which answer is due is open where
//! the budget is below the number of places, so a block is held against what document 01 says of
//! its own status and mark.

use crate::asks::Ask;
use crate::survey::{Schedule, Survey};
use crate::Plan;
use std::fmt::Debug;

/// The status of a block.
#[derive(Clone, Copy, Debug, PartialEq, Eq, PartialOrd, Ord)]
pub enum Status {
    /// 1: the earliest of the cheapest schedules at or below the ceiling.
    Plan,
    /// 2: there is no schedule at or below the ceiling.
    None,
    /// 3: spent, with the earliest of the cheapest before the mark.
    Best,
    /// 4: spent, with nothing before the mark.
    Spent,
}

/// The number of words in a block of a plan.
pub fn block_len(plan: &Plan) -> usize {
    (2 + 2 * plan.units + plan.weeks) as usize
}

/// The status of a block that answers the ask on the survey's plan rightly; else what is wrong.
pub fn check_block(survey: &Survey, ask: Ask, block: &[u32]) -> Result<Status, String> {
    let due = block_len(survey.plan());
    same("words", block.len(), due)?;
    match block[0] {
        1 => check_plan(survey, ask, block).map(|()| Status::Plan),
        2 => check_none(survey, ask, block).map(|()| Status::None),
        3 | 4 => check_spent(survey, ask, block),
        other => Err(format!("there is no status {other}")),
    }
}

/// The earliest of the cheapest and no mark.
fn check_plan(survey: &Survey, ask: Ask, block: &[u32]) -> Result<(), String> {
    match survey.cheapest(ask.ceiling) {
        None => Err("a plan where no schedule is at or below the ceiling".to_string()),
        Some(cheapest) => {
            same_schedule(survey.plan(), cheapest, block)?;
            no_mark(survey.plan(), block)
        }
    }
}

/// No schedule at or below the ceiling, and nothing but the status.
fn check_none(survey: &Survey, ask: Ask, block: &[u32]) -> Result<(), String> {
    if let Some(cheapest) = survey.cheapest(ask.ceiling) {
        return Err(format!("none where there is {cheapest:?}"));
    }
    no_schedule(survey.plan(), block)?;
    no_mark(survey.plan(), block)
}

/// A mark of rank at least the budget, and the earliest of the cheapest before it or nothing.
fn check_spent(survey: &Survey, ask: Ask, block: &[u32]) -> Result<Status, String> {
    let mark = mark_of(survey.plan(), block);
    let place = place_of(mark);
    match survey.rank(place) {
        None => return Err(format!("the mark {mark:?} is no place")),
        Some(rank) if rank < ask.budget as usize => {
            return Err(format!("the mark {mark:?} has rank {rank}"));
        }
        Some(_) => {}
    }
    match (block[0], survey.cheapest_before(place, ask.ceiling)) {
        (3, Some(best)) => same_schedule(survey.plan(), best, block).map(|()| Status::Best),
        (3, None) => Err(format!("a best where none is before {mark:?}")),
        (_, Some(best)) => Err(format!("spent where {best:?} is before {mark:?}")),
        (_, None) => no_schedule(survey.plan(), block).map(|()| Status::Spent),
    }
}

/// The starts in a block.
pub fn starts_of<'a>(plan: &Plan, block: &'a [u32]) -> &'a [u32] {
    &block[2..2 + plan.units as usize]
}

/// The run numbers in a block.
pub fn runs_of<'a>(plan: &Plan, block: &'a [u32]) -> &'a [u32] {
    let first = 2 + plan.units as usize;
    &block[first..first + plan.weeks as usize]
}

/// The words of mark in a block.
pub fn mark_of<'a>(plan: &Plan, block: &'a [u32]) -> &'a [u32] {
    &block[block_len(plan) - plan.units as usize..]
}

/// The place of a mark, its starts up to those that are missing, which are 0. No permitted start is
/// 0, so a mark with a 0 before another start stays what it is, and is no place.
pub fn place_of(mark: &[u32]) -> &[u32] {
    let last = mark.iter().rposition(|&start| start != 0);
    &mark[..last.map_or(0, |last| last + 1)]
}

/// The block has the schedule, its cost included.
fn same_schedule(plan: &Plan, schedule: &Schedule, block: &[u32]) -> Result<(), String> {
    same("cost", u64::from(block[1]), schedule.cost)?;
    same("starts", starts_of(plan, block), &schedule.starts)?;
    same("runs", runs_of(plan, block), &schedule.runs)
}

/// The block has no schedule, and no cost.
fn no_schedule(plan: &Plan, block: &[u32]) -> Result<(), String> {
    same("cost", block[1], 0)?;
    let (units, weeks) = (plan.units as usize, plan.weeks as usize);
    same("starts", starts_of(plan, block), &vec![0; units])?;
    same("runs", runs_of(plan, block), &vec![0; weeks])
}

fn no_mark(plan: &Plan, block: &[u32]) -> Result<(), String> {
    same("mark", mark_of(plan, block), &vec![0; plan.units as usize])
}

/// What is said where a part is not the one due.
pub(crate) fn same<T: PartialEq + Debug>(part: &str, found: T, due: T) -> Result<(), String> {
    if found == due {
        return Ok(());
    }
    Err(format!("{part} {found:?} where {due:?} is due"))
}
