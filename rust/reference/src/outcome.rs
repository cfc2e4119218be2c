//! What a run of asks left, as a whole: each block for its own ceiling and budget, the two rules on
//! later asks, and the table.

use crate::asks::Ask;
use crate::block::{block_len, check_block, same, Status};
use crate::conflicts::{check_concluded, conflicts, find_untrue, Conflict};
use crate::survey::Survey;
use crate::Plan;
use std::collections::BTreeSet;

/// What was found of a run that is right.
#[derive(Clone, Debug, PartialEq, Eq)]
pub struct Checked {
    /// The status of each ask.
    pub statuses: Vec<Status>,
    /// How many asks were settled by those before them.
    pub settled: usize,
    /// The conflicts in the table, in their order.
    pub conflicts: Vec<Conflict>,
}

/// What is found of a run that left these answers, a block for each ask and no more, and this table;
/// else what is wrong. `known` are conflicts of the survey that were found true before, as runs on
/// the same file leave many of the same; those of this table are added.
pub fn check_run(
    survey: &Survey,
    asks: &[Ask],
    answers: &[u32],
    table: &[u32],
    known: &mut BTreeSet<Conflict>,
) -> Result<Checked, String> {
    let statuses = check_answers(survey, asks, answers)?;
    let found = check_table(survey.plan(), asks, answers, table)?;
    if let Some(untrue) = find_untrue(survey, &found, known) {
        return Err(format!("{untrue:?} is not true"));
    }
    Ok(Checked {
        statuses,
        settled: Answered::new(survey.plan(), asks, answers).settled(),
        conflicts: found,
    })
}

/// The statuses of blocks that are right, each for its own ceiling and budget and all by the two
/// rules on later asks; else what is wrong. The table is not looked at.
pub fn check_answers(
    survey: &Survey,
    asks: &[Ask],
    answers: &[u32],
) -> Result<Vec<Status>, String> {
    let due = asks.len() * block_len(survey.plan());
    same("answer words", answers.len(), due)?;
    let answered = Answered::new(survey.plan(), asks, answers);
    let status = |(number, &(ask, block))| {
        let status = check_block(survey, ask, block);
        status.map_err(|reason| format!("ask {number}: {reason}"))
    };
    let statuses = (1..)
        .zip(&answered.0)
        .map(status)
        .collect::<Result<Vec<_>, _>>()?;
    check_settled(survey.plan(), asks, answers)?;
    Ok(statuses)
}

/// Says what is wrong with blocks by the two rules on later asks alone.
pub fn check_settled(plan: &Plan, asks: &[Ask], answers: &[u32]) -> Result<(), String> {
    let answered = Answered::new(plan, asks, answers);
    for (index, (_, block)) in answered.0.iter().enumerate() {
        if let Some(due) = answered.due(index).filter(|due| due != block) {
            let number = index + 1;
            return Err(format!("ask {number}: {block:?} where {due:?} is settled"));
        }
    }
    Ok(())
}

/// The conflicts in the table of a run that left these answers, if they are laid out as they should
/// be and those without choices are the ones due; else what is wrong. Whether they are true is not
/// looked at.
pub fn check_table(
    plan: &Plan,
    asks: &[Ask],
    answers: &[u32],
    table: &[u32],
) -> Result<Vec<Conflict>, String> {
    let found = conflicts(plan, table)?;
    let due = Answered::new(plan, asks, answers).concluded();
    check_concluded(&due, &found)?;
    Ok(found)
}

/// The blocks that are due for a list of asks where the list determines them all: each ask is
/// settled by those before it or has tries for every place. None where one has not.
pub fn determined(survey: &Survey, asks: &[Ask]) -> Option<Vec<u32>> {
    let mut blocks: Vec<u32> = vec![];
    for (index, &ask) in asks.iter().enumerate() {
        let before = Answered::new(survey.plan(), &asks[..index], &blocks);
        let whole = ask.budget as usize >= survey.places().len();
        let block = match before.settles(ask) {
            Some(block) => block,
            None if whole => unspent(survey, ask),
            None => return None,
        };
        blocks.extend(block);
    }
    Some(blocks)
}

/// The block of an ask that is not spent.
fn unspent(survey: &Survey, ask: Ask) -> Vec<u32> {
    let plan = survey.plan();
    match survey.cheapest(ask.ceiling) {
        None => none(block_len(plan)),
        Some(cheapest) => {
            let mut block = vec![1, cheapest.cost as u32];
            block.extend(&cheapest.starts);
            block.extend(&cheapest.runs);
            block.resize(block_len(plan), 0);
            block
        }
    }
}

/// The block of so many words that says none.
fn none(length: usize) -> Vec<u32> {
    let mut block = vec![0; length];
    block[0] = 2;
    block
}

/// Asks with their blocks, in the order of the list.
struct Answered<'a>(Vec<(Ask, &'a [u32])>);

impl<'a> Answered<'a> {
    fn new(plan: &Plan, asks: &[Ask], answers: &'a [u32]) -> Self {
        let blocks = answers.chunks(block_len(plan));
        Answered(asks.iter().copied().zip(blocks).collect())
    }

    /// The block of one more ask, where these settle it: after a plan that plan again at its cost or
    /// more and none below, after none at a ceiling none at or below it.
    fn settles(&self, ask: Ask) -> Option<Vec<u32>> {
        self.0.iter().find_map(|&(earlier, block)| match block[0] {
            1 if ask.ceiling >= block[1] => Some(block.to_vec()),
            1 => Some(none(block.len())),
            2 if ask.ceiling <= earlier.ceiling => Some(none(block.len())),
            _ => None,
        })
    }

    /// The block of one of these, where those before settle it.
    fn due(&self, index: usize) -> Option<Vec<u32>> {
        Answered(self.0[..index].to_vec()).settles(self.0[index].0)
    }

    /// How many are settled by those before them.
    fn settled(&self) -> usize {
        let settled = |&index: &usize| self.due(index).is_some();
        (0..self.0.len()).filter(settled).count()
    }

    /// The bounds of the conflicts without choices that are due, one for each ask that had to walk
    /// and was not spent: c - 1 after a plan of cost c, and so none where it costs nothing, the
    /// ceiling after none.
    fn concluded(&self) -> Vec<u32> {
        let walked = (0..self.0.len()).filter(|&index| self.due(index).is_none());
        walked
            .filter_map(|index| match self.0[index] {
                (_, block) if block[0] == 1 => block[1].checked_sub(1),
                (ask, block) if block[0] == 2 => Some(ask.ceiling),
                _ => None,
            })
            .collect()
    }
}
