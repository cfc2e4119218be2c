//! Runs of asks on files with too many places to walk them all: what can be told of them by a sound
//! schedule that is known.

use crate::asks::{check_again, proved_asks};
use crate::{Buffers, Random, Scheduled};
use reference::{
    ask_words, block_len, cheapest_run, check_settled, check_table, counted_rank, encode, judge,
    lay_out, mark_of, place_of, runs_of, starts_of, Ask, Judgement, Plan, Schedule, Status,
};

/// A file with a sound schedule of it, the cheapest with its starts.
pub struct KnownFile {
    plan: Plan,
    words: Vec<u32>,
    known: Schedule,
}

impl KnownFile {
    /// The file of a plan that was made to fit a schedule; the runs become the cheapest.
    pub fn new(scheduled: &Scheduled) -> Self {
        let words = encode(&scheduled.plan);
        let runs = cheapest_runs(scheduled);
        let grid = lay_out(&scheduled.plan, &scheduled.starts, &runs);
        let Judgement::Sound(cost) = judge(&words, &grid) else {
            panic!("the plan was made to fit the schedule");
        };
        KnownFile {
            plan: scheduled.plan.clone(),
            words,
            known: Schedule {
                starts: scheduled.starts.clone(),
                runs,
                cost,
            },
        }
    }

    /// The plan.
    pub fn plan(&self) -> &Plan {
        &self.plan
    }

    /// What the known schedule costs.
    pub fn cost(&self) -> u32 {
        self.known.cost as u32
    }

    /// The statuses of a proved run in the lent words, after the number of conflicts that it left;
    /// else what is wrong with it as far as can be told.
    pub fn check(&self, asks: &[Ask], lent: &mut Buffers) -> Result<(usize, Vec<Status>), String> {
        let words = ask_words(asks);
        let refused = |refusal| format!("refused, {refusal}");
        proved_asks(&self.words, &words, lent).map_err(refused)?;
        let length = asks.len() * block_len(&self.plan);
        check_again(&self.words, &words, length, lent, "a large file");
        let answers = &lent.answers[..length];
        let blocks = answers.chunks(block_len(&self.plan));
        let statuses = blocks
            .zip(asks)
            .map(|(block, &ask)| self.check_block(ask, block))
            .collect::<Result<_, _>>()?;
        check_settled(&self.plan, asks, answers)?;
        let conflicts = check_table(&self.plan, asks, answers, &lent.table)?;
        let Schedule { starts, cost, .. } = &self.known;
        let has = |&(unit, start): &(u32, u32)| starts[unit as usize - 1] == start;
        match conflicts
            .iter()
            .find(|claim| u64::from(claim.bound) >= *cost && claim.choices.iter().all(has))
        {
            Some(untrue) => Err(format!("{untrue:?} is not true of {:?}", self.known)),
            None => Ok((conflicts.len(), statuses)),
        }
    }

    /// The status of a block in which nothing is seen to be wrong: a mark of rank at least the
    /// budget, a sound schedule before it that is no later than the known one, or none.
    fn check_block(&self, ask: Ask, block: &[u32]) -> Result<Status, String> {
        let status = match block[0] {
            1 => Status::Plan,
            2 => Status::None,
            3 => Status::Best,
            4 => Status::Spent,
            other => return Err(format!("there is no status {other}")),
        };
        let spent = matches!(status, Status::Best | Status::Spent);
        let mark = place_of(mark_of(&self.plan, block));
        match counted_rank(&self.plan, mark) {
            Some(rank) if spent && rank >= u128::from(ask.budget) => {}
            None if !spent && mark.is_empty() => {}
            rank => return Err(format!("rank {rank:?} of {mark:?} for {status:?}, {ask:?}")),
        }
        let counts =
            |starts: &[u32], cost| cost <= u64::from(ask.ceiling) && (!spent || starts < mark);
        let known = Some(&self.known).filter(|known| counts(&known.starts, known.cost));
        let found = self.schedule(status, block)?;
        match (&found, known) {
            (Some(found), _) if !counts(&found.starts, found.cost) => {
                Err(format!("{found:?} does not count for {ask:?}, {mark:?}"))
            }
            (Some(found), Some(known)) if is_later(found, known) => {
                Err(format!("{found:?}, but {known:?} for {ask:?}, {mark:?}"))
            }
            (None, Some(known)) => Err(format!("{status:?}, but {known:?} for {ask:?}, {mark:?}")),
            _ => Ok(status),
        }
    }

    /// The schedule in a block whose status has one, sound at its cost and with the cheapest run in
    /// each week; only 0 where the status has none.
    fn schedule(&self, status: Status, block: &[u32]) -> Result<Option<Schedule>, String> {
        let found = Scheduled {
            plan: self.plan.clone(),
            starts: starts_of(&self.plan, block).to_vec(),
            runs: runs_of(&self.plan, block).to_vec(),
        };
        let cost = u64::from(block[1]);
        if matches!(status, Status::None | Status::Spent) {
            let all = found.starts.iter().chain(&found.runs);
            let empty = cost == 0 && all.into_iter().all(|&word| word == 0);
            return if empty {
                Ok(None)
            } else {
                Err(format!("{status:?} in {block:?}"))
            };
        }
        let judged = judge(&self.words, &found.grid());
        if judged != Judgement::Sound(cost) || found.runs != cheapest_runs(&found) {
            return Err(format!("{judged:?} in {block:?}"));
        }
        Ok(Some(Schedule {
            starts: found.starts,
            runs: found.runs,
            cost,
        }))
    }
}

/// Dearer, or of the same cost and with later starts.
fn is_later(found: &Schedule, known: &Schedule) -> bool {
    (found.cost, &found.starts) > (known.cost, &known.starts)
}

/// Each week's cheapest run with the units out that the schedule has out; 0 where there is none.
fn cheapest_runs(scheduled: &Scheduled) -> Vec<u32> {
    let out = scheduled.out();
    let cheapest = |(week, &out)| cheapest_run(&scheduled.plan, week, out);
    (1..)
        .zip(&out)
        .map(|week| cheapest(week).map_or(0, |cheapest| cheapest.run))
        .collect()
}

/// Asks around a cost with budgets of every size up to the given one, ever larger ones last.
pub fn asks_around(cost: u32, count: u32, most: u32, random: &mut Random) -> Vec<Ask> {
    let mut budgets: Vec<u32> = (0..count).map(|_| random.edgy(1, most)).collect();
    budgets.sort_unstable();
    let ceiling = |random: &mut Random| match random.within(0, 4) {
        0 => cost.saturating_sub(1),
        1 => cost,
        2 => cost - cost / random.within(2, 50),
        3 => cost / random.within(2, 9),
        _ => (1 << 28) - 1,
    };
    let ask = |budget| Ask {
        ceiling: ceiling(random),
        budget,
    };
    budgets.into_iter().map(ask).collect()
}
