//! Files to ask about, the ceilings, budgets and lists of asks that tell something on them, and
//! words to lend that are as misleading as can be.

use crate::off_costs::cost_rows;
use crate::plans::{tied_plan, tiny_plan};
use crate::queries::{all_queries, dirty_scratch};
use crate::schedules::fitted;
use crate::{Buffers, Random};
use reference::{block_len, permitted_starts, word, Ask, Plan, Survey};

/// The largest ceiling and the largest budget.
pub const MOST: u32 = (1 << 28) - 1;

/// Numbers of table words: the fewest, one more, some, the most.
pub const TABLES: [usize; 4] = [64, 65, 200, 16_384];

/// The words of an ask.
pub fn ask(ceiling: u32, budget: u32) -> [u32; 2] {
    [word(11, ceiling), word(12, budget)]
}

/// A plan of the given size to ask about. Three in four are made to fit a schedule; then some get
/// short overhauls in wide windows, and some a peculiarity.
pub fn asked_plan(random: &mut Random, weeks: u32, units: u32) -> Plan {
    let mut plan = if random.once_in(2) {
        tiny_plan(random, weeks, units)
    } else {
        tied_plan(random, weeks, units)
    };
    if !random.once_in(4) {
        plan = fitted(plan, random).plan;
    }
    if random.once_in(2) {
        // a schedule that was sound still is
        widen(&mut plan, random);
    }
    make_peculiar(&mut plan, random);
    plan
}

/// Sizes with few places, all in turn: units, then weeks.
pub fn tiny_size(seed: u64) -> (u32, u32) {
    let sizes = [
        (1, 1),
        (1, 6),
        (2, 2),
        (2, 3),
        (2, 5),
        (3, 1),
        (3, 2),
        (4, 2),
        (5, 1),
        (3, 3),
    ];
    sizes[seed as usize % sizes.len()]
}

/// A small plan to list asks for, of all sizes with few places in turn, one unit and one week among
/// them; some have a single crew, and some no more than one start for a unit.
pub fn listed_plan(seed: u64, random: &mut Random) -> Plan {
    let sizes = [
        (1, 1),
        (1, 6),
        (5, 1),
        (2, 2),
        (2, 5),
        (3, 2),
        (3, 3),
        (3, 4),
        (4, 2),
        (4, 3),
        (5, 2),
        (2, 9),
        (4, 4),
        (5, 3),
    ];
    let (units, weeks) = sizes[seed as usize % sizes.len()];
    let mut plan = asked_plan(random, weeks, units);
    if random.once_in(5) {
        plan.crews = 1;
    }
    if random.once_in(10) {
        let unit = random.place(units as usize);
        plan.latest[unit] = plan.earliest[unit];
    }
    plan
}

/// Overhauls of one week or two, and windows that are open at one end or both.
fn widen(plan: &mut Plan, random: &mut Random) {
    for unit in 0..plan.units as usize {
        plan.duration[unit] = plan.duration[unit].min(random.within(1, 2));
        if !random.once_in(4) {
            plan.earliest[unit] = 1;
        }
        if !random.once_in(4) {
            plan.latest[unit] = plan.weeks;
        }
    }
}

/// Costs that are all 0 or nearly so, a unit that gives nothing, one without a permitted start, or
/// a week whose demand nobody meets; half the plans stay as they are.
fn make_peculiar(plan: &mut Plan, random: &mut Random) {
    let unit = random.place(plan.units as usize);
    let week = random.place(plan.weeks as usize);
    let top = random.within(0, 1);
    match random.within(0, 11) {
        0 | 1 => {
            for row in cost_rows(plan) {
                row.fill_with(|| random.within(0, top));
            }
        }
        2 => plan.maint.iter_mut().for_each(|row| row.fill(top)),
        3 => plan.capacity[unit] = 0,
        4 => leave_no_start(plan, unit + 1),
        5 => plan.demand[week] = 16_000_000,
        _ => {}
    }
}

/// Takes the permitted starts of a unit, where there is more than a week: it may start no earlier
/// than in the last week, and is out for two.
pub fn leave_no_start(plan: &mut Plan, unit: usize) {
    let weeks = plan.weeks;
    plan.duration[unit - 1] = weeks.min(2);
    (plan.earliest[unit - 1], plan.latest[unit - 1]) = (weeks, weeks);
}

/// A plan of 10 to 12 units over 8 weeks with few places: there is little to place, and a dead end
/// may have more than eight units to blame.
pub fn many_units(random: &mut Random) -> Plan {
    let units = random.within(10, 12);
    let mut plan = asked_plan(random, 8, units);
    plan.crews = random.within(4, 12);
    plan.demand
        .fill(random.within(0, plan.capacity.iter().sum::<u32>() / 2));
    plan.pairs.truncate(2);
    plan.duration.fill_with(|| random.within(1, 2));
    leave_few_starts(&mut plan, random);
    plan
}

/// One permitted start for most units and up to three for every third, so that there are few places
/// though there are many units.
fn leave_few_starts(plan: &mut Plan, random: &mut Random) {
    for unit in 0..plan.units as usize {
        let last = plan.weeks + 1 - plan.duration[unit];
        let start = random.within(1, last);
        let more = if unit % 3 == 2 { 2 } else { 0 };
        plan.earliest[unit] = start;
        plan.latest[unit] = last.min(start + more);
    }
}

/// 0, the cost of the cheapest schedule and one euro around it, the largest that there is, and the
/// cost of some schedule; rising.
pub fn telling_ceilings(survey: &Survey, random: &mut Random) -> Vec<u32> {
    let mut ceilings = vec![0, MOST];
    match survey.cheapest(MOST) {
        None => ceilings.push(random.within(1, 1_000_000)),
        Some(cheapest) => {
            let least = cheapest.cost as u32;
            ceilings.extend([least.saturating_sub(1), least, least + 1]);
            let some = &survey.sound()[random.place(survey.sound().len())];
            ceilings.push(some.cost as u32);
        }
    }
    ceilings.sort_unstable();
    ceilings.dedup();
    ceilings
}

/// Every budget up to one more than the number of places where they are few; else the first three,
/// those around their number and around its half, and some.
pub fn telling_budgets(survey: &Survey, random: &mut Random) -> Vec<u32> {
    let places = survey.places().len() as u32;
    let mut budgets: Vec<u32> = if places <= 40 {
        (1..=places + 1).collect()
    } else {
        let some = [0; 3].map(|_| random.within(1, places));
        let around = [1, 2, 3, places / 2, places - 1, places, places + 1];
        [&around[..], &some].concat()
    };
    budgets.push(MOST);
    budgets.sort_unstable();
    budgets.dedup();
    budgets
}

/// 1 to 32 asks, often the fewest, the most or a few: ceilings that rise, fall, are all the same or
/// stay close to the cheapest schedule, and budgets that are all small, all alike, or mixed.
pub fn telling_asks(survey: &Survey, random: &mut Random) -> Vec<Ask> {
    let count = match random.within(0, 5) {
        0 => 1,
        1 => 32,
        2 => random.within(1, 32),
        _ => random.within(2, 6),
    };
    let ceilings = listed_ceilings(survey, count, random);
    let budgets = listed_budgets(survey, count, random);
    let asks = ceilings.into_iter().zip(budgets);
    asks.map(|(ceiling, budget)| Ask { ceiling, budget })
        .collect()
}

fn listed_ceilings(survey: &Survey, count: u32, random: &mut Random) -> Vec<u32> {
    let telling = telling_ceilings(survey, random);
    let least = survey.cheapest(MOST).map(|cheapest| cheapest.cost as u32);
    let around = least.unwrap_or(0).saturating_sub(random.within(0, count));
    let mut ceilings: Vec<u32> = (0..count)
        .map(|_| telling[random.place(telling.len())])
        .collect();
    match random.within(0, 6) {
        0 => ceilings.sort_unstable(),
        1 => ceilings.sort_unstable_by(|a, b| b.cmp(a)),
        2 => ceilings.fill(telling[random.place(telling.len())]),
        // each a euro above the last, and somewhere among them the cheapest schedule
        3 => ceilings = (around..around + count).collect(),
        4 => ceilings.fill_with(|| around + random.within(0, count)),
        5 => ceilings.fill_with(|| random.edgy(0, MOST)),
        _ => {}
    }
    ceilings
}

fn listed_budgets(survey: &Survey, count: u32, random: &mut Random) -> Vec<u32> {
    let places = survey.places().len() as u32;
    let telling = telling_budgets(survey, random);
    let mut budget = || match random.within(0, 4) {
        0 => random.within(1, 3),
        1 => places.saturating_sub(1).max(1) + random.within(0, 2),
        2 => random.within(1, places.max(1)),
        3 => MOST,
        _ => telling[random.place(telling.len())],
    };
    let mut budgets: Vec<u32> = (0..count).map(|_| budget()).collect();
    let first = budgets[0];
    match random.within(0, 5) {
        0 => budgets.fill(first),
        1 => budgets.fill(random.within(1, 3)),
        2 => budgets.sort_unstable(),
        _ => {}
    }
    budgets
}

/// Words for so many asks on the plan, in numbers that are enough and with dirt in them: some beyond
/// the blocks, a table of `table` words, scratch of just enough or a few more.
pub fn dirty_buffers(plan: &Plan, asks: usize, table: usize, random: &mut Random) -> Buffers {
    let answers = asks * block_len(plan) + random.place(4);
    let scratch = 2usize.pow(plan.units) + random.place(3) * random.place(10);
    let queries = all_queries(plan);
    let mut scratches = dirty_scratch(&queries, scratch, random);
    Buffers {
        answers: random.words(answers),
        table: dirty_table(plan, table, random),
        scratch: scratches.swap_remove(random.place(scratches.len())),
    }
}

/// A table that is cleared or filled, has any words, or has conflicts all over that are laid out as
/// they should be but not true: that nothing costs less than the bound, or nothing with a choice.
pub fn dirty_table(plan: &Plan, length: usize, random: &mut Random) -> Vec<u32> {
    let bound = word(13, random.edgy(0, MOST));
    match random.within(0, 4) {
        0 => vec![0; length],
        1 => vec![u32::MAX; length],
        2 => random.words(length),
        3 => vec![bound; length],
        _ => {
            let choice = |place: usize| match place % 2 {
                0 => None,
                _ => random_choice(plan, random),
            };
            let words = (0..length).map(choice);
            words.map(|choice| choice.unwrap_or(bound)).collect()
        }
    }
}

/// The word for a unit and a permitted start of it, where it has any.
fn random_choice(plan: &Plan, random: &mut Random) -> Option<u32> {
    let unit = random.within(1, plan.units);
    let starts = permitted_starts(plan, unit as usize);
    let start = starts.get(random.place(starts.len().max(1)));
    start.map(|start| word(14, unit * 64 + start))
}
