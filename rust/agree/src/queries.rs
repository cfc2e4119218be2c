//! Queries on weeks, and words to lend as scratch to the call that answers them.

use crate::off_costs::thrifty_units;
use crate::Random;
use reference::Plan;

/// How many sets of units a query may name, and so what its week counts for.
const SETS: u32 = 65_536;

/// The query for a week and a set of units out.
pub fn query(week: u32, out: u32) -> u32 {
    week * SETS + out
}

/// Every set of the plan's units out of every week, the one before and the one after.
pub fn all_queries(plan: &Plan) -> Vec<u32> {
    let sets = 0..1 << plan.units;
    (0..=plan.weeks + 1)
        .flat_map(|week| sets.clone().map(move |out| query(week, out)))
        .collect()
}

/// As many queries, at least one: many are repeated at once or later, others follow with the same
/// set in the next week or with one unit more or less, some have units out that cost less running
/// than OFF, all of them or some, and some have weeks or units that the plan has not.
pub fn random_queries(plan: &Plan, count: usize, random: &mut Random) -> Vec<u32> {
    let mut queries = vec![random_query(plan, random)];
    while queries.len() < count {
        let (earlier, last) = (random.place(queries.len()), queries.len() - 1);
        queries.push(match random.within(0, 10) {
            0 | 1 => queries[earlier],
            2 => queries[last],
            3 => queries[earlier].wrapping_add(SETS),
            4 => queries[last].wrapping_add(SETS),
            5 => queries[last] ^ 1 << random.within(0, plan.units - 1),
            6 => queries[last] ^ 1 << random.within(0, 15),
            7 => random.word(),
            8 => thrifty_query(plan, random),
            _ => random_query(plan, random),
        });
    }
    queries
}

/// Units out of one of the plan's weeks that cost less running than OFF, all of them or some.
fn thrifty_query(plan: &Plan, random: &mut Random) -> u32 {
    let week = random.within(1, plan.weeks);
    let thrifty = thrifty_units(plan, week as usize);
    let some = if random.once_in(2) {
        u32::MAX
    } else {
        random.word()
    };
    query(week, thrifty & some)
}

/// Any set of the plan's units out of one of its weeks.
fn random_query(plan: &Plan, random: &mut Random) -> u32 {
    let units = (1 << plan.units) - 1;
    query(random.within(1, plan.weeks), random.word() & units)
}

/// Words to lend as scratch, of the given number: cleared, filled, any, or taken for a memo of the
/// queries, with keys in several codes and layouts and wrong costs beside them. Where a memo looks
/// for a key is its own affair, so the same key is then in every place, or each query's in turn.
pub fn dirty_scratch(queries: &[u32], length: usize, random: &mut Random) -> Vec<Vec<u32>> {
    let mut scratches = vec![vec![0; length], vec![u32::MAX; length]];
    scratches.push(random.words(length));
    for code in CODES {
        for is_key in LAYOUTS {
            let same = [queries[random.place(queries.len())]];
            for asked in [&same, queries] {
                let key = |place: usize| code(asked[place / 2 % asked.len()]);
                let word = |place| {
                    if is_key(place, length) {
                        key(place)
                    } else {
                        random.within(0, 4_000_000)
                    }
                };
                scratches.push((0..length).map(word).collect());
            }
        }
    }
    scratches
}

/// Keys that a memo may have for a query: itself or another that is never 0.
const CODES: [fn(u32) -> u32; 6] = [
    |query| query,
    |query| query.wrapping_sub(SETS).wrapping_add(1),
    |query| query.wrapping_add(1),
    |query| query.wrapping_sub(SETS),
    |query| query.wrapping_mul(2).wrapping_add(1),
    |query| query.wrapping_mul(2).wrapping_add(2),
];

/// Which places of so many have a key: every other one, or half of all.
const LAYOUTS: [fn(usize, usize) -> bool; 4] = [
    |place, _| place % 2 == 0,
    |place, _| place % 2 == 1,
    |place, length| place < length / 2,
    |place, length| place >= length / 2,
];
