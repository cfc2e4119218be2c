//! Ways to damage a file: one word replaced by each telling one, several words edited at random,
//! every word random from some place on, or the OFF costs alone.

use crate::Random;
use reference::{encode, kind_of, value_of, word, Plan, Refusal};

const HIGHEST: u32 = (1 << 28) - 1;

/// The words that tell something at `place` in a file of the plan, in place of the one there: its
/// value under every kind; its kind with the neighbours of its value, of 0, and of the end of
/// every range; windows and pairs with each half at or past its borders; the word before and the
/// word after; one bit flipped. Never the word that is there.
pub fn replacements(words: &[u32], place: usize, plan: &Plan) -> Vec<u32> {
    let old = words[place];
    let mut telling = of_the_same_kind(old, plan);
    telling.extend((0..16).map(|kind| word(kind, value_of(old))));
    telling.extend((0..32).map(|bit| old ^ (1 << bit)));
    telling.extend(&words[place.saturating_sub(1)..words.len().min(place + 2)]);
    telling.sort_unstable();
    telling.dedup();
    telling.retain(|&new| new != old);
    telling
}

fn of_the_same_kind(old: u32, plan: &Plan) -> Vec<u32> {
    let (kind, value) = (kind_of(old), value_of(old));
    let mut values = vec![0, 1, HIGHEST, HIGHEST - 1];
    values.extend([value.wrapping_sub(1) & HIGHEST, (value + 1) & HIGHEST]);
    for end in [
        plan.weeks, plan.units, 16, 52, 250_000, 1_000_000, 16_000_000,
    ] {
        values.extend([end - 1, end, end + 1]);
    }
    values.extend(windows(value, plan.weeks));
    values.extend(pairs(value, plan.units));
    values.iter().map(|&value| word(kind, value)).collect()
}

/// Windows with each half at, below and above its borders, or as it is in `value`.
fn windows(value: u32, weeks: u32) -> Vec<u32> {
    let halves = [0, 1, weeks - 1, weeks, weeks + 1, 53, 63];
    let mut values = combined(&halves, &halves, 64);
    values.extend(combined(&[value / 64], &halves, 64));
    values.extend(combined(&halves, &[value % 64], 64));
    values
}

/// Pairs with each half at, below and above its borders, or as it is in `value`.
fn pairs(value: u32, units: u32) -> Vec<u32> {
    let halves = [0, 1, 2, units - 1, units, units + 1, 31];
    let mut values = combined(&halves, &halves, 32);
    values.extend(combined(&[value / 32], &halves, 32));
    values.extend(combined(&halves, &[value % 32], 32));
    values
}

/// Every upper half with every lower one.
fn combined(uppers: &[u32], lowers: &[u32], base: u32) -> Vec<u32> {
    let mut values = vec![];
    for upper in uppers {
        values.extend(lowers.iter().map(|lower| upper * base + lower));
    }
    values
}

/// A word of the same kind with a value in or just outside the kind's range in files of the plan.
pub fn near(old: u32, plan: &Plan, random: &mut Random) -> u32 {
    let (past_weeks, past_units) = (plan.weeks + 1, plan.units + 1);
    let value = match kind_of(old) {
        1 => random.within(0, 53),
        2 | 3 => random.within(0, 17),
        4 => random.edgy(0, 16_000_001),
        5 => random.edgy(0, 1_000_001),
        6 => random.within(0, past_weeks) * 64 + random.within(0, past_weeks),
        7 => random.within(0, past_weeks),
        0 | 8 | 9 => random.edgy(0, 250_001),
        10 => random.within(0, past_units) * 32 + random.within(0, past_units),
        _ => (value_of(old) + random.within(0, 2)).saturating_sub(1),
    };
    word(kind_of(old), value)
}

/// The words with the last one an end word that counts those before it.
pub fn recounted(mut words: Vec<u32>) -> Vec<u32> {
    words.pop();
    words.push(word(15, words.len() as u32));
    words
}

/// The file of a plan that has OFF costs with these damaged, in each way that there is and with the
/// refusal that is due: fewer of them, one too many, one of another kind, one too high.
pub fn off_damages(plan: &Plan) -> Vec<(Vec<u32>, Refusal)> {
    let words = encode(plan);
    let cells = (plan.weeks * plan.units) as usize;
    let first = words.len() - 1 - plan.pairs.len() - cells;
    let mut damages = vec![];
    let mut add = |words: Vec<u32>, number, place| damages.push((words, Refusal { number, place }));
    for count in 1..cells {
        let fewer = [&words[..first + count], &words[first + cells..]].concat();
        add(recounted(fewer), 1, first + count);
    }
    for cost in [0, 250_000, HIGHEST] {
        let mut more = words.clone();
        more.insert(first + cells, word(0, cost));
        add(recounted(more), 1, first + cells);
    }
    for place in first..first + cells {
        let with = |new: u32| {
            let mut words = words.clone();
            words[place] = new;
            words
        };
        for high in [250_001, HIGHEST] {
            add(with(word(0, high)), 2, place);
        }
        // another kind in front is no OFF cost, and leaves all of them out
        for kind in (1..16).filter(|_| place > first) {
            add(with(word(kind, value_of(words[place]))), 1, place);
        }
    }
    damages
}

/// The words after 1 to 4 random edits: a word replaced, two swapped, one deleted, one inserted.
/// Half the time the end word is then set right, so that the damage is not always found by it.
pub fn edited(words: &[u32], plan: &Plan, random: &mut Random) -> Vec<u32> {
    let mut words = words.to_vec();
    for _ in 0..random.within(1, 4) {
        edit(&mut words, plan, random);
    }
    if random.once_in(2) {
        words = recounted(words);
    }
    words
}

/// The words before `place`, and then random ones, at most 59, of which the first few often go on
/// as a legal file does.
pub fn random_from(words: &[u32], place: usize, plan: &Plan, random: &mut Random) -> Vec<u32> {
    let mut damaged = words[..place].to_vec();
    for _ in 0..random.place(60) {
        damaged.push(plausible(words, damaged.len(), plan, random));
    }
    damaged
}

/// Any word; a word of the file, from any place; or one of the kind that the file has at `place`
/// (past its end, the last), with any value or, half the time, one in or just outside its range.
fn plausible(words: &[u32], place: usize, plan: &Plan, random: &mut Random) -> u32 {
    let due = words[place.min(words.len() - 1)];
    match random.within(0, 5) {
        0 => random.word(),
        1 => word(kind_of(due), random.within(0, HIGHEST)),
        2 => words[random.place(words.len())],
        _ => near(due, plan, random),
    }
}

fn edit(words: &mut Vec<u32>, plan: &Plan, random: &mut Random) {
    if words.is_empty() {
        return;
    }
    let (place, other) = (random.place(words.len()), random.place(words.len()));
    let telling = replacements(words, place, plan);
    let new = telling[random.place(telling.len())];
    match random.within(0, 4) {
        0 => words[place] = new,
        1 => words.swap(place, other),
        2 => drop(words.remove(place)),
        3 => words.insert(place, new),
        _ => words.insert(place, words[other]),
    }
}
