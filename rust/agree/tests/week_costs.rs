//! Lists of costs of cheapest runs: the proved call against the reference, with every lent cost
//! looked at; scratch of any length and content, many queries repeated, damaged files.

use agree::{
    all_queries, dirty_scratch, edited, largest, proved_run, query, random_queries, small_plans,
    smallest, thrifty_units, tied_plan, OffClass, OffCounts, Random,
};
use reference::{encode, example_a, example_a_words, week_costs, word, Plan, Refusal};
use std::fmt::Arguments;

/// Numbers of scratch words: none, too few for anything, uneven, fewer than queries and more.
const LENGTHS: [usize; 7] = [0, 1, 2, 3, 7, 64, 4096];

/// A file, a list of queries and a number of lent costs, with what the reference answers.
struct Asked {
    words: Vec<u32>,
    queries: Vec<u32>,
    lent: usize,
    expected: Result<Vec<u32>, Refusal>,
}

impl Asked {
    fn new(words: Vec<u32>, queries: Vec<u32>, lent: usize) -> Self {
        let expected = week_costs(&words, &queries, lent);
        Asked {
            words,
            queries,
            lent,
            expected,
        }
    }

    /// As many costs lent as there are queries.
    fn in_full(plan: &Plan, queries: Vec<u32>) -> Self {
        let lent = queries.len();
        Asked::new(encode(plan), queries, lent)
    }

    /// Asks the proved call, with any words lent for the costs, and holds the result and every lent
    /// cost against the reference: the costs and then what was there before, or all of it where
    /// refused, and then all of the scratch.
    fn agreed(
        &self,
        scratch: &mut [u32],
        random: &mut Random,
        origin: Arguments,
    ) -> Result<(), Refusal> {
        let (dirty, before) = (random.words(self.lent), scratch.to_vec());
        let mut lent = dirty.clone();
        let proved = ffi::week_costs(&self.words, &self.queries, scratch, &mut lent);
        let proved = proved.map_err(|refusal| Refusal {
            number: refusal.number,
            place: refusal.place,
        });
        let verdict = self.expected.clone().map(|_| ());
        assert_eq!(proved, verdict, "proved, then reference, {origin}");
        let mut after = dirty;
        match &self.expected {
            Ok(costs) => after[..costs.len()].copy_from_slice(costs),
            Err(_) => assert_eq!(scratch, before, "scratch, then as it was, {origin}"),
        }
        assert_eq!(lent, after, "proved, then reference, {origin}");
        verdict
    }
}

/// Small numbers of units and weeks, all of them in turn.
fn small_size(seed: u64) -> (u32, u32) {
    (seed as u32 / 8 % 3 + 1, seed as u32 % 8 + 1)
}

/// The numbers of a list in any order.
fn shuffled(mut list: Vec<u32>, random: &mut Random) -> Vec<u32> {
    for last in (1..list.len()).rev() {
        list.swap(last, random.place(last + 1));
    }
    list
}

/// Weeks 0 to 4 of file A, each with nobody, unit 1, unit 2 and both out.
#[test]
fn the_costs_of_file_a_are_given() {
    let (none, week) = ([268_435_456; 4], [3, 4, 3, 268_435_456]);
    let queries = all_queries(&example_a());
    assert_eq!(queries[..6], [0, 1, 2, 3, 65_536, 65_537]);
    let mut costs = [9; 22];
    let asked = ffi::week_costs(&example_a_words(), &queries, &mut [], &mut costs);
    assert_eq!(asked, Ok(()));
    assert_eq!(costs[..20], [none, week, week, week, none].concat());
    assert_eq!(costs[20..], [9, 9]);
    assert_eq!(ffi::NO_RUN, 268_435_456);
}

/// A week in which unit 3 costs less running than OFF and unit 2 as much, asked twice with one
/// memory: what units out would cost OFF is not in a cost, whichever query was answered before.
#[test]
fn off_is_charged_to_units_that_neither_run_nor_are_out() {
    let plan = Plan {
        demand: vec![10],
        capacity: vec![10, 10, 1],
        running: vec![vec![5, 6, 2]],
        off: Some(vec![vec![1, 6, 3]]),
        ..smallest(1, 3)
    };
    let queries: Vec<u32> = (0..8)
        .chain((0..8).rev())
        .map(|out| query(1, out))
        .collect();
    let once = [9, 8, 7, ffi::NO_RUN, 7, 6, 5, ffi::NO_RUN];
    let back: Vec<u32> = once.iter().rev().copied().collect();
    for length in LENGTHS {
        let (mut scratch, mut costs) = (vec![0; length], [0; 16]);
        let asked = ffi::week_costs(&encode(&plan), &queries, &mut scratch, &mut costs);
        assert_eq!(asked, Ok(()));
        assert_eq!(costs[..8], once, "scratch {length}");
        assert_eq!(costs[8..], back, "scratch {length}");
    }
}

/// Every set out of every week, in files with OFF costs of each class: with one more unit out that
/// costs less running than OFF, and without.
#[test]
fn every_query_of_files_with_off_costs_of_each_class_agrees() {
    let (mut off, mut cheaper) = (OffCounts::default(), 0);
    for seed in 0..120 {
        let mut random = Random::seeded(seed);
        let (weeks, units) = small_size(seed);
        let mut plan = tied_plan(&mut random, weeks, units);
        for class in OffClass::ALL {
            plan.off = class.costs(&plan.running, &mut random);
            off.add(&plan);
            let asked = Asked::in_full(&plan, shuffled(all_queries(&plan), &mut random));
            let costs = asked.expected.as_ref().expect("the file is accepted");
            let cost_of = |asked_for: u32| {
                let mut all = asked.queries.iter().zip(costs);
                all.find(|(&query, _)| query == asked_for)
                    .map(|(_, &cost)| cost)
            };
            let none_out = cost_of(query(1, 0));
            cheaper += usize::from(cost_of(query(1, thrifty_units(&plan, 1))) < none_out);
            for length in [0, 7, 64] {
                let mut scratch = random.words(length);
                let origin = format_args!("{class:?}, scratch {length}, seed {seed}");
                assert_eq!(asked.agreed(&mut scratch, &mut random, origin), Ok(()));
            }
        }
    }
    println!("{off}; a week was cheaper with its thrifty units out in {cheaper} files");
    assert!(off.rarest() > 80 && cheaper > 20);
}

#[test]
fn no_length_and_no_content_of_scratch_changes_a_cost() {
    let (mut calls, mut off) = (0, OffCounts::default());
    for seed in 0..300 {
        let mut random = Random::seeded(seed);
        let (weeks, units) = small_size(seed);
        let plan = tied_plan(&mut random, weeks, units);
        off.add(&plan);
        let queries = random_queries(&plan, 60, &mut random);
        let asked = Asked::new(encode(&plan), queries, 60 + random.place(4));
        for length in LENGTHS {
            let states = dirty_scratch(&asked.queries, length, &mut random);
            for (state, mut scratch) in states.into_iter().enumerate() {
                let origin = format_args!("scratch {length}, state {state}, seed {seed}");
                let verdict = asked.agreed(&mut scratch, &mut random, origin);
                assert_eq!(verdict, Ok(()));
                calls += 1;
            }
        }
    }
    println!("any length and content of scratch: {calls} calls of 60 queries, {off}");
    assert!(off.rarest() > 30);
}

#[test]
fn every_query_of_small_files_agrees_in_any_order() {
    let (mut costs, mut off) = (0, OffCounts::default());
    for seed in 0..240 {
        let mut random = Random::seeded(seed);
        let (weeks, units) = small_size(seed);
        let plan = tied_plan(&mut random, weeks, units);
        off.add(&plan);
        let twice = all_queries(&plan).repeat(2);
        let mixed = shuffled(twice.clone(), &mut random);
        for asked in [twice, mixed].map(|queries| Asked::in_full(&plan, queries)) {
            for length in LENGTHS {
                let mut scratch = random.words(length);
                let origin = format_args!("scratch {length}, seed {seed}");
                let verdict = asked.agreed(&mut scratch, &mut random, origin);
                assert_eq!(verdict, Ok(()));
                costs += asked.lent;
            }
        }
    }
    println!("every query of small files: {costs} costs, {off}");
    assert!(off.rarest() > 20);
}

/// The scratch that the call on one file left is lent to the call on another with the same queries:
/// whole, without its first word, and without its last.
#[test]
fn what_a_call_on_another_file_left_in_the_scratch_changes_no_cost() {
    for seed in 0..200 {
        let mut random = Random::seeded(seed);
        let plans = [0; 2].map(|_| tied_plan(&mut random, 2, 5));
        let queries = random_queries(&plans[0], 100, &mut random);
        let asked = plans.map(|plan| Asked::in_full(&plan, queries.clone()));
        for length in LENGTHS {
            let mut scratch = random.words(length);
            let (first, last) = (length.min(1), length.saturating_sub(1));
            for part in [0..length, first..length, 0..last] {
                for asked in &asked {
                    let origin = format_args!("scratch {part:?}, seed {seed}");
                    let lent = &mut scratch[part.clone()];
                    assert_eq!(asked.agreed(lent, &mut random, origin), Ok(()));
                }
            }
        }
    }
}

/// One unit is enough, and its cost tells the week and the unit.
#[test]
fn the_same_set_in_different_weeks_one_after_the_other_agrees() {
    let mut random = Random::seeded(0);
    let costs_from = |first| (first..first + 8).collect();
    let plan = Plan {
        demand: vec![1; 52],
        capacity: vec![1; 8],
        running: (1..=52).map(|week| costs_from(100 * week)).collect(),
        ..smallest(52, 8)
    };
    let by_week = |out| (0..=53).map(move |week| query(week, out));
    let asked = Asked::in_full(&plan, (0..256).flat_map(by_week).collect());
    for length in LENGTHS.into_iter().chain([65_536, 65_537]) {
        let mut scratch = random.words(length);
        let origin = format_args!("scratch {length}");
        let verdict = asked.agreed(&mut scratch, &mut random, origin);
        assert_eq!(verdict, Ok(()));
    }
}

/// A set of the file's three units with every set of the others that a query can name.
#[test]
fn units_and_weeks_that_the_file_has_not_agree() {
    let weeks = [0, 1, 2, 3, 4, 53, 63, 64, 65, 128, 32_769, 65_535];
    for seed in 0..100 {
        let mut random = Random::seeded(seed);
        let plan = tied_plan(&mut random, 2, 3);
        let set = random.within(0, 7);
        let mut week = || weeks[random.place(weeks.len())];
        let others = (0..65_536).step_by(8);
        let queries = others.map(|others| query(week(), others + set)).collect();
        let asked = Asked::in_full(&plan, queries);
        for length in [0, 7, 4096] {
            let mut scratch = random.words(length);
            let origin = format_args!("scratch {length}, seed {seed}");
            let verdict = asked.agreed(&mut scratch, &mut random, origin);
            assert_eq!(verdict, Ok(()));
        }
    }
}

#[test]
fn lent_costs_of_every_number_are_written_or_refused_as_17() {
    let (mut written, mut short) = (0, 0);
    for seed in 0..40 {
        let mut random = Random::seeded(seed);
        let plan = tied_plan(&mut random, 3, 4);
        let queries = random_queries(&plan, 12, &mut random);
        for lent in 0..=16 {
            let asked = Asked::new(encode(&plan), queries.clone(), lent);
            for length in LENGTHS {
                let mut scratch = random.words(length);
                let origin = format_args!("{lent} lent, scratch {length}, seed {seed}");
                match asked.agreed(&mut scratch, &mut random, origin) {
                    Ok(()) => written += 1,
                    Err(refusal) => {
                        assert_eq!((refusal.number, refusal.place), (17, 0));
                        short += 1;
                    }
                }
            }
        }
    }
    assert_eq!((written, short), (40 * 7 * 5, 40 * 7 * 12));
}

#[test]
fn no_query_is_answered_with_nothing_written() {
    let mut random = Random::seeded(0);
    for lent in 0..4 {
        let asked = Asked::new(example_a_words(), vec![], lent);
        for length in LENGTHS {
            let mut scratch = random.words(length);
            let origin = format_args!("{lent} lent, scratch {length}");
            let verdict = asked.agreed(&mut scratch, &mut random, origin);
            assert_eq!(verdict, Ok(()));
        }
    }
}

/// The file comes first: its refusal stands also where too few costs are lent or nothing is asked.
#[test]
fn a_refused_file_keeps_every_lent_cost_and_the_scratch() {
    let mut random = Random::seeded(1);
    for plan in small_plans() {
        let words = encode(&plan);
        let queries = random_queries(&plan, 5, &mut random);
        let longer = [&words[..], &[word(10, 34)]].concat();
        let cut = (0..words.len()).map(|length| words[..length].to_vec());
        for damaged in cut.chain([longer]) {
            let number = if damaged.len() < words.len() { 1 } else { 7 };
            let place = damaged.len().min(words.len());
            for (count, lent) in [(5, 0), (5, 4), (5, 5), (5, 6), (0, 0), (0, 3)] {
                let asked = Asked::new(damaged.clone(), queries[..count].to_vec(), lent);
                let mut scratch = random.words(64);
                let origin = format_args!("{lent} lent, {} words", damaged.len());
                let verdict = asked.agreed(&mut scratch, &mut random, origin);
                assert_eq!(verdict, Err(Refusal { number, place }));
            }
        }
    }
}

#[test]
fn edited_files_have_their_costs_or_their_refusal() {
    let mut refused = 0;
    for seed in 0..5000 {
        let mut random = Random::seeded(seed);
        let plan = tied_plan(&mut random, 4, 4);
        let words = edited(&encode(&plan), &plan, &mut random);
        let queries = random_queries(&plan, 8, &mut random);
        let asked = Asked::new(words, queries, random.within(6, 10) as usize);
        let mut scratch = random.words(7);
        let origin = format_args!("seed {seed}");
        let verdict = asked.agreed(&mut scratch, &mut random, origin);
        refused += usize::from(verdict.is_err());
    }
    assert!(refused > 1000 && refused < 5000);
}

#[test]
fn the_dearest_runs_of_any_file_are_given() {
    let queries: Vec<u32> = (1..=52)
        .flat_map(|week| [query(week, 0), query(week, 0x8000), query(week, 0)])
        .collect();
    let mut costs = vec![7; queries.len()];
    let asked = ffi::week_costs(&encode(&largest()), &queries, &mut [9; 64], &mut costs);
    assert_eq!(asked, Ok(()));
    assert_eq!(costs, [4_000_000, ffi::NO_RUN, 4_000_000].repeat(52));
}

/// Too many sets for the reference, so the costs are held against those of single runs, which have
/// a test of their own against it.
#[test]
fn costs_in_files_of_16_units_are_those_of_single_runs() {
    let mut off = OffCounts::default();
    for seed in 0..24 {
        let mut random = Random::seeded(seed);
        let mut plan = tied_plan(&mut random, 52, 16);
        let class = OffClass::ALL[seed as usize % OffClass::ALL.len()];
        plan.off = class.costs(&plan.running, &mut random);
        off.add(&plan);
        let (words, queries) = (encode(&plan), random_queries(&plan, 1000, &mut random));
        let cost = |&asked: &u32| {
            let answer = proved_run(&words, (asked / 65_536) as usize, asked % 65_536);
            let cheapest = answer.expect("the file is accepted");
            cheapest.map_or(ffi::NO_RUN, |cheapest| cheapest.cost as u32)
        };
        let expected: Vec<u32> = queries.iter().map(cost).collect();
        for length in LENGTHS.into_iter().chain([65_536]) {
            let (mut scratch, mut costs) = (random.words(length), random.words(1000));
            let asked = ffi::week_costs(&words, &queries, &mut scratch, &mut costs);
            assert_eq!(asked, Ok(()));
            assert_eq!(costs, expected, "scratch {length}, seed {seed}");
        }
    }
    assert!(off.rarest() >= 4);
}
