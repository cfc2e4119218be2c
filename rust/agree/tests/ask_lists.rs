//! Lists of asks, whole runs of them: every block of the proved run, by itself and by the rules on
//! later asks, and every conflict that it left, against all schedules and places of small files, in
//! dirty words and in cleared ones.

use agree::{
    asked_plan, asks_around, listed_plan, many_units, random_scheduled, seeds_for, staggered,
    telling_asks, telling_ceilings, Answers, AskedFile, Buffers, KnownFile, OffClass, OffCounts,
    Random, MOST, TABLES,
};
use reference::{
    ask_words, block_len, encode, example_a, example_a_words, words_from, Ask, Status,
};
use std::collections::BTreeMap;

#[test]
fn the_worked_run_leaves_its_blocks() {
    let mut answers = Answers::default();
    let mut file = AskedFile::new(example_a_words());
    let mut lent = Buffers::alike(20, 64, 4);
    let asks = words_from("11:100 12:12 11:18 12:1");
    let origin = format_args!("the worked run");
    let said = answers.agreed(&mut file, &asks, &mut lent, origin);
    assert_eq!(said, Ok(vec![Status::Plan, Status::None]));
    let blocks = [1, 19, 2, 1, 1, 2, 1, 0, 0, 2, 0, 0, 0, 0, 0, 0, 0, 0];
    assert_eq!(lent.answers, [&blocks[..], &[9, 9]].concat());
    assert_eq!((answers.settled(), answers.concluded()), (1, 1));
}

/// Every list of three of the asks that tell something on file A, in each length of table by turns.
#[test]
fn every_list_of_three_asks_on_file_a_agrees() {
    let mut answers = Answers::default();
    let mut random = Random::seeded(0);
    let mut file = AskedFile::new(example_a_words());
    let ceilings = [0, 18, 19, 21, MOST].iter();
    let all: Vec<Ask> = ceilings
        .flat_map(|&ceiling| [1, 3, 6, 12].map(|budget| Ask { ceiling, budget }))
        .collect();
    for number in 0..all.len().pow(3) {
        let asks = [1, 20, 400].map(|power| all[number / power % 20]);
        let table = TABLES[number % 4];
        answers.statuses(&mut file, &asks, table, &mut random, 0);
    }
    answers.report("every list of three asks on file A");
    assert_eq!(answers.runs(), 8000);
    assert!(answers.settled() > 4000 && answers.concluded() > 6000);
    assert!(answers.got(Status::Plan) > 4000 && answers.got(Status::None) > 6000);
    assert!(answers.got(Status::Best) > 1000 && answers.got(Status::Spent) > 1000);
}

/// Lists of two of the asks that tell something on file A, with OFF costs of each class.
#[test]
fn lists_of_two_asks_on_file_a_with_off_costs_agree() {
    let mut answers = Answers::default();
    let mut random = Random::seeded(0);
    for class in OffClass::ALL.repeat(3) {
        let mut plan = example_a();
        plan.off = class.costs(&plan.running, &mut random);
        let mut file = AskedFile::new(encode(&plan));
        let ceilings = telling_ceilings(file.survey(), &mut random);
        let all: Vec<Ask> = ceilings
            .iter()
            .flat_map(|&ceiling| [1, 2, 3, 6, 12].map(|budget| Ask { ceiling, budget }))
            .collect();
        for number in 0..all.len().pow(2) {
            let asks = [number / all.len(), number % all.len()].map(|place| all[place]);
            let table = TABLES[number % 3];
            answers.statuses(&mut file, &asks, table, &mut random, 0);
        }
    }
    answers.report("lists of two asks on file A with OFF costs");
    assert!(answers.got(Status::Plan) > 2000 && answers.got(Status::None) > 2000);
    assert!(answers.got(Status::Best) > 500 && answers.got(Status::Spent) > 500);
    assert!(answers.off().rarest() > 1500);
}

#[test]
fn random_lists_on_small_files_agree() {
    let what = "random lists on small files";
    let mut answers = Answers::default();
    let mut whole = 0;
    for seed in seeds_for(0.4, 1500, what) {
        let mut random = Random::seeded(seed);
        let mut file = AskedFile::new(encode(&listed_plan(seed, &mut random)));
        for _ in 0..4 {
            let asks = telling_asks(file.survey(), &mut random);
            let table = random.one_of(&TABLES);
            answers.statuses(&mut file, &asks, table, &mut random, seed);
            whole += usize::from(asks.len() == 32);
        }
    }
    answers.report(what);
    println!("{whole} lists had 32 asks");
    assert!(answers.runs() >= 6000 && whole > 500);
    assert!(answers.got(Status::Plan) > 10_000 && answers.got(Status::None) > 10_000);
    assert!(answers.got(Status::Best) > 500 && answers.got(Status::Spent) > 1000);
    assert!(answers.settled() > 10_000 && answers.free() > 1000);
    assert!(answers.noted() > 2000 && answers.concluded() > 4000);
    assert!(answers.off().rarest() > 600);
}

/// Four or five units that may start in most weeks, so that asks are spent again and again, each
/// with what those before it left, until one is not.
#[test]
fn random_lists_on_files_with_many_places_agree() {
    let what = "random lists on files with many places";
    let mut answers = Answers::default();
    for seed in seeds_for(0.2, 200, what) {
        let mut random = Random::seeded(seed);
        let mut plan = asked_plan(&mut random, 4 + seed as u32 % 3, 4 + seed as u32 / 3 % 2);
        plan.earliest.fill(1);
        plan.crews = plan.crews.min(random.within(1, 3));
        let mut file = AskedFile::new(encode(&plan));
        for _ in 0..4 {
            let mut asks = telling_asks(file.survey(), &mut random);
            if random.once_in(2) {
                // ever more tries
                let places = file.survey().places().len() as u32;
                let part = |index: usize| places * index as u32 / 32 + 1;
                (0..asks.len()).for_each(|index| asks[index].budget = part(index));
            }
            let table = random.one_of(&TABLES);
            answers.statuses(&mut file, &asks, table, &mut random, seed);
        }
    }
    answers.report(what);
    assert!(answers.runs() >= 800 && answers.settled() > 1000);
    assert!(answers.got(Status::Plan) > 100 && answers.got(Status::None) > 100);
    assert!(answers.got(Status::Best) > 20 && answers.got(Status::Spent) > 50);
    assert!(answers.noted() > 500 && answers.concluded() > 50);
    assert!(answers.off().rarest() > 80);
}

/// Dead ends with more than eight units to blame, and tables that one ask fills for the next.
#[test]
fn random_lists_on_files_with_many_units_agree() {
    let mut answers = Answers::default();
    for seed in 0..60 {
        let mut random = Random::seeded(seed);
        let mut file = AskedFile::new(encode(&many_units(&mut random)));
        for table in [64, 65, 16_384] {
            let asks = telling_asks(file.survey(), &mut random);
            answers.statuses(&mut file, &asks, table, &mut random, seed);
        }
    }
    answers.report("random lists on files with many units");
    assert!(answers.settled() > 100 && answers.noted() > 200);
    assert!(answers.got(Status::Plan) > 50 && answers.got(Status::None) > 50);
    assert!(answers.got(Status::Best) + answers.got(Status::Spent) > 100);
    assert!(answers.off().rarest() > 10);
}

/// Up to 14 units over up to 52 weeks, where a schedule is known but not all of them.
#[test]
fn lists_on_large_files_agree_with_a_known_schedule() {
    let mut counts = BTreeMap::<Status, usize>::new();
    let (mut conflicts, mut off) = (0, OffCounts::default());
    for seed in 0..90 {
        let mut random = Random::seeded(seed);
        let file = KnownFile::new(&random_scheduled(&mut random, 52, 14));
        off.add(file.plan());
        let table = random.one_of(&TABLES);
        let count = random.within(1, 12);
        let asks = asks_around(file.cost(), count, 20_000, &mut random);
        let mut lent = Buffers {
            answers: random.words(asks.len() * block_len(file.plan())),
            table: random.words(table),
            scratch: random.words(2usize.pow(file.plan().units)),
        };
        let (left, said) = file
            .check(&asks, &mut lent)
            .unwrap_or_else(|reason| panic!("{reason}; table {table}, seed {seed}"));
        conflicts += left;
        said.into_iter()
            .for_each(|status| *counts.entry(status).or_default() += 1);
    }
    println!("large files: {counts:?}, {conflicts} conflicts, {off}");
    assert!(counts.len() == 4 && counts.values().all(|&count| count > 5));
    assert!(conflicts > 100 && off.rarest() > 8);
}

/// 16 units and one permitted start for each: 32 asks in the longest table.
#[test]
fn lists_on_the_largest_file_with_one_start_for_each_unit_agree() {
    let mut answers = Answers::default();
    let mut scheduled = staggered();
    scheduled.plan.earliest = scheduled.starts.clone();
    scheduled.plan.latest = scheduled.starts.clone();
    let plan = scheduled.plan;
    let mut file = AskedFile::new(encode(&plan));
    let cheapest = file.survey().cheapest(MOST).expect("it was made to fit");
    let cost = cheapest.cost as u32;
    for first in [MOST, 1] {
        let ask = |number: u32| Ask {
            ceiling: cost - 30 + number,
            budget: first.min(number + 1),
        };
        let asks: Vec<Ask> = (0..32).map(ask).collect();
        let mut lent = Buffers::alike(32 * block_len(&plan) + 1, 16_384, 65_536);
        let origin = format_args!("16 units");
        let said = answers.agreed(&mut file, &ask_words(&asks), &mut lent, origin);
        assert!(said.is_ok());
    }
    answers.report("the largest file with one start for each unit");
    assert!(answers.got(Status::Plan) >= 2 && answers.got(Status::None) >= 10);
}

/// Ceilings around each schedule's cost, rising and falling, with tries for every place: each list
/// is determined, and all that the reference finds is found.
#[test]
fn ceilings_that_rise_or_fall_through_all_costs_agree() {
    let mut answers = Answers::default();
    for seed in 0..300 {
        let mut random = Random::seeded(seed);
        let mut file = AskedFile::new(encode(&listed_plan(seed, &mut random)));
        let mut ceilings = telling_ceilings(file.survey(), &mut random);
        for _ in 0..2 {
            let ask = |&ceiling: &u32| Ask {
                ceiling,
                budget: MOST,
            };
            let asks: Vec<Ask> = ceilings.iter().map(ask).collect();
            let table = random.one_of(&TABLES);
            let said = answers.statuses(&mut file, &asks, table, &mut random, seed);
            let plan_due = |&ceiling: &u32| file.survey().cheapest(ceiling).is_some();
            let due = ceilings.iter().map(plan_due);
            assert!(due.eq(said.iter().map(|&status| status == Status::Plan)));
            ceilings.reverse();
        }
    }
    answers.report("ceilings that rise or fall");
    assert!(answers.got(Status::Plan) > 500 && answers.got(Status::None) > 500);
    assert!(answers.settled() > 500 && answers.off().rarest() > 60);
}
