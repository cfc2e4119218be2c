//! Asks on files that leave a planner much to rule out: short of crews, kilograms, compatible weeks or
//! windows, with just enough of them, and with many schedules that tie; every budget from 1 on, the
//! shortest table, and lists of asks where there is no schedule.

use agree::{
    level_plan, near_plan, telling_ceilings, wanting_plan, Answers, AskedFile, Random, Want, MOST,
    TABLES,
};
use reference::{encode, Ask, Plan, Status};

/// Budgets from 1 on that end with one that is enough.
const BUDGETS: [u32; 22] = [
    1, 2, 3, 4, 5, 6, 7, 8, 9, 10, 11, 12, 14, 17, 21, 26, 33, 45, 70, 150, 1000, MOST,
];

/// Puts an ask with each telling ceiling and each budget, in a table of 64 words or, in turn, of
/// others.
fn sweep(answers: &mut Answers, plan: &Plan, random: &mut Random, seed: u64) -> AskedFile {
    let mut file = AskedFile::new(encode(plan));
    for ceiling in telling_ceilings(file.survey(), random) {
        for budget in BUDGETS {
            let table = if random.once_in(2) {
                64
            } else {
                random.one_of(&TABLES)
            };
            let ask = Ask { ceiling, budget };
            answers.statuses(&mut file, &[ask], table, random, seed);
        }
    }
    file
}

#[test]
fn files_short_of_one_thing_have_no_plan() {
    for want in Want::ALL {
        let mut answers = Answers::default();
        for seed in 0..60 {
            let mut random = Random::seeded(seed);
            let plan = wanting_plan(want, 1, &mut random);
            let file = sweep(&mut answers, &plan, &mut random, seed);
            assert!(file.survey().sound().is_empty(), "{want:?}, seed {seed}");
        }
        answers.report(&format!("short of {want:?}"));
        assert_eq!(answers.got(Status::Plan) + answers.got(Status::Best), 0);
        assert!(answers.got(Status::None) > 300);
        assert_eq!(answers.concluded(), answers.got(Status::None));
        assert!(answers.off().rarest() > 20);
    }
}

#[test]
fn files_with_just_enough_of_one_thing_have_the_plan_of_the_reference() {
    for want in Want::ALL {
        let mut answers = Answers::default();
        for seed in 0..60 {
            let mut random = Random::seeded(seed);
            let plan = wanting_plan(want, 0, &mut random);
            let file = sweep(&mut answers, &plan, &mut random, seed);
            assert!(!file.survey().sound().is_empty(), "{want:?}, seed {seed}");
        }
        answers.report(&format!("just enough of {want:?}"));
        assert!(answers.got(Status::Plan) > 1000 && answers.got(Status::None) > 300);
        assert!(answers.noted() > 300 && answers.off().rarest() > 20);
    }
}

#[test]
fn files_with_few_schedules_or_none_agree() {
    let mut answers = Answers::default();
    let mut none = 0;
    for seed in 0..120 {
        let mut random = Random::seeded(seed);
        let plan = near_plan(&mut random);
        let file = sweep(&mut answers, &plan, &mut random, seed);
        none += usize::from(file.survey().sound().is_empty());
    }
    answers.report("few schedules or none");
    println!("{none} of 120 files have none");
    assert!((30..90).contains(&none));
    assert!(answers.got(Status::Plan) > 500 && answers.got(Status::None) > 1000);
    assert!(answers.got(Status::Best) + answers.got(Status::Spent) > 50);
    assert!(answers.noted() > 1000 && answers.off().rarest() > 100);
}

/// How many schedules cost as much as the cheapest one.
fn ties(file: &AskedFile) -> usize {
    let costs = file.survey().sound().iter().map(|sound| sound.cost);
    let least = costs.clone().min();
    costs.filter(|&cost| Some(cost) == least).count()
}

/// The plan is held against the reference, which gives the earliest.
#[test]
fn of_many_cheapest_schedules_the_earliest_is_given_whatever_the_budget() {
    let mut answers = Answers::default();
    let mut tied = 0;
    for seed in 0..100 {
        let mut random = Random::seeded(seed);
        let plan = level_plan(&mut random);
        let file = sweep(&mut answers, &plan, &mut random, seed);
        tied += usize::from(ties(&file) > 3);
    }
    answers.report("many cheapest schedules");
    println!("{tied} of 100 files have more than three cheapest schedules");
    assert!(tied > 50 && answers.got(Status::Plan) > 1000);
    assert!(answers.got(Status::Best) > 100 && answers.got(Status::Spent) > 100);
}

/// Lists of asks where there is no schedule: an ask that is not settled by those before it and not
/// spent leaves its one conflict, so rising ceilings leave one each, and falling ones the first alone.
#[test]
fn each_unsettled_ask_without_a_schedule_leaves_its_one_conflict() {
    let mut every = Answers::default();
    for seed in 0..240 {
        let mut random = Random::seeded(seed);
        let want = Want::ALL[seed as usize % 4];
        let mut file = AskedFile::new(encode(&wanting_plan(want, 1, &mut random)));
        let count = random.within(1, 32);
        let first = random.within(0, 1000);
        let ceilings = first..first + count;
        let rising: Vec<Ask> = ceilings
            .map(|ceiling| Ask {
                ceiling,
                budget: MOST,
            })
            .collect();
        let falling: Vec<Ask> = rising.iter().rev().copied().collect();
        let budgets = |ask: &Ask| Ask {
            budget: random.within(1, 9),
            ..*ask
        };
        let poor: Vec<Ask> = rising.iter().map(budgets).collect();
        for (asks, due) in [(rising, Some(count)), (falling, Some(1)), (poor, None)] {
            let mut answers = Answers::default();
            let table = random.one_of(&[64, 65, 16_384]);
            let said = answers.statuses(&mut file, &asks, table, &mut random, seed);
            every.statuses(&mut file, &asks, table, &mut random, seed);
            let none = said
                .iter()
                .filter(|&&status| status == Status::None)
                .count();
            assert_eq!(answers.concluded(), none - answers.settled(), "seed {seed}");
            assert!(due.is_none_or(|due| due as usize == answers.concluded()));
            assert!(due.is_none() || none == asks.len(), "seed {seed}");
        }
    }
    every.report("lists where there is no schedule");
    assert!(every.settled() > 1000 && every.concluded() > 1000);
    assert_eq!(every.got(Status::Plan) + every.got(Status::Best), 0);
}
