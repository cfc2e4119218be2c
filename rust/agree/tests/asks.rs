//! Single asks, each a list of its own: the proved answer against all schedules and places of small
//! files, with telling ceilings and budgets, lent words of many lengths and with dirt in them.

use agree::{
    ask, asked_plan, cost_rows, dirty_buffers, dirty_table, leave_no_start, many_units,
    proved_asks, smallest, staggered, telling_budgets, telling_ceilings, tiny_size, together,
    Answers, AskedFile, Buffers, OffClass, Random, MOST, TABLES,
};
use reference::{block_len, encode, example_a, example_a_words, Plan, Status};

/// The answer to an ask in dirty words, with a table of one of the given lengths.
fn answer(
    answers: &mut Answers,
    file: &mut AskedFile,
    ask: [u32; 2],
    tables: &[usize],
    random: &mut Random,
    seed: u64,
) -> Status {
    let table = random.one_of(tables);
    let mut lent = dirty_buffers(file.survey().plan(), 1, table, random);
    let origin = format_args!("table {table}, seed {seed}");
    let answer = answers.agreed(file, &ask, &mut lent, origin);
    answer.expect("the file is accepted, and the words are enough")[0]
}

/// Every telling ceiling with every telling budget, on a random plan for each seed; a failure
/// prints the seed.
fn sweep_seeds(seeds: u64, plan: impl Fn(u64, &mut Random) -> Plan) -> Answers {
    let mut answers = Answers::default();
    for seed in 0..seeds {
        let mut random = Random::seeded(seed);
        let mut file = AskedFile::new(encode(&plan(seed, &mut random)));
        for ceiling in telling_ceilings(file.survey(), &mut random) {
            for budget in telling_budgets(file.survey(), &mut random) {
                let ask = ask(ceiling, budget);
                answer(&mut answers, &mut file, ask, &TABLES, &mut random, seed);
            }
        }
    }
    answers
}

/// The block of the answer to an ask on a plan that has tries for every place.
fn block_of(plan: &Plan, ceiling: u32) -> Vec<u32> {
    let (mut answers, mut file) = (Answers::default(), AskedFile::new(encode(plan)));
    let mut lent = Buffers::alike(block_len(plan), 64, 2usize.pow(plan.units));
    let budget = file.survey().places().len().max(1) as u32;
    let origin = format_args!("a worked figure");
    let answer = answers.agreed(&mut file, &ask(ceiling, budget), &mut lent, origin);
    assert!(answer.is_ok());
    lent.answers
}

#[test]
fn the_worked_figures_hold() {
    // P1, P2 and, with 12 tries for its places, P11
    assert_eq!(block_of(&example_a(), 100), [1, 19, 2, 1, 1, 2, 1, 0, 0]);
    assert_eq!(block_of(&example_a(), 19), [1, 19, 2, 1, 1, 2, 1, 0, 0]);
    assert_eq!(block_of(&example_a(), 18), [2, 0, 0, 0, 0, 0, 0, 0, 0]);
    // P5 and P6
    let mut one_unit = smallest(1, 1);
    one_unit.maint = vec![vec![7]];
    assert_eq!(block_of(&one_unit, MOST), [1, 7, 1, 0, 0]);
    assert_eq!(block_of(&one_unit, 7), [1, 7, 1, 0, 0]);
    assert_eq!(block_of(&one_unit, 6), [2, 0, 0, 0, 0]);
    one_unit.demand = vec![1];
    assert_eq!(block_of(&one_unit, MOST), [2, 0, 0, 0, 0]);
    // P7: of the starts 1 and 2 the second, as week 1 is dearer than week 4
    let plan = Plan {
        latest: vec![4],
        duration: vec![3],
        maint: vec![vec![9], vec![5], vec![5], vec![1]],
        ..smallest(4, 1)
    };
    assert_eq!(block_of(&plan, MOST), [1, 11, 2, 0, 0, 0, 0, 0]);
    // P8
    assert_eq!(block_of(&smallest(1, 2), MOST), [2, 0, 0, 0, 0, 0, 0]);
}

/// Figures by hand: OFF costs move an overhaul to week 2, since the unit is cheap to run in week 1,
/// which nobody needs it to do; it stays OFF there where that costs the same.
#[test]
fn off_costs_change_the_plan() {
    let plan = |off: u32| Plan {
        latest: vec![2],
        maint: vec![vec![5], vec![6]],
        running: vec![vec![1], vec![4]],
        off: Some(vec![vec![off], vec![3]]),
        ..smallest(2, 1)
    };
    assert_eq!(block_of(&plan(3), MOST), [1, 7, 2, 1, 0, 0]);
    assert_eq!(block_of(&plan(3), 7), [1, 7, 2, 1, 0, 0]);
    assert_eq!(block_of(&plan(3), 6), [2, 0, 0, 0, 0, 0]);
    assert_eq!(block_of(&plan(1), MOST), [1, 7, 2, 0, 0, 0]);
    let without = Plan {
        off: None,
        ..plan(3)
    };
    assert_eq!(block_of(&without, MOST), [1, 5, 1, 0, 0, 0]);
    // file A: all that are not out run where OFF costs 5, one alone where it costs 2
    let with_off = |off| Plan {
        off: Some(vec![vec![off; 2]; 3]),
        ..example_a()
    };
    assert_eq!(block_of(&with_off(5), 100), [1, 23, 2, 1, 1, 2, 3, 0, 0]);
    assert_eq!(block_of(&with_off(2), 100), [1, 21, 2, 1, 1, 2, 1, 0, 0]);
}

/// Telling ceilings with every budget, on tiny files with OFF costs of each class.
#[test]
fn every_budget_of_tiny_files_with_off_costs_of_each_class_agrees() {
    for class in OffClass::ALL {
        let answers = sweep_seeds(60, |seed, random| {
            let (units, weeks) = tiny_size(seed);
            let mut plan = asked_plan(random, weeks, units);
            plan.off = class.costs(&plan.running, random);
            plan
        });
        answers.report(&format!("every budget of tiny files, {class:?} OFF costs"));
        assert!(answers.got(Status::Plan) > 100 && answers.got(Status::None) > 100);
        assert!(answers.got(Status::Best) + answers.got(Status::Spent) > 10);
        assert!(answers.noted() > 10);
    }
}

/// Of file A every ceiling up to above its dearest schedule and every budget up to above its number
/// of places, with each length of table.
#[test]
fn every_ceiling_and_budget_of_file_a_agrees() {
    let mut answers = Answers::default();
    let mut random = Random::seeded(0);
    let mut file = AskedFile::new(example_a_words());
    for ceiling in (0..=25).chain([MOST]) {
        for budget in (1..=14).chain([MOST]) {
            for table in TABLES {
                let ask = ask(ceiling, budget);
                let status = answer(&mut answers, &mut file, ask, &[table], &mut random, 0);
                let unspent = if ceiling < 19 {
                    Status::None
                } else {
                    Status::Plan
                };
                assert!(status == unspent || budget < 12);
            }
        }
    }
    answers.report("every ceiling and budget of file A");
    assert!(answers.got(Status::Plan) > 50 && answers.got(Status::None) > 200);
    assert!(answers.got(Status::Best) > 50 && answers.got(Status::Spent) > 50);
}

#[test]
fn every_budget_of_tiny_files_agrees() {
    let answers = sweep_seeds(500, |seed, random| {
        let (units, weeks) = tiny_size(seed);
        asked_plan(random, weeks, units)
    });
    answers.report("every budget of tiny files");
    assert!(answers.got(Status::Plan) > 500 && answers.got(Status::None) > 500);
    assert!(answers.got(Status::Best) > 10 && answers.got(Status::Spent) > 10);
    assert!(answers.free() > 50 && answers.noted() > 100);
    assert!(answers.off().rarest() > 500);
}

#[test]
fn some_budgets_of_small_files_agree() {
    let answers = sweep_seeds(90, |seed, random| {
        let (units, weeks) = (seed as u32 % 5 + 1, seed as u32 / 5 % 6 + 1);
        asked_plan(random, weeks, units)
    });
    answers.report("some budgets of small files");
    assert!(answers.got(Status::Plan) > 200 && answers.got(Status::None) > 200);
    assert!(answers.got(Status::Best) > 10 && answers.got(Status::Spent) > 10);
    assert!(answers.noted() > 500 && answers.off().rarest() > 100);
}

/// Many places and few asks on each file, also with the longest table.
#[test]
fn some_asks_on_files_with_many_places_agree() {
    let mut answers = Answers::default();
    for seed in 0..60 {
        let mut random = Random::seeded(seed);
        let mut plan = asked_plan(&mut random, 4 + seed as u32 % 3, 4 + seed as u32 / 3 % 2);
        plan.earliest.fill(1);
        let mut file = AskedFile::new(encode(&plan));
        let ceilings = telling_ceilings(file.survey(), &mut random);
        let budgets = telling_budgets(file.survey(), &mut random);
        for _ in 0..6 {
            let ceiling = ceilings[random.place(ceilings.len())];
            let budget = budgets[random.place(budgets.len())];
            let ask = ask(ceiling, budget);
            answer(&mut answers, &mut file, ask, &TABLES, &mut random, seed);
        }
    }
    answers.report("some asks on files with many places");
    assert!(answers.got(Status::Plan) > 20 && answers.got(Status::None) > 20);
    assert!(answers.got(Status::Best) + answers.got(Status::Spent) > 20);
    assert!(answers.noted() > 500 && answers.off().rarest() > 20);
}

/// Every figure 0 or 1, so that most schedules cost the same; every ceiling up to the dearest.
#[test]
fn of_many_schedules_of_equal_cost_the_earliest_is_given() {
    let mut answers = Answers::default();
    let mut tied = 0;
    for seed in 0..150 {
        let mut random = Random::seeded(seed);
        let (units, weeks) = (seed as u32 % 4 + 1, seed as u32 / 4 % 4 + 1);
        let mut plan = asked_plan(&mut random, weeks, units);
        plan.duration.fill(1);
        plan.earliest.fill(1);
        plan.capacity.fill_with(|| random.within(0, 1));
        plan.demand.fill_with(|| random.within(0, 1));
        let top = random.within(0, 1);
        for row in cost_rows(&mut plan) {
            row.fill_with(|| random.within(0, top));
        }
        let mut file = AskedFile::new(encode(&plan));
        let costs = file.survey().sound().iter().map(|sound| sound.cost);
        let (least, most) = (costs.clone().min(), costs.clone().max().unwrap_or(0));
        tied += usize::from(costs.filter(|&cost| Some(cost) == least).count() > 1);
        for ceiling in 0..=most as u32 + 1 {
            for budget in [1, 2, 3, 4, 7, MOST] {
                let ask = ask(ceiling, budget);
                answer(&mut answers, &mut file, ask, &TABLES, &mut random, seed);
            }
        }
    }
    answers.report("many schedules of equal cost");
    assert!(tied > 50 && answers.free() > 50 && answers.got(Status::Plan) > 200);
    assert!(answers.got(Status::Best) > 50 && answers.got(Status::Spent) > 50);
}

/// The first unit, one in the middle or the last: settled before a start is tried, so never spent.
#[test]
fn files_with_a_unit_without_a_start_have_no_plan() {
    for unit in 1..=4 {
        let answers = sweep_seeds(40, |_, random| {
            let weeks = random.within(2, 4);
            let mut plan = asked_plan(random, weeks, 4);
            leave_no_start(&mut plan, unit);
            plan
        });
        answers.report(&format!("unit {unit} without a start"));
        assert_eq!(answers.got(Status::Plan) + answers.got(Status::Best), 0);
        assert!(answers.got(Status::None) > 40);
        assert_eq!(answers.got(Status::Spent), 0);
    }
}

/// A kilogram more than all units give together in one week.
#[test]
fn files_with_a_demand_that_nobody_meets_have_no_plan() {
    let answers = sweep_seeds(60, |seed, random| {
        let (units, weeks) = tiny_size(seed);
        let mut plan = asked_plan(random, weeks, units);
        let week = random.place(weeks as usize);
        plan.demand[week] = plan.capacity.iter().sum::<u32>() + 1;
        plan
    });
    answers.report("a demand that nobody meets");
    assert_eq!(answers.got(Status::Plan) + answers.got(Status::Best), 0);
    assert!(answers.got(Status::None) > 60);
}

/// The same ask with other words in the table at entry gives the same block and the same table.
#[test]
fn the_words_in_the_table_at_entry_have_no_influence() {
    for seed in 0..200 {
        let mut random = Random::seeded(seed);
        let (units, weeks) = tiny_size(seed);
        let mut file = AskedFile::new(encode(&asked_plan(&mut random, weeks, units)));
        let ceilings = telling_ceilings(file.survey(), &mut random);
        let ask = ask(ceilings[random.place(ceilings.len())], random.within(1, 30));
        let table = random.one_of(&TABLES);
        let lent = dirty_buffers(file.survey().plan(), 1, table, &mut random);
        let mut first = lent.clone();
        let origin = format_args!("seed {seed}");
        let _ = Answers::default().agreed(&mut file, &ask, &mut first, origin);
        for _ in 0..10 {
            let mut again = lent.clone();
            again.table = dirty_table(file.survey().plan(), table, &mut random);
            assert_eq!(proved_asks(file.words(), &ask, &mut again), Ok(()));
            assert_eq!(again.answers, first.answers, "{ask:?}, {origin}");
            assert_eq!(again.table, first.table, "{ask:?}, {origin}");
        }
    }
}

/// The words that one ask left are lent to the next, with another ceiling and budget and on another
/// file of the same size, whose conflicts and cheapest runs are others.
#[test]
fn what_an_ask_on_another_file_left_in_the_lent_words_changes_no_answer() {
    let mut answers = Answers::default();
    for seed in 0..200 {
        let mut random = Random::seeded(seed);
        let (units, weeks) = tiny_size(seed);
        let plans = [0; 2].map(|_| asked_plan(&mut random, weeks, units));
        let mut files = plans.map(|plan| AskedFile::new(encode(&plan)));
        let table = random.one_of(&TABLES);
        let mut lent = dirty_buffers(files[0].survey().plan(), 1, table, &mut random);
        for _ in 0..10 {
            for file in &mut files {
                let ceilings = telling_ceilings(file.survey(), &mut random);
                let ceiling = ceilings[random.place(ceilings.len())];
                let budget = random.within(1, file.survey().places().len() as u32 + 1);
                let origin = format_args!("table {table}, seed {seed}");
                let answer = answers.agreed(file, &ask(ceiling, budget), &mut lent, origin);
                assert!(answer.is_ok());
            }
        }
    }
    answers.report("words that another ask left");
    assert!(answers.got(Status::Plan) > 100 && answers.got(Status::None) > 100);
    assert!(answers.got(Status::Best) > 50 && answers.got(Status::Spent) > 50);
}

/// Dead ends with more units to blame than a conflict has choices, and a short table that fills.
#[test]
fn some_asks_on_files_with_many_units_agree() {
    let mut answers = Answers::default();
    let mut full = 0;
    for seed in 0..300 {
        let mut random = Random::seeded(seed);
        let plan = many_units(&mut random);
        let mut file = AskedFile::new(encode(&plan));
        for ceiling in telling_ceilings(file.survey(), &mut random) {
            let budgets = telling_budgets(file.survey(), &mut random);
            let budget = budgets[random.place(budgets.len())];
            let mut lent = dirty_buffers(file.survey().plan(), 1, 64, &mut random);
            let origin = format_args!("seed {seed}");
            let answer = answers.agreed(&mut file, &ask(ceiling, budget), &mut lent, origin);
            assert!(answer.is_ok());
            // fewer words are left below the last 32 than a conflict of three choices takes
            full += usize::from(lent.table[64 - 32 - 4] != 0);
        }
    }
    answers.report("files with many units");
    println!("{full} tables were full");
    assert!(answers.got(Status::Plan) > 20 && answers.got(Status::None) > 20 && full > 20);
    assert!(answers.off().rarest() > 50);
}

/// 16 units and one permitted start for each, so that there are 16 places, whatever the schedule.
#[test]
fn the_largest_files_with_one_start_for_each_unit_agree() {
    let mut answers = Answers::default();
    for mut scheduled in [staggered(), together()] {
        scheduled.plan.earliest = scheduled.starts.clone();
        scheduled.plan.latest = scheduled.starts.clone();
        let plan = scheduled.plan;
        let mut file = AskedFile::new(encode(&plan));
        assert_eq!(file.survey().places().len(), 16);
        let cheapest = file.survey().cheapest(MOST).expect("it was made to fit");
        let cost = cheapest.cost as u32;
        for ceiling in [0, cost - 1, cost, MOST] {
            for budget in [1, 2, 15, 16, 17, MOST] {
                let mut lent = Buffers::alike(block_len(&plan) + 1, 16_384, 65_536);
                let ask = ask(ceiling, budget);
                let answer = answers.agreed(&mut file, &ask, &mut lent, format_args!("16 units"));
                assert!(answer.is_ok());
            }
        }
    }
    answers.report("the largest files with one start for each unit");
    assert!(answers.got(Status::Plan) >= 12 && answers.got(Status::None) >= 12);
}
