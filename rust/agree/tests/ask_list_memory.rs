//! What lists of asks find in the lent words and leave there: nothing of another run, all that the
//! asks before have noted, and room for what each is to note.

use agree::{
    asked_plan, cost_rows, dirty_buffers, listed_plan, proved_asks, telling_asks, Answers,
    AskedFile, Random, MOST, TABLES,
};
use reference::{ask_words, encode, Ask, Status};

/// As many ceilings as there may be, each a euro above the last: each ask walks, and the last finds
/// the plan, if there is one.
fn rising(file: &AskedFile) -> Option<Vec<Ask>> {
    let last = match file.survey().cheapest(MOST) {
        None => Some(MOST),
        Some(cheapest) if cheapest.cost < 31 => None,
        Some(cheapest) => Some(cheapest.cost as u32),
    };
    let ask = |ceiling| Ask {
        ceiling,
        budget: MOST,
    };
    last.map(|last| (last - 31..=last).map(ask).collect())
}

/// The conflicts without choices of 32 walks that end take the last 32 words of the shortest table
/// where dead ends have taken the others.
#[test]
fn the_shortest_table_has_room_for_32_walks_that_end() {
    let mut answers = Answers::default();
    for seed in 0..1200 {
        let mut random = Random::seeded(seed);
        let units = 3 + seed as u32 % 3;
        let mut plan = asked_plan(&mut random, 4, units);
        if random.once_in(2) {
            // few schedules are sound, and what costs too much is seen late
            plan.crews = 1 + seed as u32 % 2;
            plan.earliest.fill(1);
            plan.latest.fill(4);
            plan.duration.fill(1);
            cost_rows(&mut plan).for_each(|row| row.fill_with(|| random.within(5, 40)));
        }
        let mut file = AskedFile::new(encode(&plan));
        if let Some(asks) = rising(&file) {
            for table in [64, 65, 80] {
                let said = answers.statuses(&mut file, &asks, table, &mut random, seed);
                assert!(said[..31].iter().all(|&status| status == Status::None));
            }
        }
    }
    answers.report("32 walks that end");
    assert!(answers.runs() > 300 && answers.got(Status::Plan) > 100);
    assert_eq!((answers.settled(), answers.free()), (0, 0));
    assert_eq!(answers.concluded(), 32 * answers.runs());
    assert!(answers.full() > 20);
}

/// Costs of 0 or 1: a plan that costs nothing leaves no conflict, and settles what follows.
#[test]
fn plans_that_cost_nothing_settle_all_later_asks() {
    let mut answers = Answers::default();
    for seed in 0..300 {
        let mut random = Random::seeded(seed);
        let mut plan = listed_plan(seed, &mut random);
        let top = u32::from(random.once_in(3));
        for row in cost_rows(&mut plan) {
            row.fill_with(|| random.within(0, top));
        }
        let mut file = AskedFile::new(encode(&plan));
        let asks = telling_asks(file.survey(), &mut random);
        let table = random.one_of(&TABLES);
        answers.statuses(&mut file, &asks, table, &mut random, seed);
    }
    answers.report("plans that cost nothing");
    assert!(answers.free() > 200 && answers.settled() > 500);
}

/// The words that one run left are lent to the next, with another list and on another file of the
/// same size, whose conflicts and cheapest runs are others.
#[test]
fn what_a_run_on_another_file_left_in_the_lent_words_changes_no_answer() {
    let mut answers = Answers::default();
    for seed in 0..100 {
        let mut random = Random::seeded(seed);
        let size = listed_plan(seed, &mut random);
        let plans = [0; 2].map(|_| asked_plan(&mut random, size.weeks, size.units));
        let mut files = plans.map(|plan| AskedFile::new(encode(&plan)));
        let table = random.one_of(&TABLES);
        let mut lent = dirty_buffers(&size, 32, table, &mut random);
        for _ in 0..4 {
            for file in &mut files {
                let asks = ask_words(&telling_asks(file.survey(), &mut random));
                let origin = format_args!("table {table}, seed {seed}");
                let answer = answers.agreed(file, &asks, &mut lent, origin);
                assert!(answer.is_ok());
            }
        }
    }
    answers.report("words that another run left");
    assert!(answers.got(Status::Plan) > 500 && answers.got(Status::None) > 500);
    assert!(answers.got(Status::Best) > 20 && answers.got(Status::Spent) > 50);
}

/// The same list twice leaves the same words, whatever is lent: a run starts with no conflict.
#[test]
fn a_run_does_not_remember_the_one_before() {
    for seed in 0..200 {
        let mut random = Random::seeded(seed);
        let plan = listed_plan(seed, &mut random);
        let mut file = AskedFile::new(encode(&plan));
        let asks = ask_words(&telling_asks(file.survey(), &mut random));
        let table = random.one_of(&TABLES);
        let mut lent = dirty_buffers(&plan, asks.len() / 2, table, &mut random);
        let origin = format_args!("seed {seed}");
        let said = Answers::default().agreed(&mut file, &asks, &mut lent, origin);
        assert!(said.is_ok());
        let first = lent.clone();
        for _ in 0..3 {
            assert_eq!(proved_asks(file.words(), &asks, &mut lent), Ok(()));
            assert_eq!(lent.answers, first.answers, "{origin}");
            assert_eq!(lent.table, first.table, "{origin}");
        }
    }
}

/// The first asks of a list leave the table with which the next one begins: it stands, word for word,
/// in front of what the longer list leaves.
#[test]
fn each_ask_begins_with_the_conflicts_of_those_before() {
    let (mut grown, mut dead_ends) = (0, 0);
    for seed in 0..300 {
        let mut random = Random::seeded(seed);
        let plan = asked_plan(&mut random, 4 + seed as u32 % 3, 4);
        let file = AskedFile::new(encode(&plan));
        let asks = telling_asks(file.survey(), &mut random);
        let table = random.one_of(&TABLES);
        let mut before: Vec<u32> = Vec::new();
        for count in 1..=asks.len() {
            let mut lent = dirty_buffers(&plan, count, table, &mut random);
            let words = ask_words(&asks[..count]);
            assert_eq!(proved_asks(file.words(), &words, &mut lent), Ok(()));
            let origin = format_args!("{count} asks, table {table}, seed {seed}");
            assert!(lent.table.starts_with(&before), "{origin}");
            let empty = lent.table.iter().rev().take_while(|&&word| word == 0);
            let used = table - empty.count();
            grown += usize::from(before.len() < used && !before.is_empty());
            before = lent.table[..used].to_vec();
        }
        dead_ends += before.iter().filter(|&&word| word >> 28 == 14).count();
    }
    println!("{grown} asks added to what those before them left; {dead_ends} choices were left");
    assert!(grown > 200 && dead_ends > 200);
}
