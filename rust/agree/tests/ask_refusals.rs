//! Single asks that are refused: every refusal in its order, damaged files, and lent words of any
//! numbers.

use agree::{
    ask, asked_plan, dirty_buffers, edited, off_damages, replacements, small_plans, smallest,
    tiny_size, Answers, AskedFile, Buffers, ListAnswer, Random, MOST, TABLES,
};
use reference::{block_len, encode, example_a_words, word, Plan, Refusal, Status};

/// The refusal of each damage of OFF costs stands before all else that is wrong with an ask.
#[test]
fn damaged_off_costs_are_refused() {
    for plan in small_plans().iter().filter(|plan| plan.off.is_some()) {
        for (damaged, refusal) in off_damages(plan) {
            let (mut answers, mut file) = (Answers::default(), AskedFile::new(damaged));
            let mut lent = Buffers::alike(1, 1, 1);
            let said = answers.agreed(&mut file, &[0; 3], &mut lent, format_args!("OFF costs"));
            assert_eq!(said, Err(refusal));
        }
    }
}

/// Every combination of a good or bad file, ceiling, budget, table, answers and scratch: the refusal
/// is that of the first in the list.
#[test]
fn every_refusal_comes_in_its_order() {
    let mut answers = Answers::default();
    let (mut answered, mut calls) = (0, 0);
    let words = example_a_words();
    let files = [
        words.clone(),
        words[..7].to_vec(),
        [&words[..], &[7]].concat(),
    ];
    let ceilings = [
        (11, 0),
        (11, 100),
        (11, MOST),
        (12, 1),
        (0, 100),
        (15, MOST),
    ];
    let budgets = [(12, 0), (12, 1), (12, MOST), (11, 0), (13, 1), (15, MOST)];
    for mut file in files.map(AskedFile::new) {
        for (ceiling, budget) in pairs_of(&ceilings, &budgets) {
            let ask = [ceiling, budget].map(|(kind, value)| word(kind, value));
            for table in [0, 63, 64, 65, 16_384, 16_385] {
                for (answer, scratch) in pairs_of(&[0, 8, 9, 10], &[0, 3, 4, 5]) {
                    let mut lent = Buffers::alike(answer, table, scratch);
                    let origin = format_args!("{answer}, {table}, {scratch} lent");
                    let said = answers.agreed(&mut file, &ask, &mut lent, origin);
                    answered += usize::from(said.is_ok());
                    calls += 1;
                }
            }
        }
    }
    assert_eq!(calls, 3 * 6 * 6 * 6 * 16);
    assert_eq!(answered, 3 * 2 * 3 * 4);
    answers.report("every refusal");
    assert_eq!(answers.refusals(), [1, 7, 9, 10, 13, 14, 15]);
}

/// Each of the first with each of the second.
fn pairs_of<T: Copy>(first: &[T], second: &[T]) -> Vec<(T, T)> {
    let with = |&a: &T| second.iter().map(move |&b| (a, b));
    first.iter().flat_map(with).collect()
}

/// Each cause alone, with its place.
#[test]
fn every_cause_alone_is_refused_with_its_number_and_place() {
    let said = |words: &[u32], ask: &[u32], (answer, table, scratch)| -> ListAnswer {
        let (mut answers, mut file) = (Answers::default(), AskedFile::new(words.to_vec()));
        let mut lent = Buffers::alike(answer, table, scratch);
        answers.agreed(&mut file, ask, &mut lent, format_args!("one cause"))
    };
    let refused = |number, place| Err(Refusal { number, place });
    let (words, good, enough) = (example_a_words(), ask(100, 12), (9, 64, 4));
    assert_eq!(said(&words, &good, enough), Ok(vec![Status::Plan]));
    assert_eq!(said(&words[..20], &good, enough), refused(1, 20));
    let longer = [&words[..], &[word(11, 100)]].concat();
    assert_eq!(said(&longer, &good, enough), refused(7, 25));
    for kind in 0..16 {
        let (ceiling, budget) = ([word(kind, 100), good[1]], [good[0], word(kind, 12)]);
        let (as_ceiling, as_budget) = (kind == 11, kind == 12);
        let verdict = |right: bool, place| match right {
            true => Ok(vec![Status::Plan]),
            false => refused(9, place),
        };
        assert_eq!(said(&words, &ceiling, enough), verdict(as_ceiling, 0));
        assert_eq!(said(&words, &budget, enough), verdict(as_budget, 1));
    }
    assert_eq!(said(&words, &ask(100, 0), enough), refused(10, 1));
    for table in [0, 1, 63, 16_385, 65_536] {
        assert_eq!(said(&words, &good, (9, table, 4)), refused(13, 0));
    }
    for answer in 0..9 {
        assert_eq!(said(&words, &good, (answer, 64, 4)), refused(14, 0));
    }
    for scratch in 0..4 {
        assert_eq!(said(&words, &good, (9, 64, scratch)), refused(15, 0));
    }
}

/// Answers and scratch of just enough words, one fewer and one more, for every number of units.
#[test]
fn lent_words_just_enough_or_one_fewer_are_told_apart() {
    for units in 1..=16 {
        let plan = Plan {
            crews: 16,
            ..smallest(2, units)
        };
        let mut file = AskedFile::new(encode(&plan));
        let mut answers = Answers::default();
        let (block, sets) = (block_len(&plan), 2usize.pow(units));
        for (answer, scratch) in pairs_of(
            &[block - 1, block, block + 1],
            &[sets - 1, sets, sets + 1, 65_537],
        ) {
            let mut lent = Buffers::alike(answer, 64, scratch);
            let origin = format_args!("{units} units, {answer} and {scratch} lent");
            let said = answers.agreed(&mut file, &ask(0, 17), &mut lent, origin);
            let number = said.map_err(|refusal| refusal.number);
            let expected = match (answer < block, scratch < sets) {
                (true, _) => Err(14),
                (_, true) => Err(15),
                _ => Ok(vec![Status::Plan]),
            };
            assert_eq!(number, expected);
        }
        assert_eq!(answers.free(), 6);
    }
}

#[test]
fn every_single_word_damage_of_small_files_agrees() {
    let mut answers = Answers::default();
    for plan in small_plans().iter().filter(|plan| plan.units <= 4) {
        let words = encode(plan);
        let mut random = Random::seeded(words.len() as u64);
        for place in 0..words.len() {
            for new in replacements(&words, place, plan) {
                let mut damaged = words.clone();
                damaged[place] = new;
                let mut file = AskedFile::new(damaged);
                let mut lent = Buffers::alike(block_len(plan) + 2, 64, 16);
                let ask = ask(random.edgy(0, MOST), random.within(1, 20));
                let origin = format_args!("word {place} replaced by {new:#x}");
                let _ = answers.agreed(&mut file, &ask, &mut lent, origin);
            }
        }
    }
    answers.report("single word of the file damaged");
    assert_eq!(answers.refusals(), [1, 2, 3, 4, 6]);
    assert!(answers.got(Status::Plan) > 100 && answers.got(Status::None) > 100);
}

#[test]
fn files_cut_short_or_too_long_are_refused() {
    let refused = |number, place| Err(Refusal { number, place });
    for plan in small_plans() {
        let words = encode(&plan);
        let said = |words: &[u32]| {
            let (mut answers, mut file) = (Answers::default(), AskedFile::new(words.to_vec()));
            // nothing else is in order either, and the file comes first
            let mut lent = Buffers::alike(1, 1, 1);
            answers.agreed(&mut file, &[0; 3], &mut lent, format_args!("cut"))
        };
        for length in 0..words.len() {
            assert_eq!(said(&words[..length]), refused(1, length));
        }
        let longer = [&words[..], &[word(15, words.len() as u32)]].concat();
        assert_eq!(said(&longer), refused(7, words.len()));
    }
}

#[test]
fn files_with_several_words_edited_agree() {
    let mut answers = Answers::default();
    for seed in 0..8000 {
        let mut random = Random::seeded(seed);
        let plan = asked_plan(&mut random, 3, 2);
        let words = edited(&encode(&plan), &plan, &mut random);
        let mut file = AskedFile::new(words);
        let mut lent = dirty_buffers(&plan, 1, random.one_of(&TABLES), &mut random);
        let asked = ask(random.edgy(0, MOST), random.edgy(0, 40));
        let _ = answers.agreed(&mut file, &asked, &mut lent, format_args!("seed {seed}"));
    }
    answers.report("several words of the file edited");
    assert_eq!(answers.refusals(), [1, 2, 3, 4, 6, 7, 10]);
    assert!(answers.got(Status::Plan) > 10 && answers.got(Status::None) > 10);
    assert!(answers.off().rarest() > 10);
}

/// Numbers of lent words around those that are just enough, with any content.
#[test]
fn any_numbers_of_lent_words_agree() {
    let mut answers = Answers::default();
    for seed in 0..500 {
        let mut random = Random::seeded(seed);
        let (units, weeks) = tiny_size(seed);
        let plan = asked_plan(&mut random, weeks, units);
        let mut around = |enough: usize| {
            let length = enough - 2 + random.place(5);
            random.words(length)
        };
        let mut lent = Buffers {
            answers: around(block_len(&plan)),
            table: around([64, 66, 16_384][seed as usize % 3]),
            scratch: around(2usize.pow(units)),
        };
        let mut asked = ask(random.edgy(0, MOST), random.within(0, 30));
        if random.once_in(5) {
            asked[random.place(2)] = random.word();
        }
        let mut file = AskedFile::new(encode(&plan));
        let _ = answers.agreed(&mut file, &asked, &mut lent, format_args!("seed {seed}"));
    }
    answers.report("any numbers of lent words");
    assert_eq!(answers.refusals(), [9, 10, 13, 14, 15]);
    assert!(answers.got(Status::Plan) > 10 && answers.got(Status::None) > 10);
}
