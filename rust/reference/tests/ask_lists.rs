//! The reference on lists of asks: their refusals, and outcomes of an honest planner.

mod lists_of_asks;

use lists_of_asks::{ask, said, table_of, MOST, NONE, PLAN};
use reference::{
    accept, ask_words, block_len, check_run, determined, example_a, example_a_words, smallest,
    word, Ask, Lent, Refusal, Status, Survey,
};
use std::collections::BTreeSet;

#[test]
fn lists_are_refused_for_their_length_and_then_word_by_word() {
    let words = example_a_words();
    let lent = Lent {
        answers: 1000,
        table: 64,
        scratch: 4,
    };
    let verdict = |asks: &[u32]| accept(&words, asks, lent).map(|(_, asks)| asks);
    let refused = |number, place| Err(Refusal { number, place });
    let (ceiling, budget) = (word(11, 100), word(12, 12));
    for length in [0, 1, 3, 63, 65, 66, 1000] {
        assert_eq!(verdict(&vec![0; length]), refused(8, 0), "{length} words");
    }
    assert_eq!(verdict(&[ceiling, budget]), Ok(vec![ask(100, 12)]));
    let most = [ceiling, budget].repeat(32);
    assert_eq!(verdict(&most), Ok(vec![ask(100, 12); 32]));
    for kind in (0..16).filter(|&kind| kind != 11) {
        assert_eq!(verdict(&[word(kind, 5), 0]), refused(9, 0));
    }
    for kind in (0..16).filter(|&kind| kind != 12) {
        assert_eq!(verdict(&[ceiling, word(kind, 5)]), refused(9, 1));
        assert_eq!(verdict(&[ceiling, word(kind, 0)]), refused(9, 1));
    }
    assert_eq!(verdict(&[ceiling, word(12, 0)]), refused(10, 1));
    assert_eq!(verdict(&[word(11, 0), word(12, 1)]), Ok(vec![ask(0, 1)]));
    // the first word at fault, whatever is after it
    let mut two = [ceiling, budget].repeat(32);
    (two[63], two[40]) = (word(12, 0), budget);
    assert_eq!(verdict(&two), refused(9, 40));
    two[40] = ceiling;
    assert_eq!(verdict(&two), refused(10, 63));
    (two[7], two[8]) = (word(12, 0), budget);
    assert_eq!(verdict(&two), refused(10, 7));
}

#[test]
fn the_file_is_tested_then_the_asks_then_the_lent_words() {
    let (plan, words) = (example_a(), example_a_words());
    assert_eq!(block_len(&plan), 9);
    let lent = |answers, table, scratch| Lent {
        answers,
        table,
        scratch,
    };
    let verdict = |words: &[u32], asks: &[u32], lent| accept(words, asks, lent).map(|_| ());
    let refused = |number, place| Err(Refusal { number, place });
    let two = ask_words(&[ask(0, 1), ask(MOST, MOST)]);
    let all_wrong = lent(17, 63, 3);
    assert_eq!(verdict(&words[..9], &[], all_wrong), refused(1, 9));
    assert_eq!(verdict(&words, &[], all_wrong), refused(8, 0));
    assert_eq!(verdict(&words, &two[1..3], all_wrong), refused(9, 0));
    let unpaid = [two[0], word(12, 0)];
    assert_eq!(verdict(&words, &unpaid, all_wrong), refused(10, 1));
    assert_eq!(verdict(&words, &two, all_wrong), refused(13, 0));
    assert_eq!(verdict(&words, &two, lent(17, 16_385, 3)), refused(13, 0));
    assert_eq!(verdict(&words, &two, lent(17, 64, 3)), refused(14, 0));
    assert_eq!(verdict(&words, &two, lent(18, 64, 3)), refused(15, 0));
    for enough in [lent(18, 64, 4), lent(19, 16_384, 5)] {
        assert_eq!(verdict(&words, &two, enough), Ok(()));
    }
    assert_eq!(verdict(&words, &two[..2], lent(9, 64, 4)), Ok(()));
}

/// The asks of the worked run, and what they leave.
#[test]
fn the_worked_run_is_right() {
    let asks = [ask(100, 12), ask(18, 1)];
    let checked = said(&asks, &[PLAN, NONE], &[word(13, 18)]);
    let statuses = vec![Status::Plan, Status::None];
    let checked = checked.expect("the run is right");
    assert_eq!((checked.statuses, checked.settled), (statuses, 1));
    // conflicts with choices before and after, as many as the program likes
    let noted = [word(13, 20), word(14, 65)];
    let more = [&noted[..], &[word(13, 18)], &noted].concat();
    assert!(said(&asks, &[PLAN, NONE], &more).is_ok());
}

/// What may be said in between: spent, and unspent with a budget that is too small for that.
#[test]
fn runs_of_file_a_by_hand_are_right() {
    let spent = [4, 0, 0, 0, 0, 0, 0, 2, 1];
    let best = [3, 21, 1, 3, 2, 1, 1, 2, 0];
    let right = |asks: &[(u32, u32)], blocks: &[[u32; 9]], bounds: &[u32], settled| {
        let asks: Vec<Ask> = asks.iter().map(|&(c, b)| ask(c, b)).collect();
        let words: Vec<u32> = bounds.iter().map(|&bound| word(13, bound)).collect();
        let checked = said(&asks, blocks, &words).unwrap_or_else(|reason| panic!("{reason}"));
        assert_eq!(checked.settled, settled, "{asks:?}");
    };
    // spent settles nothing
    right(&[(20, 5), (100, 4)], &[spent, best], &[], 0);
    right(
        &[(20, 5), (100, 4), (20, 5)],
        &[spent, PLAN, PLAN],
        &[18],
        1,
    );
    right(&[(100, 4), (19, 12)], &[best, PLAN], &[18], 0);
    // none settles what is at or below, whatever is between
    right(&[(10, 1), (10, 1), (9, 1)], &[NONE; 3], &[10], 2);
    right(&[(10, 1), (20, 5), (9, 1)], &[NONE, spent, NONE], &[10], 1);
    // rising, each has to walk
    right(
        &[(10, 1), (11, 1), (18, 1), (19, 1)],
        &[NONE, NONE, NONE, PLAN],
        &[10, 11, 18, 18],
        0,
    );
    // none at 18, then none at 10, and 15 is settled by the first
    right(&[(18, 1), (10, 1), (15, 1)], &[NONE; 3], &[18], 2);
    // a plan settles all that follow
    right(
        &[(100, 12), (19, 1), (18, 1), (MOST, 1)],
        &[PLAN, PLAN, NONE, PLAN],
        &[18],
        3,
    );
}

/// A plan of cost 0 settles too, and leaves no conflict.
#[test]
fn a_plan_that_costs_nothing_settles_and_leaves_no_conflict() {
    let survey = Survey::new(&smallest(1, 1));
    let asks = [ask(0, 1), ask(MOST, 1)];
    let free = [1, 0, 1, 0, 0];
    let check = |table: &[u32]| {
        let mut known = BTreeSet::new();
        check_run(
            &survey,
            &asks,
            &free.repeat(2),
            &table_of(table),
            &mut known,
        )
    };
    assert_eq!(check(&[]).map(|checked| checked.settled), Ok(1));
    assert!(check(&[word(13, 0)]).is_err());
}

/// The outcome of an honest planner that looks at as many places as the budget has tries, and spends
/// where `spends` says so and there are more: the blocks, and the bounds without choices.
fn honest(survey: &Survey, asks: &[Ask], spends: impl Fn(usize) -> bool) -> (Vec<u32>, Vec<u32>) {
    let (plan, places) = (survey.plan(), survey.places());
    let (mut answers, mut bounds): (Vec<u32>, Vec<u32>) = (vec![], vec![]);
    let mut known: Option<Vec<u32>> = None;
    let mut nothing_at = None;
    for (index, &ask) in asks.iter().enumerate() {
        let mut block = vec![0; block_len(plan)];
        let settled_none = nothing_at >= Some(ask.ceiling);
        let mark = places.get(ask.budget as usize);
        let best = match mark.filter(|_| spends(index) && known.is_none() && !settled_none) {
            None => survey.cheapest(ask.ceiling),
            Some(mark) => {
                let words = block.len() - plan.units as usize;
                block[words..words + mark.len()].copy_from_slice(mark);
                block[0] = 2;
                survey.cheapest_before(mark, ask.ceiling)
            }
        };
        block[0] += if best.is_some() { 1 } else { 2 };
        if let Some(best) = best {
            block[1] = best.cost as u32;
            let words = best.starts.iter().chain(&best.runs).copied();
            block.splice(2..2 + best.starts.len() + best.runs.len(), words);
        }
        if known.is_none() && !settled_none {
            match block[0] {
                1 => {
                    bounds.extend(block[1].checked_sub(1));
                    known = Some(block.clone());
                }
                2 => {
                    bounds.push(ask.ceiling);
                    nothing_at = Some(ask.ceiling);
                }
                _ => {}
            }
        }
        answers.extend(block);
    }
    (answers, bounds)
}

/// Every list of three asks with ceilings and budgets that tell, spent or not wherever it may be.
#[test]
fn every_outcome_of_an_honest_planner_on_file_a_is_right() {
    let survey = Survey::new(&example_a());
    let all: Vec<Ask> = [0, 18, 19, 21, MOST]
        .iter()
        .flat_map(|&ceiling| [1, 4, 11, 12].map(|budget| ask(ceiling, budget)))
        .collect();
    let (mut runs, mut settled, mut statuses) = (0, 0, BTreeSet::new());
    let mut known = BTreeSet::new();
    for (&first, &second) in all
        .iter()
        .flat_map(|first| all.iter().map(move |b| (first, b)))
    {
        for &third in &all {
            for spends in 0..8 {
                let asks = [first, second, third];
                let (answers, bounds) = honest(&survey, &asks, |index| spends >> index & 1 == 1);
                let words: Vec<u32> = bounds.iter().map(|&bound| word(13, bound)).collect();
                let table = table_of(&words);
                let checked = check_run(&survey, &asks, &answers, &table, &mut known)
                    .unwrap_or_else(|reason| panic!("{reason}; {asks:?}, {answers:?}"));
                if spends == 0 {
                    let due = determined(&survey, &asks);
                    assert!(due.is_none_or(|due| due == answers), "{asks:?}");
                }
                runs += 1;
                settled += checked.settled;
                statuses.extend(checked.statuses);
            }
        }
    }
    assert_eq!(runs, 20 * 20 * 20 * 8);
    assert!(settled > 10_000 && statuses.len() == 4);
}

/// An answer is determined by tries for every place or by the asks before.
#[test]
fn lists_determine_their_blocks_or_leave_them_open() {
    let survey = Survey::new(&example_a());
    let due = |asks: &[(u32, u32)]| {
        let asks: Vec<Ask> = asks.iter().map(|&(c, b)| ask(c, b)).collect();
        determined(&survey, &asks)
    };
    assert_eq!(due(&[(100, 12), (18, 1)]), Some([PLAN, NONE].concat()));
    assert_eq!(due(&[(100, 11)]), None);
    assert_eq!(due(&[(18, 12), (19, 11)]), None);
    assert_eq!(due(&[(18, 12), (18, 1)]), Some([NONE; 2].concat()));
    assert_eq!(due(&[(18, 11), (19, 12)]), None);
    // a file without a place determines all
    let mut late = smallest(2, 1);
    (late.earliest, late.latest, late.duration) = (vec![2], vec![2], vec![2]);
    let none = vec![2, 0, 0, 0, 0, 0];
    assert_eq!(determined(&Survey::new(&late), &[ask(MOST, 1)]), Some(none));
}
