//! Runs of planners that are wrong in one way each, which the reference is to find out.

mod lists_of_asks;

use lists_of_asks::{ask, said, table_of, MOST, NONE, PLAN};
use reference::{check_run, smallest, word, Ask, Plan, Survey};
use std::collections::BTreeSet;

/// Says that a run on file A is found wrong, for a reason that has the words.
fn found_out(asks: &[Ask], blocks: &[[u32; 9]], table: &[u32], words: &str) {
    let reason = said(asks, blocks, table).expect_err("the run is wrong");
    assert!(
        reason.contains(words),
        "{reason:?} of {blocks:?}, {table:?}"
    );
}

#[test]
fn a_planner_that_copies_its_first_reply_is_found_out() {
    let asks = [ask(100, 12), ask(18, 12)];
    found_out(&asks, &[PLAN, PLAN], &[word(13, 18)], "ask 2: a plan where");
    let asks = [ask(18, 12), ask(100, 12)];
    found_out(&asks, &[NONE, NONE], &[word(13, 18)], "ask 2: none where");
    // spent is true of the first ask alone
    let spent = [4, 0, 0, 0, 0, 0, 0, 1, 2];
    let asks = [ask(100, 2), ask(100, 3)];
    found_out(&asks, &[spent; 2], &[], "ask 2: the mark");
}

#[test]
fn a_planner_that_always_says_none_is_found_out() {
    found_out(&[ask(19, 1)], &[NONE], &[word(13, 19)], "ask 1: none where");
    let bounds = [word(13, 18), word(13, 100)];
    found_out(&[ask(18, 1), ask(100, 1)], &[NONE; 2], &bounds, "ask 2");
}

#[test]
fn a_planner_that_gives_a_plan_over_its_ceiling_is_found_out() {
    found_out(&[ask(18, 1)], &[PLAN], &[word(13, 18)], "a plan where no");
    let best = [3, 22, 1, 2, 2, 1, 1, 1, 3];
    found_out(&[ask(21, 3)], &[best], &[], "a best where none");
}

#[test]
fn a_planner_that_is_spent_too_early_is_found_out() {
    let spent = |mark: [u32; 2]| [4, 0, 0, 0, 0, 0, 0, mark[0], mark[1]];
    found_out(&[ask(100, 1)], &[spent([0, 0])], &[], "is no place");
    found_out(&[ask(100, 1)], &[spent([1, 0])], &[], "has rank 0");
    found_out(&[ask(100, 3)], &[spent([1, 2])], &[], "has rank 2");
    let best = [3, 19, 2, 1, 1, 2, 1, 3, 3];
    found_out(&[ask(100, 12)], &[best], &[], "has rank 11");
    found_out(&[ask(100, MOST)], &[best], &[], "has rank 11");
}

#[test]
fn a_planner_that_leaves_out_a_block_is_found_out() {
    let asks = [ask(100, 12), ask(18, 1)];
    found_out(&asks, &[PLAN], &[word(13, 18)], "answer words 9 where 18");
    found_out(&asks, &[PLAN, [0; 9]], &[word(13, 18)], "no status 0");
    found_out(&asks, &[PLAN, NONE, NONE], &[word(13, 18)], "words 27");
    // what was there before is no status either, or not that of the ask
    found_out(&asks, &[PLAN, [9; 9]], &[word(13, 18)], "no status 9");
}

#[test]
fn a_planner_that_invents_its_cost_is_found_out() {
    let cheaper = [1, 18, 2, 1, 1, 2, 1, 0, 0];
    found_out(&[ask(100, 12)], &[cheaper], &[word(13, 17)], "cost 18");
    let dearer = [1, 20, 2, 1, 1, 2, 1, 0, 0];
    found_out(&[ask(100, 12)], &[dearer], &[word(13, 19)], "cost 20");
}

#[test]
fn a_conflict_that_is_kept_for_a_looser_ceiling_is_found_out() {
    // none at 18 taken for none at 30
    let asks = [ask(18, 12), ask(30, 12)];
    let table = [word(13, 18), word(13, 30)];
    found_out(&asks, &[NONE; 2], &table, "ask 2: none where");
    // the plan with start 1 of unit 1, as the cheapest was cut by a conflict of a lower bound
    let second = [1, 20, 2, 3, 1, 2, 1, 0, 0];
    let table = [word(13, 18), word(13, 19)];
    found_out(&asks, &[NONE, second], &table, "ask 2: cost 20");
    // the conflict is true at the bound it was found under, and left with a looser one
    let asks = [ask(18, 12), ask(18, 12)];
    let looser = [word(13, 25), word(14, 65), word(13, 18)];
    found_out(&asks, &[NONE; 2], &looser, "is not true");
}

#[test]
fn false_conflicts_are_found_out() {
    let asks = [ask(100, 12)];
    for (bound, choices) in [
        (21, &[65][..]),
        (19, &[66]),
        (19, &[66, 129]),
        (22, &[65, 130]),
        (MOST, &[67, 129]),
    ] {
        let choices = choices.iter().map(|&choice| word(14, choice));
        let mut table = vec![word(13, bound)];
        table.extend(choices);
        table.push(word(13, 18));
        found_out(&asks, &[PLAN], &table, "is not true");
    }
    found_out(&asks, &[PLAN], &[word(13, 18), word(13, 19)], "without");
}

#[test]
fn a_conflict_without_choices_too_many_or_missing_is_found_out() {
    let wrong = |asks: &[Ask], blocks: &[[u32; 9]], bounds: &[u32]| {
        let words: Vec<u32> = bounds.iter().map(|&bound| word(13, bound)).collect();
        found_out(asks, blocks, &words, "without choices where");
    };
    let worked = [ask(100, 12), ask(18, 1)];
    for bounds in [&[][..], &[17], &[19], &[100], &[18, 18], &[18, 0]] {
        wrong(&worked, &[PLAN, NONE], bounds);
    }
    // settled asks add nothing
    wrong(&[ask(10, 1), ask(10, 1)], &[NONE; 2], &[10, 10]);
    wrong(&[ask(10, 1), ask(9, 1)], &[NONE; 2], &[10, 9]);
    wrong(&[ask(10, 1), ask(9, 1)], &[NONE; 2], &[]);
    // walks that end do, in the order of the asks
    let rising = [ask(9, 1), ask(10, 1)];
    for bounds in [&[][..], &[9], &[10], &[10, 9], &[9, 10, 10]] {
        wrong(&rising, &[NONE; 2], bounds);
    }
    // spent asks do not
    let spent = [4, 0, 0, 0, 0, 0, 0, 2, 1];
    wrong(&[ask(18, 5)], &[spent], &[18]);
    wrong(&[ask(18, 5), ask(18, 1)], &[spent, NONE], &[]);
    wrong(&[ask(18, 5), ask(18, 1)], &[spent, NONE], &[18, 18]);
}

#[test]
fn words_after_the_last_conflict_are_found_out() {
    let asks = [ask(100, 12)];
    for table in [
        &[word(13, 18), 0, word(13, 18)][..],
        &[0, word(13, 18)],
        &[word(13, 18), 1],
    ] {
        found_out(&asks, &[PLAN], table, "in no conflict");
    }
    let mut last = table_of(&[word(13, 18)]);
    last[63] = word(14, 65);
    found_out(&asks, &[PLAN], &last, "14:65 in no conflict, at 63");
}

#[test]
fn spent_after_a_plan_or_after_none_is_found_out() {
    // both blocks are right, each for itself
    let best = [3, 19, 2, 1, 1, 2, 1, 2, 2];
    let spent = [4, 0, 0, 0, 0, 0, 0, 2, 1];
    let bound = [word(13, 18)];
    found_out(&[ask(100, 12), ask(100, 1)], &[PLAN, best], &bound, "ask 2");
    found_out(&[ask(100, 12), ask(18, 1)], &[PLAN, spent], &bound, "ask 2");
    found_out(&[ask(18, 12), ask(18, 1)], &[NONE, spent], &bound, "ask 2");
    // whatever is between
    let asks = [ask(18, 12), ask(20, 5), ask(17, 1)];
    found_out(&asks, &[NONE, spent, spent], &bound, "ask 3");
    // only the ceilings above it may
    let asks = [ask(18, 12), ask(20, 5), ask(20, 5)];
    assert!(said(&asks, &[NONE, spent, spent], &bound).is_ok());
}

#[test]
fn a_plan_that_is_another_later_is_found_out() {
    // two schedules of the same cost, of which only the earlier is right
    let plan = Plan {
        crews: 2,
        latest: vec![2],
        maint: vec![vec![3], vec![3]],
        ..smallest(2, 1)
    };
    let survey = Survey::new(&plan);
    let (first, second) = ([1, 3, 1, 0, 0, 0], [1, 3, 2, 0, 0, 0]);
    let check = |blocks: &[[u32; 6]]| {
        let asks = vec![ask(9, 9); blocks.len()];
        let table = table_of(&[word(13, 2)]);
        check_run(
            &survey,
            &asks,
            &blocks.concat(),
            &table,
            &mut BTreeSet::new(),
        )
    };
    assert!(check(&[first]).is_ok() && check(&[first; 3]).is_ok());
    assert!(check(&[first, second]).is_err() && check(&[second; 2]).is_err());
}
