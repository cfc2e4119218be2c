//! Wrong blocks, marks, tables and conflicts of each kind, which the reference is to find out.

mod single_asks;

use reference::{check_block, conflicts, example_a, is_true, smallest, word, Ask, Survey};
use single_asks::{ask, conflict, survey_a};

/// Says that a block is found wrong, for a reason that has the words.
fn found_out(survey: &Survey, ask: Ask, block: &[u32], words: &str) {
    let reason = check_block(survey, ask, block).expect_err("the block is wrong");
    assert!(reason.contains(words), "{reason:?} of {block:?}");
}

#[test]
fn wrong_blocks_are_found_out() {
    let survey = survey_a();
    let wrong = |ceiling, budget, block: &[u32], words| {
        found_out(&survey, ask(ceiling, budget), block, words);
    };
    wrong(100, 1, &[1, 19, 2, 1, 1, 2, 1, 0], "words 8 where 9");
    wrong(100, 1, &[1, 19, 2, 1, 1, 2, 1, 0, 0, 0], "words 10 where 9");
    wrong(100, 1, &[0; 9], "no status 0");
    wrong(100, 1, &[5, 0, 0, 0, 0, 0, 0, 3, 3], "no status 5");
    // a plan
    wrong(18, 1, &[1, 19, 2, 1, 1, 2, 1, 0, 0], "a plan where no");
    wrong(100, 1, &[1, 18, 2, 1, 1, 2, 1, 0, 0], "cost 18 where 19");
    wrong(100, 1, &[1, 20, 2, 3, 1, 2, 1, 0, 0], "cost 20 where 19");
    wrong(
        100,
        1,
        &[1, 19, 1, 2, 1, 2, 1, 0, 0],
        "starts [1, 2] where [2, 1]",
    );
    wrong(
        100,
        1,
        &[1, 19, 2, 1, 1, 2, 3, 0, 0],
        "runs [1, 2, 3] where [1, 2, 1]",
    );
    wrong(
        100,
        1,
        &[1, 19, 2, 1, 1, 2, 1, 3, 3],
        "mark [3, 3] where [0, 0]",
    );
    // none
    wrong(19, 1, &[2, 0, 0, 0, 0, 0, 0, 0, 0], "none where there is");
    wrong(18, 1, &[2, 19, 0, 0, 0, 0, 0, 0, 0], "cost 19 where 0");
    wrong(
        18,
        1,
        &[2, 0, 2, 1, 0, 0, 0, 0, 0],
        "starts [2, 1] where [0, 0]",
    );
    wrong(
        18,
        1,
        &[2, 0, 0, 0, 0, 0, 1, 0, 0],
        "runs [0, 0, 1] where [0, 0, 0]",
    );
    wrong(
        18,
        1,
        &[2, 0, 0, 0, 0, 0, 0, 3, 0],
        "mark [3, 0] where [0, 0]",
    );
}

#[test]
fn wrong_marks_are_found_out() {
    let survey = survey_a();
    let wrong = |ceiling, budget, block: &[u32], words| {
        found_out(&survey, ask(ceiling, budget), block, words);
    };
    wrong(
        100,
        1,
        &[4, 0, 0, 0, 0, 0, 0, 0, 0],
        "mark [0, 0] is no place",
    );
    wrong(
        100,
        1,
        &[4, 0, 0, 0, 0, 0, 0, 0, 1],
        "mark [0, 1] is no place",
    );
    wrong(
        100,
        1,
        &[4, 0, 0, 0, 0, 0, 0, 1, 4],
        "mark [1, 4] is no place",
    );
    wrong(100, 3, &[4, 0, 0, 0, 0, 0, 0, 1, 2], "has rank 2");
    wrong(100, 1, &[4, 0, 0, 0, 0, 0, 0, 1, 0], "has rank 0");
    wrong(100, 12, &[3, 19, 2, 1, 1, 2, 1, 3, 3], "has rank 11");
    // what is before the mark
    wrong(100, 1, &[4, 0, 0, 0, 0, 0, 0, 2, 0], "spent where");
    wrong(100, 1, &[3, 22, 1, 2, 2, 1, 1, 1, 2], "a best where none");
    wrong(20, 4, &[3, 21, 1, 3, 2, 1, 1, 2, 0], "a best where none");
    wrong(100, 4, &[3, 22, 1, 2, 2, 1, 1, 2, 0], "cost 22 where 21");
    wrong(100, 5, &[3, 19, 2, 1, 1, 2, 1, 2, 1], "cost 19 where 21");
    wrong(
        100,
        4,
        &[3, 21, 3, 1, 2, 1, 1, 2, 0],
        "starts [3, 1] where [1, 3]",
    );
    wrong(
        100,
        4,
        &[3, 21, 1, 3, 2, 3, 1, 2, 0],
        "runs [2, 3, 1] where [2, 1, 1]",
    );
    wrong(100, 2, &[4, 21, 0, 0, 0, 0, 0, 1, 2], "cost 21 where 0");
    wrong(
        100,
        2,
        &[4, 0, 1, 0, 0, 0, 0, 1, 2],
        "starts [1, 0] where [0, 0]",
    );
    wrong(
        100,
        2,
        &[4, 0, 0, 0, 1, 0, 0, 1, 2],
        "runs [1, 0, 0] where [0, 0, 0]",
    );
}

/// The words in a table of 64, from a place on, and 0 before and after them.
fn table_with(place: usize, words: &[u32]) -> Vec<u32> {
    let mut table = vec![0; 64];
    table[place..place + words.len()].copy_from_slice(words);
    table
}

#[test]
fn tables_laid_out_as_they_may_be_are_read() {
    let plan = example_a();
    let read = |place, words: &[u32]| conflicts(&plan, &table_with(place, words));
    assert_eq!(read(0, &[]), Ok(vec![]));
    let two = [
        word(13, 20),
        word(14, 65),
        word(13, 9),
        word(14, 67),
        word(14, 129),
    ];
    let both = vec![conflict(20, &[(1, 1)]), conflict(9, &[(1, 3), (2, 1)])];
    assert_eq!(read(0, &two), Ok(both.clone()));
    // 27 words before them, each a conflict without choices, leave the last 32 free
    let without = conflict(268_435_455, &[]);
    let before = [word(13, 268_435_455); 27];
    let all = [vec![without.clone(); 27], both].concat();
    assert_eq!(read(0, &[&before[..], &two].concat()), Ok(all));
    assert_eq!(read(0, &before[..1]), Ok(vec![without.clone()]));
    // without choices they may stand in the last words too
    assert_eq!(read(0, &[word(13, 268_435_455); 64]), Ok(vec![without; 64]));
    let many = smallest(1, 8);
    let choices: Vec<(u32, u32)> = (1..=8).map(|unit| (unit, 1)).collect();
    let eight = choices
        .iter()
        .map(|(unit, start)| word(14, unit * 64 + start));
    let words: Vec<u32> = [word(13, 0)].into_iter().chain(eight).collect();
    let found = conflicts(&many, &table_with(0, &words));
    assert_eq!(found, Ok(vec![conflict(0, &choices)]));
}

#[test]
fn tables_laid_out_wrongly_are_found_out() {
    let plan = example_a();
    let wrong = |place, words: &[u32], reason: &str| {
        let found = conflicts(&plan, &table_with(place, words));
        let found = found.expect_err("the table is wrong");
        assert!(found.contains(reason), "{found:?}");
    };
    wrong(0, &[word(14, 65)], "14:65 in no conflict, at 0");
    wrong(
        0,
        &[word(13, 1), 0, word(14, 65)],
        "14:65 in no conflict, at 2",
    );
    wrong(5, &[1], "0:1 in no conflict, at 5");
    wrong(5, &[word(12, 1)], "12:1 in no conflict, at 5");
    wrong(63, &[word(15, 63)], "15:63 in no conflict, at 63");
    wrong(
        0,
        &[word(13, 1), word(14, 129), word(14, 65)],
        "do not rise",
    );
    wrong(0, &[word(13, 1), word(14, 65), word(14, 66)], "do not rise");
    for choice in [0, 1, 64, 68, 128, 193, 1 << 27] {
        wrong(0, &[word(13, 1), word(14, choice)], "not permitted");
    }
    // a conflict stands at the first word, and after it the next or none at all
    wrong(1, &[word(13, 1)], "13:1 in no conflict, at 1");
    wrong(
        0,
        &[word(13, 1), 0, word(13, 1)],
        "13:1 in no conflict, at 2",
    );
    wrong(63, &[word(13, 1)], "13:1 in no conflict, at 63");
    for before in [31, 40, 62] {
        let mut words = vec![word(13, 1); before + 1];
        words.push(word(14, 65));
        wrong(0, &words, "in the last words");
    }
    let nine: Vec<u32> = (1..=9).map(|unit| word(14, unit * 64 + 1)).collect();
    let words = table_with(0, &[&[word(13, 0)], &nine[..]].concat());
    let found = conflicts(&smallest(1, 9), &words).expect_err("nine choices");
    assert!(found.contains("too many"), "{found:?}");
}

#[test]
fn false_conflicts_are_found_out() {
    let survey = survey_a();
    for (bound, choices) in [
        (18, &[][..]),
        (18, &[(1, 2)]),
        (268_435_455, &[(1, 2), (2, 2)]),
        (21, &[(1, 1), (2, 2)]),
        (20, &[(1, 3), (2, 1)]),
        (20, &[(1, 1)]),
    ] {
        let mut claim = conflict(bound, choices);
        assert!(is_true(&survey, &claim), "{claim:?}");
        claim.bound = 23;
        let never = choices == [(1, 2), (2, 2)];
        assert_eq!(is_true(&survey, &claim), never, "{claim:?}");
    }
    assert!(!is_true(&survey, &conflict(19, &[(2, 1)])));
    assert!(!is_true(&survey, &conflict(22, &[(1, 1), (2, 2)])));
}
