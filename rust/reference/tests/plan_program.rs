//! The reference on the planning program: the worked text of document 01, inputs that are refused,
//! texts by hand for each status, and wrong texts, which are to be found out.

use reference::{
    bytes_of, check_plan_text, encode, example_a_words, plan_text, smallest, word, words_from,
    Refusal, Status,
};

/// The bytes of file A and then of these asks.
fn input(asks: &str) -> Vec<u8> {
    let words = [example_a_words(), words_from(asks)].concat();
    bytes_of(&words)
}

/// The text that an input determines.
fn text(bytes: &[u8]) -> String {
    plan_text(bytes).expect("the input determines the text")
}

#[test]
fn the_worked_text_is_printed() {
    let worked = input("11:100 12:12 11:18 12:1");
    let due = "ask 1 plan 19 starts 2 1 run 1 2 1\nask 2 none\n";
    assert_eq!(text(&worked), due);
    assert_eq!(
        check_plan_text(&worked, due),
        Ok(Ok(vec![Status::Plan, Status::None]))
    );
}

#[test]
fn inputs_are_refused_in_one_line() {
    let refused = |bytes: &[u8], line: &str| assert_eq!(text(bytes), format!("{line}\n"));
    let whole = input("11:100 12:12");
    refused(&[], "refused 1 0");
    refused(&whole[..96], "refused 1 24");
    refused(&whole[..100], "refused 8 0");
    refused(&whole[..104], "refused 8 0");
    // all bytes together are whole words or not, whatever they are
    for length in [1, 2, 3, 98, 101, 105, 107] {
        refused(&whole[..length], "refused 16 0");
    }
    refused(&[255; 32_768], "refused 1 0");
    refused(&[255; 32_767], "refused 16 0");
    refused(&[255; 32_769], "refused 17 0");
    refused(&[0; 40_000], "refused 17 0");
    // a word of kind 15 ends the file wherever it is, and the asks begin after the first
    refused(&bytes_of(&words_from("15:0 11:100 12:12")), "refused 1 0");
    refused(&bytes_of(&words_from("1:3 2:2 15:2")), "refused 1 2");
    refused(&input("15:25 12:12"), "refused 9 0");
    refused(&input("11:100 12:0"), "refused 10 1");
    refused(&input("11:1 12:1 12:1 12:1"), "refused 9 2");
    refused(&input(&"11:1 12:1 ".repeat(33)), "refused 8 0");
    // the program's scratch is too small for 15 units, after all else was tested
    let large = |asks: &str| {
        let words = [encode(&smallest(1, 15)), words_from(asks)].concat();
        bytes_of(&words)
    };
    refused(&large("11:1 12:1"), "refused 15 0");
    refused(&large("11:1 12:0"), "refused 10 1");
    refused(&large(""), "refused 8 0");
}

/// A budget below the number of places leaves the text open, but not what it may be.
#[test]
fn open_texts_are_checked() {
    let open = input("11:100 12:4");
    assert_eq!(plan_text(&open), None);
    let right = |text: &str, status| {
        let said = check_plan_text(&open, &format!("{text}\n"));
        assert_eq!(said, Ok(Ok(vec![status])));
    };
    right("ask 1 plan 19 starts 2 1 run 1 2 1", Status::Plan);
    right("ask 1 best 21 starts 1 3 run 2 1 1 mark 2 0", Status::Best);
    right("ask 1 best 19 starts 2 1 run 1 2 1 mark 3 0", Status::Best);
    let spent = input("11:18 12:4");
    assert_eq!(
        check_plan_text(&spent, "ask 1 spent mark 2 0\n"),
        Ok(Ok(vec![Status::Spent]))
    );
    let refused = check_plan_text(&input("11:18"), "refused 8 0\n");
    let place = 0;
    assert_eq!(refused, Ok(Err(Refusal { number: 8, place })));
}

#[test]
fn wrong_texts_are_found_out() {
    let open = input("11:100 12:4 11:18 12:4");
    let right = "ask 1 best 19 starts 2 1 run 1 2 1 mark 3 0\nask 2 spent mark 2 1\n";
    assert!(check_plan_text(&open, right).is_ok());
    for (part, other) in [
        ("ask 1", "ask 2"),
        ("ask 2", "ask 1"),
        ("ask 2", "ask  2"),
        ("best", "plan"),
        ("best", "Best"),
        ("best 19", "best 019"),
        ("best 19", "best 20"),
        ("best 19", "best"),
        ("starts 2 1", "starts 2 2"),
        ("starts 2 1", "starts 2"),
        ("run 1 2 1", "run 1 2 3"),
        ("run 1 2 1", "runs 1 2 1"),
        ("mark 3 0", "mark 3"),
        ("mark 3 0", "mark 3 4"),
        ("mark 3 0", "mark 1 2"),
        (" mark 3 0", ""),
        ("mark 3 0\n", "mark 3 0 \n"),
        ("mark 2 1\n", "mark 2 1"),
        ("mark 2 1\n", "mark 2 1\n\n"),
        ("mark 2 1\n", "mark 2 1\r\n"),
        ("spent mark 2 1", "none mark 2 1"),
        ("ask 2 spent mark 2 1\n", ""),
        ("ask 2 spent mark 2 1\n", "refused 9 2\n"),
        ("spent mark 2 1", "spent mark 2 1\nask 3 none"),
    ] {
        let wrong = right.replace(part, other);
        assert_ne!(wrong, right);
        assert!(check_plan_text(&open, &wrong).is_err(), "{wrong:?}");
    }
    assert!(check_plan_text(&open, "").is_err());
    // spent after a plan
    let after = "ask 1 plan 19 starts 2 1 run 1 2 1\nask 2 spent mark 2 1\n";
    assert!(check_plan_text(&open, after).is_err());
    let refused = bytes_of(&[word(1, 53)]);
    for wrong in ["refused 1 1\n", "refused 2 0", "refused 2 0 \n", ""] {
        assert!(check_plan_text(&refused, wrong).is_err(), "{wrong:?}");
    }
    assert!(check_plan_text(&refused, "refused 2 0\n").is_ok());
}
