//! The planning program against the reference: the lines that it prints for a file and a list of
//! asks, to the letter where the input determines them and by the rules where it does not, and its
//! one line for inputs that are refused.

use agree::{
    asked_plan, asks_around, edited, largest, leave_no_start, off_damages, printed, proved_asks,
    random_plan, random_scheduled, seeds_for, small_plans, smallest, telling_asks, Buffers,
    KnownFile, ListAnswer, OffCounts, Random, MOST,
};
use reference::{
    ask_words, block_len, bytes_of, check_plan_text, encode, example_a, example_a_words,
    plan_input, plan_lines, plan_text, word, words_from, Ask, Plan, Status, Survey,
};
use std::collections::BTreeMap;
use std::fmt::Arguments;
use std::fs;
use std::path::Path;

/// What the program says of an input, each ask's status or the refusal, after its text; panics,
/// with the origin, where the text is not one that it may print.
fn agreed(input: &[u8], origin: Arguments) -> (String, ListAnswer) {
    let (count, first) = (input.len(), &input[..input.len().min(120)]);
    let checked = printed("plan", input).and_then(|text| match check_plan_text(input, &text) {
        Ok(said) => Ok((text, said)),
        Err(reason) => Err(format!("{reason} in {text:?}")),
    });
    checked.unwrap_or_else(|reason| panic!("{reason}; {origin}, {count} bytes, first {first:?}"))
}

/// The text for an input; panics where it is not one that the program may print.
fn text(input: &[u8]) -> String {
    agreed(input, format_args!("one input")).0
}

/// The text without its last line feed, for an input that determines it.
fn determined(input: &[u8]) -> String {
    let text = text(input);
    assert_eq!(Some(&text), plan_text(input).as_ref());
    text.trim_end().to_string()
}

/// The program's input for a file and the text of a list of asks.
fn input(words: &[u32], asks: &str) -> Vec<u8> {
    bytes_of(&[words, &words_from(asks)].concat())
}

/// File A and a list of asks.
fn on_a(asks: &str) -> Vec<u8> {
    input(&example_a_words(), asks)
}

/// File A with one word replaced, and an ask.
fn damaged(place: usize, new: u32) -> Vec<u8> {
    let mut words = example_a_words();
    words[place] = new;
    input(&words, "11:100 12:12")
}

#[test]
fn the_worked_input_is_answered() {
    let worked = on_a("11:100 12:12 11:18 12:1");
    assert_eq!(
        text(&worked),
        "ask 1 plan 19 starts 2 1 run 1 2 1\nask 2 none\n"
    );
    assert_eq!(worked.len(), 116);
}

#[test]
fn asks_with_tries_for_every_place_are_answered_in_full() {
    assert_eq!(determined(&on_a("11:18 12:12")), "ask 1 none");
    assert_eq!(
        determined(&on_a("11:18 12:12 11:19 12:12 11:0 12:1 11:268435455 12:1")),
        "ask 1 none\nask 2 plan 19 starts 2 1 run 1 2 1\nask 3 none\n\
         ask 4 plan 19 starts 2 1 run 1 2 1"
    );
    // one week, one unit
    let mut one = smallest(1, 1);
    one.maint = vec![vec![7]];
    let said = |plan: &Plan, asks| determined(&input(&encode(plan), asks));
    assert_eq!(said(&one, "11:7 12:1"), "ask 1 plan 7 starts 1 run 0");
    assert_eq!(said(&one, "11:6 12:1"), "ask 1 none");
    one.demand = vec![1];
    assert_eq!(said(&one, "11:268435455 12:1"), "ask 1 none");
    // a plan that costs nothing
    let free = smallest(2, 1);
    assert_eq!(
        said(&free, "11:0 12:2 11:5 12:1"),
        "ask 1 plan 0 starts 1 run 0 0\nask 2 plan 0 starts 1 run 0 0"
    );
    // no place at all
    let mut late = smallest(3, 2);
    leave_no_start(&mut late, 1);
    assert_eq!(said(&late, "11:268435455 12:1"), "ask 1 none");
}

/// File A with OFF costs above all running costs, as high as unit 2's, and below all.
#[test]
fn off_costs_are_in_the_lines() {
    let said = |off: u32| {
        let plan = Plan {
            off: Some(vec![vec![off; 2]; 3]),
            ..example_a()
        };
        determined(&input(&encode(&plan), "11:100 12:12 11:20 12:1"))
    };
    assert_eq!(said(5), "ask 1 plan 23 starts 2 1 run 1 2 3\nask 2 none");
    assert_eq!(said(4), "ask 1 plan 23 starts 2 1 run 1 2 1\nask 2 none");
    assert_eq!(said(2), "ask 1 plan 21 starts 2 1 run 1 2 1\nask 2 none");
}

#[test]
fn damaged_off_costs_are_refused() {
    let plans = small_plans();
    for plan in plans.iter().filter(|plan| plan.off.is_some()) {
        for (damaged, refusal) in off_damages(plan).into_iter().step_by(5) {
            // a word of kind 15 ends the file, and what follows it is asks
            let whole = input(&damaged, "11:100 12:12");
            let line = determined(&whole);
            let cut = damaged[refusal.place] >> 28 == 15;
            assert!(line == refusal.to_string() || cut, "{line}, {refusal}");
        }
    }
}

/// The most asks, and the largest file that the program has words for.
#[test]
fn the_most_asks_and_units_are_answered() {
    let lines = determined(&on_a(&"11:100 12:12 ".repeat(32)));
    assert_eq!(lines.lines().count(), 32);
    assert!(lines.ends_with("\nask 32 plan 19 starts 2 1 run 1 2 1"));
    let starts: Vec<u32> = (0..14).map(|unit| 3 * unit + 1).collect();
    let cut = Plan {
        capacity: vec![1_000_000; 14],
        demand: vec![13_000_000; 52],
        earliest: starts.clone(),
        latest: starts,
        duration: vec![3; 14],
        maint: vec![vec![250_000; 14]; 52],
        running: vec![vec![250_000; 14]; 52],
        ..smallest(52, 14)
    };
    let line = determined(&input(&encode(&cut), "11:268435455 12:14"));
    assert!(line.starts_with("ask 1 plan 179500000 starts 1 4 7 10"));
    // the unit that is not needed in weeks 43 to 52 costs as much OFF, and the first 13 run
    let warm = Plan {
        off: Some(vec![vec![250_000; 14]; 52]),
        ..cut
    };
    let line = determined(&input(&encode(&warm), "11:268435455 12:14"));
    assert!(line.starts_with("ask 1 plan 182000000 starts 1 4 7 10"));
    assert!(line.ends_with(" 8191 8191"));
}

/// Every budget of file A, alone and before one that is enough; the marks are printed with their 0.
#[test]
fn spent_asks_of_file_a_are_printed_with_their_mark() {
    let mut counts = BTreeMap::<Status, usize>::new();
    let mut short_marks = 0;
    for ceiling in [18, 19, 20, 21, 22, 100] {
        for budget in 1..=12 {
            let asks = format!("11:{ceiling} 12:{budget} 11:100 12:12");
            let (text, said) = agreed(&on_a(&asks), format_args!("file A, {asks}"));
            let said = said.expect("the input is accepted");
            assert_eq!(said[1], Status::Plan);
            short_marks += usize::from(text.contains(" mark ") && text.contains(" 0\n"));
            *counts.entry(said[0]).or_default() += 1;
        }
    }
    println!("{counts:?}, {short_marks} marks with a missing start");
    assert!(counts.len() == 4 && counts.values().all(|&count| count > 3));
    assert!(short_marks > 3);
}

#[test]
fn the_example_seasons_are_answered_as_shown() {
    let folder = Path::new(env!("CARGO_MANIFEST_DIR")).join("../../examples");
    for name in ["season", "season-warm"] {
        let file = folder.join(name);
        let bytes = fs::read(file.with_extension("bin")).expect("the example's bytes");
        let shown = fs::read_to_string(file.with_extension("out")).expect("the example's output");
        assert_eq!(text(&bytes), shown, "{name}");
    }
}

/// Without an end word all bytes are the file's; an empty input has none of its words.
#[test]
fn input_without_an_end_word_is_all_file() {
    let file = bytes_of(&example_a_words());
    assert_eq!(text(&[]), "refused 1 0\n");
    assert_eq!(determined(&file[..96]), "refused 1 24");
    assert_eq!(determined(&file[..4]), "refused 1 1");
    let words = &example_a_words()[..24];
    assert_eq!(determined(&input(words, "11:100 12:12")), "refused 1 24");
    assert_eq!(determined(&input(&[], "11:100 12:12")), "refused 1 0");
}

/// All bytes together are whole words or not: a file that is good or bad and asks make no odds.
#[test]
fn bytes_that_are_not_whole_words_are_refused_first() {
    let whole = on_a("11:100 12:12");
    for length in (1..=whole.len()).filter(|length| length % 4 != 0) {
        assert_eq!(determined(&whole[..length]), "refused 16 0");
    }
    let bad = damaged(0, word(1, 53));
    assert_eq!(determined(&bad[..bad.len() - 1]), "refused 16 0");
    assert_eq!(determined(&[0]), "refused 16 0");
    assert_eq!(determined(&[255; 32_767]), "refused 16 0");
    assert_eq!(determined(&[255; 32_765]), "refused 16 0");
}

#[test]
fn input_over_32_768_bytes_is_refused_untested() {
    let mut long = on_a("11:100 12:12");
    long.resize(32_768, 0);
    assert_eq!(determined(&long), "refused 8 0");
    assert_eq!(determined(&[0; 32_768]), "refused 1 0");
    long.push(0);
    assert_eq!(determined(&long), "refused 17 0");
    for length in [32_769, 32_770, 32_771, 32_772, 40_000, 300_001] {
        assert_eq!(determined(&vec![0; length]), "refused 17 0");
    }
}

/// A word of kind 15 ends the file wherever it is, and what follows it is asks: refusal 7 is never
/// printed.
#[test]
fn damaged_files_are_refused() {
    assert_eq!(determined(&damaged(0, word(1, 53))), "refused 2 0");
    assert_eq!(determined(&damaged(7, word(6, 3 * 64 + 2))), "refused 3 7");
    assert_eq!(determined(&damaged(12, word(9, 5))), "refused 1 12");
    assert_eq!(determined(&damaged(24, word(15, 23))), "refused 6 24");
    assert_eq!(determined(&damaged(24, u32::MAX)), "refused 6 24");
    assert_eq!(determined(&damaged(0, word(15, 0))), "refused 1 0");
    assert_eq!(determined(&damaged(3, word(15, 3))), "refused 1 3");
    // a file that goes on with pairs where its end word was
    assert_eq!(determined(&damaged(24, word(10, 34))), "refused 1 25");
    assert_eq!(determined(&damaged(24, word(10, 33))), "refused 4 24");
    // the words of a second file are asks
    let twice = [example_a_words(), example_a_words()].concat();
    assert_eq!(determined(&input(&twice, "")), "refused 8 0");
    assert_eq!(determined(&input(&twice, "11:100")), "refused 9 0");
}

#[test]
fn asks_are_refused_with_their_place_among_the_asks() {
    let refused = |asks: &str| determined(&on_a(asks));
    for asks in ["", "11:100", "11:100 12:12 11:100", "0:0"] {
        assert_eq!(refused(asks), "refused 8 0");
    }
    assert_eq!(refused(&"11:100 12:12 ".repeat(33)), "refused 8 0");
    assert_eq!(refused(&"0:0 ".repeat(66)), "refused 8 0");
    assert_eq!(refused("12:12 11:100"), "refused 9 0");
    assert_eq!(refused("11:100 11:100"), "refused 9 1");
    assert_eq!(refused("11:100 12:12 15:26 12:1"), "refused 9 2");
    assert_eq!(refused("11:100 12:0"), "refused 10 1");
    assert_eq!(refused("11:100 12:12 11:18 12:0"), "refused 10 3");
    let last = "11:100 12:12 ".repeat(31) + "11:0 12:0";
    assert_eq!(refused(&last), "refused 10 63");
    assert_eq!(refused(&last.replace("11:0 ", "14:0 ")), "refused 9 62");
}

/// The program's scratch is enough for 14 units. File and asks are tested before.
#[test]
fn files_with_15_or_16_units_are_refused_last() {
    for units in [15, 16] {
        let words = encode(&smallest(2, units));
        let refused = |asks: &str| determined(&input(&words, asks));
        assert_eq!(refused("11:100 12:12"), "refused 15 0");
        assert_eq!(refused(&"11:100 12:1 ".repeat(32)), "refused 15 0");
        assert_eq!(refused(""), "refused 8 0");
        assert_eq!(refused("11:100 13:12"), "refused 9 1");
        assert_eq!(refused("11:100 12:0"), "refused 10 1");
        let mut bad = words.clone();
        bad[3] = word(4, 16_000_001);
        assert_eq!(determined(&input(&bad, "11:100 12:12")), "refused 2 3");
        let counted = bad.len() as u32 - 2;
        bad = words.clone();
        *bad.last_mut().expect("an end word") = word(15, counted);
        let line = format!("refused 6 {}", words.len() - 1);
        assert_eq!(determined(&input(&bad, "11:100 12:12")), line);
    }
    // the largest blocks of 32 asks have room
    for asks in [1, 32] {
        let whole = input(&encode(&largest()), &"11:100 12:12 ".repeat(asks));
        assert_eq!(determined(&whole), "refused 15 0");
    }
    let plan = Plan {
        crews: 14,
        ..smallest(1, 14)
    };
    let line = determined(&input(&encode(&plan), "11:0 12:14"));
    assert!(line.starts_with("ask 1 plan 0 starts 1 1 1 1"));
}

/// A small file and a list of asks for each seed: every line by the rules, and to the letter where
/// all asks have tries enough.
#[test]
fn random_lists_on_small_files_are_printed() {
    let what = "random lists, printed";
    let (mut counts, mut inputs, mut letters) = (BTreeMap::<Status, usize>::new(), 0, 0);
    let mut off = OffCounts::default();
    for seed in seeds_for(0.3, 800, what) {
        let mut random = Random::seeded(seed);
        let (units, weeks) = (seed as u32 % 4 + 1, seed as u32 / 4 % 5 + 1);
        let plan = asked_plan(&mut random, weeks, units);
        off.add(&plan);
        let mut asks = telling_asks(&Survey::new(&plan), &mut random);
        if random.once_in(4) {
            asks.iter_mut().for_each(|ask| ask.budget = MOST);
        }
        let whole = bytes_of(&[encode(&plan), ask_words(&asks)].concat());
        let (text, said) = agreed(&whole, format_args!("{asks:?}, seed {seed}"));
        let said = said.expect("the input is accepted");
        if let Some(due) = plan_text(&whole) {
            assert_eq!(text, due, "{asks:?}, seed {seed}");
            letters += 1;
        }
        said.into_iter()
            .for_each(|status| *counts.entry(status).or_default() += 1);
        inputs += 1;
    }
    println!("{inputs} inputs, {letters} of them to the letter, {counts:?}, {off}");
    assert!(off.rarest() > 80, "{off}");
    assert!(inputs >= 800 && letters > 200 && counts.len() == 4);
    assert!(counts.values().all(|&count| count > 50), "{counts:?}");
}

/// On files of any size up to 14 units the lines are those of the blocks that the library leaves in
/// as many words as the program has.
#[test]
fn the_program_prints_what_the_library_answers() {
    let (mut lines, mut off) = ([0; 4], OffCounts::default());
    for seed in 0..100 {
        let mut random = Random::seeded(seed);
        let file = KnownFile::new(&random_scheduled(&mut random, 52, 14));
        off.add(file.plan());
        let count = random.within(1, 32);
        let asks = asks_around(file.cost(), count, 5000, &mut random);
        let (words, asks) = (encode(file.plan()), ask_words(&asks));
        let mut lent = Buffers {
            answers: vec![0; asks.len() / 2 * block_len(file.plan())],
            table: vec![0; 16_384],
            scratch: vec![0; 16_384],
        };
        assert_eq!(proved_asks(&words, &asks, &mut lent), Ok(()));
        let text = printed("plan", &bytes_of(&[words, asks].concat()));
        let due = plan_lines(file.plan(), &lent.answers);
        assert_eq!(text, Ok(due), "seed {seed}");
        for block in lent.answers.chunks(block_len(file.plan())) {
            lines[block[0] as usize - 1] += 1;
        }
    }
    println!("lines of each status: {lines:?}, {off}");
    assert!(lines.iter().all(|&count| count > 20) && off.rarest() > 8);
}

/// Inputs with words edited in the file, in the asks or in both, or cut short.
#[test]
fn random_damaged_inputs_are_printed() {
    let (mut counts, mut answered) = (BTreeMap::<u32, usize>::new(), 0);
    for seed in 0..600 {
        let mut random = Random::seeded(seed);
        let plan = match seed % 20 {
            0 => random_plan(&mut random, 52, 16),
            _ => asked_plan(&mut random, 3, 2),
        };
        let ask = |_| Ask {
            ceiling: random.edgy(0, MOST),
            budget: random.edgy(0, 40),
        };
        let asks: Vec<Ask> = (0..3).map(ask).collect();
        let (words, mut asks) = (encode(&plan), ask_words(&asks));
        let damaged = if random.once_in(2) || plan.units > 2 {
            edited(&words, &plan, &mut random)
        } else {
            words
        };
        if random.once_in(2) {
            let place = random.place(asks.len());
            asks[place] = random.word();
            asks.truncate(random.place(9));
        }
        let mut whole = bytes_of(&[damaged, asks].concat());
        if random.once_in(8) {
            whole.truncate(random.place(whole.len()));
        }
        // all places of a large file would take too long, if one were still accepted
        if plan.units <= 2 || plan_input(&whole).is_err() {
            match agreed(&whole, format_args!("seed {seed}")).1 {
                Ok(_) => answered += 1,
                Err(refusal) => *counts.entry(refusal.number).or_default() += 1,
            }
        }
    }
    println!("{answered} answered, refusals {counts:?}");
    let never = [5, 7, 11, 12, 13, 14];
    assert!(answered > 30 && counts.len() >= 7);
    assert!(never.iter().all(|number| !counts.contains_key(number)));
}
