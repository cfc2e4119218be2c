//! The judge program against the reference: the one line that it prints for a file and a grid, for
//! damaged ones, and for inputs that are cut short or too long.

use agree::{
    breaches, off_damages, printed, random_scheduled, small_plans, smallest, staggered, together,
    OffClass, OffCounts, Random,
};
use reference::{
    bytes_of, encode, example_a, example_a_words, judge_input, word, Plan, MAINT, OFF, ON,
};

/// The line that the program prints, without its line feed; panics where the reference has another.
fn agreed(input: &[u8]) -> String {
    let line = judge_input(input).to_string();
    let (count, first) = (input.len(), &input[..input.len().min(120)]);
    let whole = format!("{line}\n");
    assert_eq!(
        printed("judge", input),
        Ok(whole),
        "{count} bytes, first {first:?}"
    );
    line
}

/// The program's input for a file and a grid.
fn input(words: &[u32], grid: &[u8]) -> Vec<u8> {
    [&bytes_of(words), grid].concat()
}

/// File A with one word replaced, and the grid of its cheapest schedule.
fn damaged(place: usize, new: u32) -> Vec<u8> {
    let mut words = example_a_words();
    words[place] = new;
    input(&words, &CHEAPEST)
}

const CHEAPEST: [u8; 6] = [ON, MAINT, MAINT, ON, ON, OFF];

#[test]
fn grids_of_file_a_are_judged() {
    let judged = |grid: &[u8]| agreed(&input(&example_a_words(), grid));
    assert_eq!(judged(&CHEAPEST), "sound 19");
    assert_eq!(judged(&[ON, MAINT, MAINT, ON, ON, ON]), "sound 23");
    assert_eq!(judged(&[OFF; 6]), "rule 1");
    assert_eq!(judged(&[ON, MAINT, ON, ON, ON, MAINT]), "rule 4");
    assert_eq!(judged(&[ON, MAINT, ON, MAINT, ON, ON]), "rule 5");
    assert_eq!(judged(&[ON; 6]), "rule 6");
    assert_eq!(judged(&[ON, MAINT, MAINT, ON, 3, 255]), "refused 12 4");
    assert_eq!(judged(&[]), "refused 11 0");
    assert_eq!(judged(&[ON; 5]), "refused 11 0");
    assert_eq!(judged(&[3; 7]), "refused 11 0");
}

#[test]
fn the_largest_file_is_judged() {
    let scheduled = staggered();
    let whole = input(&encode(&scheduled.plan), &scheduled.grid());
    assert_eq!(whole.len(), 4 * 2720 + 832);
    assert_eq!(agreed(&whole), "sound 208000000");
}

#[test]
fn each_formula_broken_alone_is_printed() {
    for number in 1..=8 {
        let cases = breaches(number, &together());
        let (plan, grid) = &cases[cases.len() / 2];
        let line = agreed(&input(&encode(plan), grid));
        assert_eq!(line, format!("rule {number}"));
    }
}

#[test]
fn random_sound_grids_are_printed_with_their_cost() {
    let mut off = OffCounts::default();
    for seed in 0..12 {
        let mut random = Random::seeded(seed);
        let mut scheduled = random_scheduled(&mut random, 52, 16);
        let class = OffClass::ALL[seed as usize % OffClass::ALL.len()];
        scheduled.plan.off = class.costs(&scheduled.plan.running, &mut random);
        off.add(&scheduled.plan);
        let line = agreed(&input(&encode(&scheduled.plan), &scheduled.grid()));
        assert!(line.starts_with("sound "), "seed {seed}");
    }
    assert!(off.rarest() >= 2);
}

#[test]
fn off_cells_are_printed_with_their_cost() {
    let plan = Plan {
        off: Some(vec![vec![10, 20], vec![30, 40], vec![50, 60]]),
        ..example_a()
    };
    let judged = |grid: &[u8]| agreed(&input(&encode(&plan), grid));
    assert_eq!(judged(&CHEAPEST), "sound 79");
    assert_eq!(judged(&[ON, MAINT, MAINT, ON, ON, ON]), "sound 23");
}

#[test]
fn damaged_off_costs_are_refused() {
    let plans = small_plans();
    for plan in plans.iter().filter(|plan| plan.off.is_some()) {
        let damages = off_damages(plan).into_iter();
        // a word of kind 15 ends the file, and what follows it is the grid
        let damages = damages.filter(|(words, refusal)| words[refusal.place] >> 28 != 15);
        for (damaged, refusal) in damages.step_by(5) {
            let line = agreed(&input(&damaged, &[]));
            assert_eq!(line, refusal.to_string());
        }
    }
}

/// The bytes of a file that is cut short are all the file's.
#[test]
fn without_an_end_word_there_is_no_grid() {
    let file = bytes_of(&example_a_words());
    assert_eq!(agreed(&[]), "refused 1 0");
    assert_eq!(agreed(&file[..96]), "refused 1 24");
    assert_eq!(agreed(&file[..48]), "refused 1 12");
    for length in [1, 95, 97, 98, 99] {
        assert_eq!(agreed(&file[..length]), "refused 16 0");
    }
}

#[test]
fn input_over_32_768_bytes_is_refused_untested() {
    let mut long = input(&example_a_words(), &CHEAPEST);
    long.resize(32_768, OFF);
    assert_eq!(agreed(&long), "refused 11 0");
    assert_eq!(agreed(&[0; 32_768]), "refused 1 0");
    long.push(OFF);
    assert_eq!(agreed(&long), "refused 17 0");
    assert_eq!(agreed(&[0; 32_769]), "refused 17 0");
    assert_eq!(agreed(&[0; 300_000]), "refused 17 0");
}

/// So a word after the end word can be a whole grid, and the program never prints refusal 7.
#[test]
fn words_after_the_end_word_are_the_grids() {
    let plan = Plan {
        latest: vec![2, 2],
        ..smallest(2, 2)
    };
    let with_word = |new: u32| agreed(&input(&encode(&plan), &bytes_of(&[new])));
    assert_eq!(
        with_word(u32::from_le_bytes([MAINT, OFF, ON, MAINT])),
        "sound 0"
    );
    assert_eq!(with_word(u32::from_le_bytes([OFF; 4])), "rule 6");
    assert_eq!(with_word(word(15, 18)), "refused 12 0");
    assert_eq!(with_word(word(7, 0)), "refused 12 3");
    let second_file = example_a_words();
    let both = [&example_a_words()[..], &second_file].concat();
    assert_eq!(agreed(&input(&both, &CHEAPEST)), "refused 11 0");
}

/// A word of kind 15 ends the file wherever it stands.
#[test]
fn damaged_files_are_refused() {
    assert_eq!(agreed(&damaged(0, word(1, 53))), "refused 2 0");
    assert_eq!(agreed(&damaged(7, word(6, 3 * 64 + 2))), "refused 3 7");
    assert_eq!(agreed(&damaged(12, word(9, 5))), "refused 1 12");
    assert_eq!(agreed(&damaged(24, word(15, 23))), "refused 6 24");
    assert_eq!(agreed(&damaged(24, u32::MAX)), "refused 6 24");
    assert_eq!(agreed(&damaged(0, word(15, 0))), "refused 1 0");
    assert_eq!(agreed(&damaged(3, word(15, 3))), "refused 1 3");
    // Without its end word the file takes the grid in, and 106 bytes are not whole words.
    assert_eq!(agreed(&damaged(24, word(10, 34))), "refused 16 0");
    let mut pair = example_a_words();
    pair[24] = word(10, 33);
    assert_eq!(agreed(&bytes_of(&pair)), "refused 4 24");
}
