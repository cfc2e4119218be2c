//! The reference on the worked figures of document 01 that concern files and grids.

use reference::{
    broken, bytes_of, encode, example_a, example_a_words, judge, lay_out, load, read, sizing,
    smallest, Judgement, Plan, Refusal, MAINT, OFF, ON,
};

/// The costs of the sound ones among all grids of a plan.
fn sound_costs(plan: &Plan) -> Vec<u64> {
    let cells = plan.weeks * plan.units;
    let state = |number: u32, cell| (number / 3u32.pow(cell) % 3) as u8;
    (0..3u32.pow(cells))
        .map(|number| (0..cells).map(|cell| state(number, cell)).collect())
        .filter_map(|grid: Vec<u8>| match judge(&encode(plan), &grid) {
            Judgement::Sound(cost) => Some(cost),
            _ => None,
        })
        .collect()
}

#[test]
fn file_a_is_accepted_and_says_the_example() {
    assert_eq!(read(&example_a_words()), Ok(example_a()));
    assert_eq!(encode(&example_a()), example_a_words());
}

#[test]
fn file_a_has_25_words_and_survives_its_bytes() {
    let words = example_a_words();
    let bytes = bytes_of(&words);
    assert_eq!(words.len(), 25);
    assert_eq!(bytes.len(), 100);
    assert_eq!(bytes[..8], [3, 0, 0, 0x10, 2, 0, 0, 0x20]);
    assert_eq!(load(&bytes, 25), Ok(words.clone()));
    assert_eq!(load(&bytes, 26), Ok(words));
}

#[test]
fn bytes_are_refused_for_16_before_17() {
    let refused = |number| Err(Refusal { number, place: 0 });
    assert_eq!(load(&[1, 2, 3], 0), refused(16));
    assert_eq!(load(&[1, 2, 3, 4], 0), refused(17));
    assert_eq!(load(&[1, 2, 3, 4], 1), Ok(vec![0x0403_0201]));
    assert_eq!(load(&[], 0), Ok(vec![]));
}

#[test]
fn sizing_of_file_a_is_12() {
    assert_eq!(sizing(&example_a()), 12);
}

#[test]
fn sizing_of_52_weeks_and_16_units_is_the_cap() {
    assert_eq!(sizing(&smallest(52, 16)), 268_435_455);
}

#[test]
fn sizing_of_files_around_the_cap() {
    // 16 + 16² + … + 16^6 = (16^7 - 16) / 15; one unit more passes the cap, as 16^7 = 2^28.
    assert_eq!(sizing(&smallest(16, 6)), 17_895_696);
    assert_eq!(sizing(&smallest(16, 7)), 268_435_455);
    assert_eq!(sizing(&smallest(1, 16)), 16);
    assert_eq!(sizing(&smallest(52, 1)), 52);
}

#[test]
fn p1_the_cheapest_schedule_of_file_a_is_sound_at_19() {
    let grid = lay_out(&example_a(), &[2, 1], &[1, 2, 1]);
    assert_eq!(grid, [ON, MAINT, MAINT, ON, ON, OFF]);
    assert_eq!(judge(&example_a_words(), &grid), Judgement::Sound(19));
}

#[test]
fn p2_no_grid_of_file_a_is_sound_below_19() {
    assert_eq!(sound_costs(&example_a()).into_iter().min(), Some(19));
}

#[test]
fn p5_p6_one_week_is_sound_without_demand_alone() {
    let mut plan = smallest(1, 1);
    plan.maint = vec![vec![7]];
    assert_eq!(lay_out(&plan, &[1], &[0]), [MAINT]);
    assert_eq!(sound_costs(&plan), [7]);
    plan.demand = vec![1];
    assert_eq!(sound_costs(&plan), []);
}

#[test]
fn p8_one_crew_cannot_overhaul_two_units_in_one_week() {
    assert_eq!(sound_costs(&smallest(1, 2)), []);
}

#[test]
fn p9_p10_an_overhaul_in_two_parts_is_rule_4_and_none_is_rule_6() {
    let plan = Plan {
        latest: vec![2],
        duration: vec![2],
        ..smallest(3, 1)
    };
    let words = encode(&plan);
    let parted = [MAINT, OFF, MAINT];
    assert_eq!(judge(&words, &parted), Judgement::Breaks(4));
    assert_eq!(broken(&plan, &parted), [4, 5]);
    let none = [OFF, OFF, OFF];
    assert_eq!(judge(&words, &none), Judgement::Breaks(6));
    assert_eq!(broken(&plan, &none), [6]);
}
