//! The reference's judge on a small file: a cost by hand, each formula broken alone, refusals, the
//! layout of schedules, and the program's input.

use reference::{
    broken, bytes_of, cost, draw, encode, example_a_words, judge, judge_input, lay_out, smallest,
    word, Judgement, Plan, Refusal, MAINT, OFF, ON,
};

/// Unit 1 goes out for weeks 2 to 4 and unit 2 for week 1. Nothing is to spare: no demand could be
/// higher, no window narrower, no crew fewer.
fn plan() -> Plan {
    Plan {
        demand: vec![3, 4, 4, 4, 3],
        capacity: vec![3, 4],
        earliest: vec![2, 1],
        latest: vec![2, 1],
        duration: vec![3, 1],
        maint: (1..=5).map(|t| vec![200 * t - 100, 200 * t]).collect(),
        running: (1..=5).map(|t| vec![2 * t - 1, 2 * t]).collect(),
        pairs: vec![(1, 2)],
        ..smallest(5, 2)
    }
}

/// The plan's grid, a row for each week.
const GRID: [u8; 10] = [
    ON, MAINT, // week 1
    MAINT, ON, // week 2
    MAINT, ON, // week 3
    MAINT, ON, // week 4
    ON, OFF, // week 5
];

fn rejected(number: u32, place: usize) -> Judgement {
    Judgement::Rejected(Refusal { number, place })
}

/// The plan and its grid after an edit.
fn edited(edit: impl FnOnce(&mut Plan, &mut [u8])) -> (Plan, Vec<u8>) {
    let (mut plan, mut grid) = (plan(), GRID.to_vec());
    edit(&mut plan, &mut grid);
    (plan, grid)
}

/// Panics unless the edit leaves every formula met but one.
fn breaks_alone(number: u32, edit: impl FnOnce(&mut Plan, &mut [u8])) {
    let (plan, grid) = edited(edit);
    assert_eq!(broken(&plan, &grid), [number]);
    assert_eq!(judge(&encode(&plan), &grid), Judgement::Breaks(number));
}

#[test]
fn the_cost_is_the_sum_of_the_cells_by_their_states() {
    let by_hand = (1 + 200) + (300 + 4) + (500 + 6) + (700 + 8) + 9;
    assert_eq!(cost(&plan(), &GRID), by_hand);
    assert_eq!(judge(&encode(&plan()), &GRID), Judgement::Sound(by_hand));
}

#[test]
fn each_formula_can_be_broken_alone() {
    breaks_alone(1, |_, grid| grid[8] = OFF);
    breaks_alone(1, |plan, _| plan.demand[2] = 5);
    breaks_alone(2, |plan, _| (plan.earliest[0], plan.latest[0]) = (3, 3));
    breaks_alone(3, |plan, _| (plan.earliest[0], plan.latest[0]) = (1, 1));
    breaks_alone(4, |_, grid| grid[4] = OFF);
    breaks_alone(5, |_, grid| grid[2] = OFF);
    breaks_alone(5, |_, grid| grid[6] = ON);
    breaks_alone(5, |plan, _| plan.duration[0] = 4);
    breaks_alone(6, |_, grid| grid[1] = ON);
    breaks_alone(7, |plan, grid| {
        together(plan, grid);
        plan.pairs.clear();
    });
    breaks_alone(8, |plan, grid| {
        together(plan, grid);
        plan.crews = 2;
    });
}

/// Unit 2 goes out in week 2, as unit 1 does, and nothing is demanded then.
fn together(plan: &mut Plan, grid: &mut [u8]) {
    plan.demand[1] = 0;
    plan.latest[1] = 2;
    grid[1] = OFF;
    grid[3] = MAINT;
}

#[test]
fn the_smallest_number_among_the_formulas_broken_is_given() {
    let (plan, grid) = edited(|plan, grid| {
        together(plan, grid);
        grid[6] = OFF;
    });
    assert_eq!(broken(&plan, &grid), [5, 7, 8]);
    assert_eq!(judge(&encode(&plan), &grid), Judgement::Breaks(5));
    assert_eq!(broken(&plan, &[OFF; 10]), [1, 6]);
    assert_eq!(broken(&plan, &[MAINT; 10]), [1, 2, 3, 5, 7, 8]);
}

#[test]
fn output_equal_to_demand_is_enough_and_off_gives_none() {
    let (plan, grid) = edited(|plan, grid| {
        plan.demand[4] = 7;
        grid[9] = ON;
    });
    assert_eq!(broken(&plan, &grid), []);
    let (plan, grid) = edited(|plan, _| plan.demand[4] = 7);
    assert_eq!(broken(&plan, &grid), [1]);
}

#[test]
fn the_file_is_tested_before_the_length_and_the_length_before_the_cells() {
    let words = encode(&plan());
    assert_eq!(judge(&words[..9], &[3]), rejected(1, 9));
    assert_eq!(judge(&words, &[3; 9]), rejected(11, 0));
    assert_eq!(judge(&words, &[]), rejected(11, 0));
    assert_eq!(judge(&words, &[0; 11]), rejected(11, 0));
    let mut grid = GRID;
    (grid[4], grid[7]) = (3, 255);
    assert_eq!(judge(&words, &grid), rejected(12, 4));
}

#[test]
fn a_schedule_is_laid_out_with_maintenance_before_runs() {
    assert_eq!(lay_out(&plan(), &[2, 1], &[3, 2, 2, 2, 1]), GRID);
    assert_eq!(lay_out(&plan(), &[2, 1], &[3, 3, 3, 3, 1]), GRID);
}

#[test]
fn only_the_first_starts_and_runs_count_and_missing_ones_are_0() {
    let lists = (
        [2, 1, 4, u32::MAX],
        [0xFFFF_FFF1, 2, 2, 2, 0x8000_0001, u32::MAX],
    );
    assert_eq!(lay_out(&plan(), &lists.0, &lists.1), GRID);
    let mut short = GRID;
    (short[1], short[8]) = (OFF, OFF);
    assert_eq!(lay_out(&plan(), &[2], &[1, 2, 2, 2]), short);
}

#[test]
fn an_overhaul_outside_the_weeks_is_cut_off() {
    let unit_1 = |start| {
        let grid = lay_out(&plan(), &[start, u32::MAX], &[]);
        grid.into_iter().step_by(2).collect::<Vec<u8>>()
    };
    assert_eq!(unit_1(4), [OFF, OFF, OFF, MAINT, MAINT]);
    assert_eq!(unit_1(6), [OFF; 5]);
    assert_eq!(unit_1(u32::MAX), [OFF; 5]);
    assert_eq!(unit_1(0), [MAINT, MAINT, OFF, OFF, OFF]);
}

#[test]
fn a_schedule_needs_an_accepted_file_and_then_room() {
    let words = encode(&plan());
    let refused = |number, place| Err(Refusal { number, place });
    let drawn = |words, lent| draw(words, &[2, 1], &[1, 2, 2, 2, 1], lent);
    assert_eq!(drawn(&words[..3], 0), refused(1, 3));
    assert_eq!(drawn(&words, 9), refused(17, 0));
    assert_eq!(drawn(&words, 10), Ok(GRID.to_vec()));
    assert_eq!(drawn(&words, 11), Ok(GRID.to_vec()));
}

#[test]
fn the_grid_begins_after_the_first_word_of_kind_15() {
    let file = bytes_of(&encode(&plan()));
    let judged = |tail: &[u8]| judge_input(&[&file, tail].concat());
    assert_eq!(judged(&GRID), judge(&encode(&plan()), &GRID));
    assert_eq!(judged(&[]), rejected(11, 0));
    assert_eq!(judged(&[0; 3]), rejected(11, 0));
    assert_eq!(judged(&[0xF0; 10]), rejected(12, 0));
    let mut cut = example_a_words();
    cut[3] = word(15, 3);
    assert_eq!(judge_input(&bytes_of(&cut)), rejected(1, 3));
}

#[test]
fn without_a_word_of_kind_15_all_bytes_are_the_files() {
    let file = bytes_of(&example_a_words()[..24]);
    assert_eq!(judge_input(&[]), rejected(1, 0));
    assert_eq!(judge_input(&file), rejected(1, 24));
    assert_eq!(judge_input(&file[..95]), rejected(16, 0));
    assert_eq!(judge_input(&[0, 0, 0xF0]), rejected(16, 0));
    // The byte of a kind 15 counts only as the last of a word's four.
    assert_eq!(judge_input(&[0xF0, 0, 0, 0]), rejected(1, 0));
}

#[test]
fn input_over_32_768_bytes_is_refused_as_17_untested() {
    let mut input = bytes_of(&example_a_words());
    input.resize(32_768, 0);
    assert_eq!(judge_input(&input), rejected(11, 0));
    input.push(0);
    assert_eq!(judge_input(&input), rejected(17, 0));
    assert_eq!(judge_input(&[0; 32_768]), rejected(1, 0));
    assert_eq!(judge_input(&[0; 32_769]), rejected(17, 0));
}

#[test]
fn judgements_are_printed_as_the_programs_line() {
    assert_eq!(Judgement::Sound(19).to_string(), "sound 19");
    assert_eq!(Judgement::Breaks(4).to_string(), "rule 4");
    assert_eq!(rejected(12, 5).to_string(), "refused 12 5");
}
