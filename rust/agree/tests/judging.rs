//! The proved judge against the reference: all grids of tiny files; in files up to the largest,
//! sound grids, grids that break one formula, and random ones; grids of every length and with bytes
//! that are no state; damaged files.

use agree::{
    all_grids, breaches, cells_of, edited, edited_grid, fitted, near, random_grid, random_plan,
    random_scheduled, replacements, small_plans, smallest, staggered, tiny_plan, together, Case,
    Judgements, OffClass, Random, Scheduled,
};
use reference::{
    broken, cost, encode, example_a, example_a_words, lay_out, read, word, Judgement, Plan,
    Refusal, MAINT, OFF, ON,
};

fn rejected(number: u32, place: usize) -> Judgement {
    Judgement::Rejected(Refusal { number, place })
}

/// Random files with a grid, one for each seed; a failure prints the seed.
fn sweep_seeds(seeds: u64, case: impl Fn(&mut Random) -> (Vec<u32>, Vec<u8>)) -> Judgements {
    let mut judgements = Judgements::default();
    for seed in 0..seeds {
        let (words, grid) = case(&mut Random::seeded(seed));
        let _ = judgements.agreed(&words, &grid, format_args!("seed {seed}"));
    }
    judgements
}

/// All grids of a file of each size, for each seed.
fn sweep_grids(seeds: u64, sizes: &[(u32, u32)]) -> Judgements {
    let mut judgements = Judgements::default();
    for seed in 0..seeds {
        for &(weeks, units) in sizes {
            let words = encode(&swept_plan(seed, weeks, units));
            for grid in all_grids((weeks * units) as usize) {
                let _ = judgements.agreed(&words, &grid, format_args!("seed {seed}"));
            }
        }
    }
    judgements
}

/// Any plan with small figures; one that some grid meets; one with open windows and no demand, so
/// that the later formulas are reached.
fn swept_plan(seed: u64, weeks: u32, units: u32) -> Plan {
    let mut random = Random::seeded(seed);
    let mut plan = tiny_plan(&mut random, weeks, units);
    match seed % 3 {
        0 => plan,
        1 => fitted(plan, &mut random).plan,
        _ => {
            plan.demand.fill(0);
            plan.earliest.fill(1);
            plan.latest.fill(weeks);
            plan
        }
    }
}

/// Every formula broken alone, wherever the schedule lets it; how often each was.
fn sweep_breaches(scheduled: &Scheduled, judgements: &mut Judgements, seed: u64) -> [usize; 8] {
    [1, 2, 3, 4, 5, 6, 7, 8].map(|number| {
        let cases = breaches(number, scheduled);
        for (plan, grid) in &cases {
            assert_eq!(broken(plan, grid), [number], "seed {seed}");
            let judgement = judgements.agreed(&encode(plan), grid, format_args!("seed {seed}"));
            assert_eq!(judgement, Judgement::Breaks(number), "seed {seed}");
        }
        cases.len()
    })
}

/// The small plans, each with a grid of its length that holds only states.
fn small_cases() -> Vec<Case> {
    let grid = |plan: &Plan| lay_out(plan, &plan.earliest, &[0x5555; 52]);
    small_plans()
        .into_iter()
        .map(|plan| (plan.clone(), grid(&plan)))
        .collect()
}

#[test]
fn the_worked_figures_hold() {
    let mut judgements = Judgements::default();
    let mut judged = |plan: &Plan, grid: &[u8]| {
        judgements.agreed(&encode(plan), grid, format_args!("a worked figure"))
    };
    let cheapest = [ON, MAINT, MAINT, ON, ON, OFF];
    assert_eq!(judged(&example_a(), &cheapest), Judgement::Sound(19));
    let plan = Plan {
        latest: vec![2],
        duration: vec![2],
        ..smallest(3, 1)
    };
    assert_eq!(judged(&plan, &[MAINT, OFF, MAINT]), Judgement::Breaks(4));
    assert_eq!(judged(&plan, &[OFF, OFF, OFF]), Judgement::Breaks(6));
}

/// Of a rule's number it follows that the formulas before it are met, so formulas 1 to 8 and sound
/// grids say that each formula was met and broken.
#[test]
fn all_grids_of_tiny_files_agree() {
    let sizes = [(1, 1), (2, 1), (1, 2), (3, 1), (2, 2), (3, 2), (2, 3)];
    let judgements = sweep_grids(90, &sizes);
    assert_eq!(judgements.total(), 90 * (3 + 9 + 9 + 27 + 81 + 729 + 729));
    assert_eq!(judgements.formulas(), [1, 2, 3, 4, 5, 6, 7, 8]);
    assert!(judgements.sound() > 500 && judgements.off().rarest() > 50);
    judgements.report("all grids of tiny files");
}

#[test]
fn all_grids_of_8_or_9_cells_agree() {
    let sizes = [(8, 1), (4, 2), (2, 4), (3, 3)];
    let judgements = sweep_grids(9, &sizes);
    assert_eq!(judgements.total(), 9 * (3 * 6561 + 19_683));
    assert_eq!(judgements.formulas(), [1, 2, 3, 4, 5, 6, 7, 8]);
    assert!(judgements.sound() > 500);
    judgements.report("all grids of 8 or 9 cells");
}

#[test]
fn schedules_that_meet_every_formula_are_sound_at_their_cost() {
    let mut judgements = Judgements::default();
    for (seeds, weeks, units) in [(2000, 8, 6), (100, 52, 16)] {
        for seed in 0..seeds {
            let scheduled = random_scheduled(&mut Random::seeded(seed), weeks, units);
            let (words, grid) = (encode(&scheduled.plan), scheduled.grid());
            let judgement = judgements.agreed(&words, &grid, format_args!("seed {seed}"));
            let expected = Judgement::Sound(cost(&scheduled.plan, &grid));
            assert_eq!(judgement, expected, "seed {seed}");
        }
    }
    assert_eq!(judgements.sound(), 2100);
    assert!(judgements.off().rarest() > 200);
    judgements.report("schedules that meet every formula");
}

/// The same grid with OFF costs of each class: what they add is the sum over its OFF cells.
#[test]
fn off_cells_are_charged_what_the_file_says() {
    let mut judgements = Judgements::default();
    for seed in 0..300 {
        let mut random = Random::seeded(seed);
        let mut scheduled = random_scheduled(&mut random, 8, 6);
        scheduled.plan.off = None;
        let grid = scheduled.grid();
        let before = cost(&scheduled.plan, &grid);
        for class in OffClass::ALL {
            let off = class.costs(&scheduled.plan.running, &mut random);
            let cells = off.iter().flatten().flatten();
            let charged = cells.zip(&grid).filter(|(_, &state)| state == OFF);
            let more: u64 = charged.map(|(&cost, _)| u64::from(cost)).sum();
            let plan = Plan {
                off,
                ..scheduled.plan.clone()
            };
            let judgement = judgements.agreed(&encode(&plan), &grid, format_args!("seed {seed}"));
            assert_eq!(judgement, Judgement::Sound(before + more), "seed {seed}");
        }
    }
    assert!(judgements.off().rarest() >= 200);
    judgements.report("OFF cells");
}

/// Every cell of 52 weeks and 16 units at 250,000 euros, also where all that are not MAINT are OFF.
#[test]
fn the_largest_cost_of_any_grid_is_given() {
    let mut judgements = Judgements::default();
    let scheduled = staggered();
    let words = encode(&scheduled.plan);
    let judgement = judgements.agreed(&words, &scheduled.grid(), format_args!("staggered"));
    assert_eq!(judgement, Judgement::Sound(208_000_000));
    let mut idle = scheduled;
    idle.plan.demand.fill(0);
    idle.runs.fill(0);
    let (words, grid) = (encode(&idle.plan), idle.grid());
    let judgement = judgements.agreed(&words, &grid, format_args!("nobody runs"));
    assert_eq!(judgement, Judgement::Sound(208_000_000));
}

#[test]
fn each_formula_broken_alone_is_named_in_small_files() {
    let mut judgements = Judgements::default();
    let mut times = [0; 8];
    for seed in 0..300 {
        let scheduled = random_scheduled(&mut Random::seeded(seed), 7, 5);
        let broken = sweep_breaches(&scheduled, &mut judgements, seed);
        times
            .iter_mut()
            .zip(broken)
            .for_each(|(sum, more)| *sum += more);
    }
    assert!(times.iter().all(|&times| times > 100), "{times:?}");
    judgements.report("one formula broken, small files");
}

/// At each week, unit and pair: the first and last of them, and all between.
#[test]
fn each_formula_broken_alone_is_named_in_the_largest_files() {
    let mut judgements = Judgements::default();
    let apart = sweep_breaches(&staggered(), &mut judgements, 0);
    // 48 weeks without a unit to spare, and of every unit the weeks and windows of its overhaul;
    // unit 1 starts in week 1, so no window closes before. Nobody is out with another.
    assert_eq!(apart, [48 + 48 * 15, 16, 15, 16, 16 * 4, 16, 0, 0]);
    let joint = sweep_breaches(&together(), &mut judgements, 0);
    // Nothing is demanded, and more than all units give is no legal demand: (1) can be broken in
    // the 3 weeks without a run. One crew too few, and 120 pairs.
    assert_eq!(joint, [3, 16, 16, 16, 16 * 4, 16, 1, 120]);
    judgements.report("one formula broken, largest files");
}

#[test]
fn any_states_in_random_files_agree() {
    let any = |random: &mut Random, weeks, units| {
        let mut plan = random_plan(random, weeks, units);
        if random.once_in(2) {
            plan.demand.fill(0);
        }
        let grid = random_grid(cells_of(&plan), random);
        (encode(&plan), grid)
    };
    let small = sweep_seeds(5000, |random| any(random, 5, 4));
    let large = sweep_seeds(300, |random| any(random, 52, 16));
    assert_eq!(small.formulas(), [1, 2, 3, 4, 5, 6, 7, 8]);
    small.report("any states, small files");
    large.report("any states, files of any size");
}

#[test]
fn sound_grids_with_a_few_cells_edited_agree() {
    let case = |random: &mut Random, weeks, units| {
        let scheduled = random_scheduled(random, weeks, units);
        let grid = edited_grid(scheduled.grid(), &scheduled.plan, random);
        (encode(&scheduled.plan), grid)
    };
    let small = sweep_seeds(5000, |random| case(random, 8, 6));
    let large = sweep_seeds(500, |random| case(random, 52, 16));
    assert_eq!(small.formulas(), [1, 2, 3, 4, 5, 6, 7, 8]);
    assert!(small.sound() > 500 && large.sound() > 50);
    assert!(small.off().rarest() > 50 && large.off().rarest() > 5);
    small.report("a few cells edited, small files");
    large.report("a few cells edited, files of any size");
}

#[test]
fn a_grid_of_another_length_is_refused_as_11() {
    let mut judgements = Judgements::default();
    for (plan, grid) in small_cases() {
        let (words, cells) = (encode(&plan), grid.len());
        let longer = grid.repeat(4);
        let lengths = (0..=cells + 3).chain([2 * cells, 3 * cells, 4 * cells]);
        for length in lengths.filter(|&length| length != cells && length <= longer.len()) {
            let judgement =
                judgements.agreed(&words, &longer[..length], format_args!("{length} bytes"));
            assert_eq!(judgement, rejected(11, 0));
        }
    }
    assert_eq!(judgements.refusals(), [11]);
    judgements.report("grids of other lengths");
}

#[test]
fn a_byte_above_2_is_refused_as_12_at_its_place() {
    let mut judgements = Judgements::default();
    for (plan, grid) in small_cases() {
        let words = encode(&plan);
        for place in 0..grid.len() {
            for byte in [3, 4, 127, 128, 254, 255] {
                let mut damaged = grid.clone();
                damaged[place] = byte;
                let judgement = judgements.agreed(&words, &damaged, format_args!("byte {place}"));
                assert_eq!(judgement, rejected(12, place));
            }
        }
    }
    for byte in 3..=255 {
        let grid = [ON, MAINT, byte, ON, ON, OFF];
        let judgement = judgements.agreed(&example_a_words(), &grid, format_args!("byte {byte}"));
        assert_eq!(judgement, rejected(12, 2));
    }
    assert_eq!(judgements.refusals(), [12]);
    judgements.report("bytes above 2");
}

#[test]
fn the_first_of_several_bytes_above_2_is_named() {
    let mut judgements = Judgements::default();
    for (plan, grid) in small_cases() {
        let words = encode(&plan);
        for last in 0..grid.len() {
            for first in 0..last {
                let mut damaged = grid.clone();
                (damaged[first], damaged[last]) = (255, 3);
                let judgement = judgements.agreed(&words, &damaged, format_args!("byte {first}"));
                assert_eq!(judgement, rejected(12, first));
            }
        }
        let judgement = judgements.agreed(&words, &vec![9; grid.len()], format_args!("all"));
        assert_eq!(judgement, rejected(12, 0));
    }
    judgements.report("two bytes above 2");
}

#[test]
fn the_length_is_tested_before_the_bytes() {
    let mut judgements = Judgements::default();
    for length in [0, 1, 5, 7, 12] {
        let grid = vec![3; length];
        let judgement = judgements.agreed(&example_a_words(), &grid, format_args!("{length}"));
        assert_eq!(judgement, rejected(11, 0));
    }
}

/// The refusal is the reader's, whatever the grid is: good, a byte too short, with a byte above 2.
/// A file that is still accepted is judged anew.
#[test]
fn a_damaged_file_is_refused_before_its_grid_is_looked_at() {
    let mut judgements = Judgements::default();
    for (plan, grid) in small_cases() {
        let mut damaged = grid.clone();
        damaged[grid.len() - 1] = 3;
        sweep_places(&plan, [&grid, &grid[1..], &damaged], &mut judgements);
    }
    assert_eq!(judgements.refusals(), [1, 2, 3, 4, 6, 11, 12]);
    judgements.report("single word of the file damaged");
}

/// The plan's file with each telling word at each place, and each of the grids.
fn sweep_places(plan: &Plan, grids: [&[u8]; 3], judgements: &mut Judgements) {
    let words = encode(plan);
    for place in 0..words.len() {
        let mut damaged = words.clone();
        for new in replacements(&words, place, plan) {
            damaged[place] = new;
            let origin = format!("word {place} replaced by {new:#x}");
            let judged =
                grids.map(|grid| judgements.agreed(&damaged, grid, format_args!("{origin}")));
            if let Err(refusal) = read(&damaged) {
                assert_eq!(judged, [Judgement::Rejected(refusal); 3], "{origin}");
            }
        }
    }
}

#[test]
fn files_cut_short_or_too_long_are_refused_with_their_grid() {
    let mut judgements = Judgements::default();
    for (plan, grid) in small_cases() {
        let words = encode(&plan);
        for length in 0..words.len() {
            let judgement = judgements.agreed(&words[..length], &grid, format_args!("cut"));
            assert_eq!(judgement, rejected(1, length));
        }
        let longer = [&words[..], &[word(15, words.len() as u32)]].concat();
        let judgement = judgements.agreed(&longer, &grid, format_args!("a word more"));
        assert_eq!(judgement, rejected(7, words.len()));
    }
}

#[test]
fn sound_grids_of_files_with_several_words_edited_agree() {
    let judgements = sweep_seeds(5000, |random| {
        let scheduled = random_scheduled(random, 6, 6);
        let words = edited(&encode(&scheduled.plan), &scheduled.plan, random);
        (words, scheduled.grid())
    });
    assert!(judgements.refusals().starts_with(&[1, 2]));
    assert!(judgements.sound() > 100);
    judgements.report("several words of the file edited");
}

/// Values in their range for the most part, so that most files are accepted.
#[test]
fn sound_grids_of_files_with_other_figures_agree() {
    let judgements = sweep_seeds(5000, |random| {
        let scheduled = random_scheduled(random, 6, 6);
        let mut words = encode(&scheduled.plan);
        let place = 2 + random.place(words.len() - 2);
        words[place] = near(words[place], &scheduled.plan, random);
        (words, scheduled.grid())
    });
    assert_eq!(judgements.formulas(), [1, 2, 3, 5, 7, 8]);
    assert!(judgements.sound() > 1000);
    judgements.report("another figure in the file");
}
