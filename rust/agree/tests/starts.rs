//! The proved costs of a unit's overhaul, given from the permitted starts alone, against the
//! reference: every window and duration of few weeks, random files, units and starts that are not
//! there, damaged files.

use agree::{border_plans, edited, largest, random_plan, small_plans, smallest, Random};
use reference::{encode, example_a, permitted_starts, read, upkeep, Plan, Refusal};

/// Units and starts that no file has, which some arithmetic would take for small ones.
const FAR: [usize; 5] = [64, 1 << 32, (1 << 32) + 1, (1 << 62) + 1, usize::MAX];

fn in_reference_words<T>(answer: Result<T, ffi::Refusal>) -> Result<T, Refusal> {
    answer.map_err(|refusal| Refusal {
        number: refusal.number,
        place: refusal.place,
    })
}

/// The starts from which both sides give a cost; panics, with the seed, where they differ.
fn agreed_starts(words: &[u32], unit: usize, seed: u64) -> Result<Vec<u32>, Refusal> {
    let expected = read(words).map(|plan| permitted_starts(&plan, unit));
    let mut proved = vec![];
    // past the last week that any file has
    for start in 0..=64 {
        match in_reference_words(ffi::upkeep(words, unit, start)) {
            Ok(Some(_)) => proved.push(start as u32),
            Ok(None) => {}
            Err(refusal) => {
                assert_eq!(Err(refusal), expected, "unit {unit}, seed {seed}");
                return expected;
            }
        }
    }
    assert_eq!(Ok(proved), expected, "unit {unit}, seed {seed}");
    expected
}

/// The cost from a start that both sides give; panics, with the seed, where they differ.
fn agreed_upkeep(
    words: &[u32],
    unit: usize,
    start: usize,
    seed: u64,
) -> Result<Option<u64>, Refusal> {
    let expected = read(words).map(|plan| upkeep(&plan, unit, start));
    let proved = in_reference_words(ffi::upkeep(words, unit, start));
    assert_eq!(proved, expected, "unit {unit}, start {start}, seed {seed}");
    expected
}

/// Every start of every unit of the plan, and those around; how many are permitted.
fn sweep(plan: &Plan, seed: u64) -> usize {
    let words = encode(plan);
    let mut permitted = 0;
    for unit in (0..=plan.units as usize + 2).chain(FAR) {
        let _ = agreed_starts(&words, unit, seed);
        for start in (0..=plan.weeks as usize + 2).chain(FAR) {
            let cost = agreed_upkeep(&words, unit, start, seed);
            permitted += usize::from(cost.is_ok_and(|cost| cost.is_some()));
        }
    }
    permitted
}

#[test]
fn the_worked_figures_hold() {
    // P7
    let plan = Plan {
        latest: vec![4],
        duration: vec![3],
        ..smallest(4, 1)
    };
    assert_eq!(agreed_starts(&encode(&plan), 1, 0), Ok(vec![1, 2]));
    // P1: unit 1 from week 2 and unit 2 from week 1, 9 euros of the 19
    let words = encode(&example_a());
    assert_eq!(agreed_upkeep(&words, 1, 2, 0), Ok(Some(4)));
    assert_eq!(agreed_upkeep(&words, 2, 1, 0), Ok(Some(5)));
}

#[test]
fn every_window_and_duration_of_few_weeks_agrees() {
    let (mut plans, mut without) = (0, 0);
    for weeks in 1..=7 {
        // a cost tells the weeks that it is the sum of
        let maint: Vec<Vec<u32>> = (0..weeks).map(|week| vec![1 << week]).collect();
        for (earliest, latest) in windows(weeks) {
            for duration in 1..=weeks {
                let plan = Plan {
                    earliest: vec![earliest],
                    latest: vec![latest],
                    duration: vec![duration],
                    maint: maint.clone(),
                    ..smallest(weeks, 1)
                };
                plans += 1;
                without += usize::from(sweep(&plan, 0) == 0);
            }
        }
    }
    assert_eq!(plans, 1 + 6 + 18 + 40 + 75 + 126 + 196);
    // none is left where earliest + duration > W + 1, whatever the latest
    assert_eq!(without, 1 + 4 + 10 + 20 + 35 + 56);
}

/// Every window of a file with so many weeks.
fn windows(weeks: u32) -> Vec<(u32, u32)> {
    (1..=weeks)
        .flat_map(|earliest| (earliest..=weeks).map(move |latest| (earliest, latest)))
        .collect()
}

#[test]
fn every_start_of_random_files_agrees() {
    let (mut permitted, mut without) = (0, 0);
    for (seeds, weeks, units) in [(1000, 9, 5), (30, 52, 16)] {
        for seed in 0..seeds {
            let plan = random_plan(&mut Random::seeded(seed), weeks, units);
            permitted += sweep(&plan, seed);
            let none = |unit: &usize| permitted_starts(&plan, *unit).is_empty();
            without += (1..=plan.units as usize).filter(none).count();
        }
    }
    println!("{permitted} permitted starts, {without} units without");
    assert!(permitted > 4000 && without > 500);
}

#[test]
fn every_start_of_files_at_the_borders_agrees() {
    let cases = (0..).zip(border_plans());
    let permitted: usize = cases.map(|(case, plan)| sweep(&plan, case)).sum();
    println!("{permitted} permitted starts at the borders");
    assert!(permitted > 1000);
}

/// 52 weeks of 250,000 euros each.
#[test]
fn the_dearest_overhaul_is_given() {
    let words = encode(&largest());
    assert_eq!(agreed_starts(&words, 16, 0), Ok(vec![1]));
    assert_eq!(agreed_upkeep(&words, 16, 1, 0), Ok(Some(13_000_000)));
    assert_eq!(agreed_upkeep(&words, 17, 1, 0), Ok(None));
}

#[test]
fn files_cut_short_have_their_refusal_and_neither_starts_nor_costs() {
    for plan in small_plans() {
        let words = encode(&plan);
        for length in 0..words.len() {
            let refusal = Refusal {
                number: 1,
                place: length,
            };
            for unit in [0, 1, 17] {
                assert_eq!(agreed_starts(&words[..length], unit, 0), Err(refusal));
                assert_eq!(agreed_upkeep(&words[..length], unit, 1, 0), Err(refusal));
            }
        }
    }
}

#[test]
fn edited_files_have_their_starts_or_their_refusal() {
    let mut refused = 0;
    for seed in 0..5000 {
        let mut random = Random::seeded(seed);
        let plan = random_plan(&mut random, 6, 6);
        let words = edited(&encode(&plan), &plan, &mut random);
        let unit = random.within(0, plan.units + 1) as usize;
        let start = random.within(0, plan.weeks + 1) as usize;
        let starts = agreed_starts(&words, unit, seed);
        let cost = agreed_upkeep(&words, unit, start, seed);
        assert_eq!(starts.clone().err(), cost.err(), "seed {seed}");
        refused += usize::from(starts.is_err());
    }
    assert!(refused > 1000 && refused < 5000);
}
