//! Schedules laid out by the proved call against the reference, with every lent byte looked at, and
//! what the proved judge says of them.

use agree::{
    all_schedules, cells_of, edited, fitted, proved_judgement, random_plan, random_scheduled,
    small_plans, smallest, staggered, tiny_plan, OffCounts, Random, Scheduled,
};
use reference::{
    draw, encode, example_a, example_a_words, judge, word, Judgement, Plan, Refusal, MAINT, OFF, ON,
};

/// Starts and runs, of any number.
type Lists = (Vec<u32>, Vec<u32>);

/// Lays a schedule out in `dirty` bytes by the proved call and holds the result and every lent byte
/// against the reference: the grid and then what was there before, or all of it where refused.
fn agreed(words: &[u32], lists: &Lists, dirty: &[u8], seed: u64) -> Result<Vec<u8>, Refusal> {
    let (starts, runs) = lists;
    let mut lent = dirty.to_vec();
    let proved = ffi::draw(words, starts, runs, &mut lent).map_err(|refusal| Refusal {
        number: refusal.number,
        place: refusal.place,
    });
    let expected = draw(words, starts, runs, dirty.len());
    let mut after = dirty.to_vec();
    if let Ok(grid) = &expected {
        after[..grid.len()].copy_from_slice(grid);
    }
    let verdict = expected.clone().map(|_| ());
    assert_eq!(proved, verdict, "{lists:?}, seed {seed}");
    assert_eq!(lent, after, "{lists:?}, seed {seed}");
    expected
}

/// Up to three starts more than the plan has units and three runs more than it has weeks, or fewer.
fn random_lists(plan: &Plan, random: &mut Random) -> Lists {
    let starts = random.place(plan.units as usize + 4);
    let runs = random.place(plan.weeks as usize + 4);
    let starts = (0..starts).map(|_| random_start(plan, random)).collect();
    (starts, random.words(runs))
}

/// A week, the one before all weeks or after, or once in four any number.
fn random_start(plan: &Plan, random: &mut Random) -> u32 {
    if random.once_in(4) {
        random.edgy(0, u32::MAX)
    } else {
        random.within(0, plan.weeks + 1)
    }
}

#[test]
fn the_cheapest_schedule_of_file_a_is_laid_out() {
    let mut lent = [9; 8];
    let drawn = ffi::draw(&example_a_words(), &[2, 1], &[1, 2, 1], &mut lent);
    assert_eq!(drawn, Ok(()));
    assert_eq!(lent, [ON, MAINT, MAINT, ON, ON, OFF, 9, 9]);
}

#[test]
fn any_starts_and_runs_are_laid_out() {
    for (seeds, weeks, units) in [(5000, 6, 5), (300, 52, 16)] {
        for seed in 0..seeds {
            let mut random = Random::seeded(seed);
            let plan = random_plan(&mut random, weeks, units);
            let lists = random_lists(&plan, &mut random);
            let beyond = random.place(5);
            let dirty = random.bytes(cells_of(&plan) + beyond);
            let drawn = agreed(&encode(&plan), &lists, &dirty, seed);
            assert!(drawn.is_ok(), "seed {seed}");
        }
    }
}

#[test]
fn every_start_of_every_duration_is_laid_out() {
    for duration in 1..=6 {
        let plan = Plan {
            duration: vec![duration; 2],
            ..smallest(6, 2)
        };
        let words = encode(&plan);
        for start in (0..=8).chain([1 << 31, u32::MAX - duration, u32::MAX - 1, u32::MAX]) {
            for starts in [vec![start, 1], vec![1, start], vec![start]] {
                let drawn = agreed(&words, &(starts, vec![3; 6]), &[7; 12], 0);
                assert!(drawn.is_ok(), "start {start}");
            }
        }
    }
}

#[test]
fn every_unit_of_a_run_is_on_and_bits_beyond_the_units_do_not_count() {
    for units in 1..=16 {
        let words = encode(&smallest(1, units));
        for bit in 0..32 {
            // Nobody is out in week 1 after a start in week 2.
            let lists = (vec![2; 16], vec![1 << bit]);
            let drawn = agreed(&words, &lists, &[7; 17], 0);
            let mut grid = vec![OFF; units as usize];
            if bit < units as usize {
                grid[bit] = ON;
            }
            assert_eq!(drawn, Ok(grid));
        }
    }
}

#[test]
fn lent_bytes_of_every_number_are_written_or_refused_as_17() {
    let (mut drawn, mut short) = (0, 0);
    for (case, plan) in small_plans().iter().enumerate() {
        let mut random = Random::seeded(case as u64);
        for lent in 0..=cells_of(plan) + 3 {
            let (lists, dirty) = (random_lists(plan, &mut random), random.bytes(lent));
            match agreed(&encode(plan), &lists, &dirty, case as u64) {
                Ok(_) => drawn += 1,
                Err(refusal) => {
                    assert_eq!((refusal.number, refusal.place), (17, 0));
                    short += 1;
                }
            }
        }
    }
    let cells: usize = small_plans().iter().map(cells_of).sum();
    assert_eq!((drawn, short), (4 * small_plans().len(), cells));
}

#[test]
fn a_refused_file_keeps_every_lent_byte() {
    let mut random = Random::seeded(1);
    for plan in small_plans() {
        let (words, lists) = (encode(&plan), random_lists(&plan, &mut random));
        let dirty = random.bytes(cells_of(&plan));
        for length in 0..words.len() {
            for lent in [&dirty[..], &dirty[1..], &[]] {
                let drawn = agreed(&words[..length], &lists, lent, 1);
                let refusal = Refusal {
                    number: 1,
                    place: length,
                };
                assert_eq!(drawn, Err(refusal));
            }
        }
        let longer = [&words[..], &[word(10, 34)]].concat();
        let drawn = agreed(&longer, &lists, &dirty, 1);
        assert_eq!(drawn.map_err(|refusal| refusal.number), Err(7));
    }
}

#[test]
fn edited_files_have_their_grid_or_their_refusal() {
    let mut refused = 0;
    for seed in 0..5000 {
        let mut random = Random::seeded(seed);
        let plan = random_plan(&mut random, 6, 5);
        let words = edited(&encode(&plan), &plan, &mut random);
        let lists = random_lists(&plan, &mut random);
        let lent = random.place(cells_of(&plan) + 4);
        let dirty = random.bytes(lent);
        let drawn = agreed(&words, &lists, &dirty, seed);
        refused += usize::from(drawn.is_err());
    }
    assert!(refused > 1000 && refused < 5000);
}

/// The schedule drawn and judged by the proved code, held against the reference; its judgement.
fn judged(scheduled: &Scheduled, seed: u64) -> Judgement {
    let words = encode(&scheduled.plan);
    let lists = (scheduled.starts.clone(), scheduled.runs.clone());
    let grid = agreed(&words, &lists, &vec![7; scheduled.grid().len()], seed);
    let grid = grid.expect("the file is accepted, and the bytes are as many as the cells");
    let judgement = proved_judgement(&words, &grid);
    assert_eq!(judgement, judge(&words, &grid), "{lists:?}, seed {seed}");
    judgement
}

/// P1 and P2: of all schedules the earliest of the cheapest costs 19.
#[test]
fn every_schedule_of_file_a_is_drawn_and_judged() {
    let schedules = all_schedules(&example_a());
    assert_eq!(schedules.len(), 3 * 3 * 4 * 4 * 4);
    let sound = schedules
        .iter()
        .filter_map(|scheduled| match judged(scheduled, 0) {
            Judgement::Sound(cost) => Some((cost, scheduled)),
            _ => None,
        });
    let (cost, cheapest) = sound.min_by_key(|&(cost, _)| cost).expect("there is one");
    assert_eq!(cost, 19);
    assert_eq!(cheapest.starts, [2, 1]);
    assert_eq!(cheapest.runs, [1, 2, 1]);
}

/// Permitted starts meet (2) to (6), so what may be broken is (1), (7) and (8).
#[test]
fn every_schedule_of_small_files_is_drawn_and_judged() {
    let (mut broken, mut off) = ([0; 9], OffCounts::default());
    for seed in 0..60 {
        let mut random = Random::seeded(seed);
        let (weeks, units) = [(1, 4), (2, 3), (3, 2), (4, 2)][seed as usize % 4];
        let plan = fitted(tiny_plan(&mut random, weeks, units), &mut random).plan;
        off.add(&plan);
        for scheduled in all_schedules(&plan) {
            match judged(&scheduled, seed) {
                Judgement::Sound(_) => broken[0] += 1,
                Judgement::Breaks(number) => broken[number as usize] += 1,
                Judgement::Rejected(refusal) => panic!("refused: {refusal:?}, seed {seed}"),
            }
        }
    }
    println!("schedules sound and breaking each formula: {broken:?}, {off}");
    assert!(off.rarest() > 3);
    assert!([0, 1, 7, 8].iter().all(|&number| broken[number] > 0));
    assert!([2, 3, 4, 5, 6].iter().all(|&number| broken[number] == 0));
}

#[test]
fn schedules_that_meet_every_formula_are_drawn_and_sound() {
    let mut off = OffCounts::default();
    for seed in 0..200 {
        let scheduled = random_scheduled(&mut Random::seeded(seed), 52, 16);
        off.add(&scheduled.plan);
        assert!(matches!(judged(&scheduled, seed), Judgement::Sound(_)));
    }
    assert!(off.rarest() > 20);
    assert_eq!(judged(&staggered(), 0), Judgement::Sound(208_000_000));
}
