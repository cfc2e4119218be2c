//! The cheapest run of a week: the proved one against the reference, for every set of units out of
//! every week of small files and for some sets of large ones; ties, demands at their borders,
//! units and weeks that the file has not; damaged files.

use agree::{
    edited, largest, random_plan, replacements, small_plans, smallest, thrifty_units, tied_plan,
    OffClass, Random, RunAnswer, Runs,
};
use reference::{encode, example_a, read, word, CheapestRun, Plan, Refusal};

fn found(run: u32, cost: u64) -> RunAnswer {
    Ok(Some(CheapestRun { run, cost }))
}

/// A plan of one week with a demand and a capacity and running cost for each unit.
fn one_week(demand: u32, capacity: &[u32], running: &[u32]) -> Plan {
    Plan {
        demand: vec![demand],
        capacity: capacity.to_vec(),
        running: vec![running.to_vec()],
        ..smallest(1, capacity.len() as u32)
    }
}

/// A set with one unit in eight, as few are out at a time.
fn few_units(random: &mut Random) -> u32 {
    random.word() & random.word() & random.word()
}

/// Every set of units out of every week of the plan.
fn sweep_sets(plan: &Plan, runs: &mut Runs, seed: u64) {
    let words = encode(plan);
    for week in 1..=plan.weeks as usize {
        for out in 0..1 << plan.units {
            let _ = runs.agreed(&words, week, out, format_args!("seed {seed}"));
        }
    }
}

/// Every set out of every week of a random plan, one for each seed; a failure prints the seed.
fn sweep_seeds(seeds: u64, plan: impl Fn(u64, &mut Random) -> Plan) -> Runs {
    let mut runs = Runs::default();
    for seed in 0..seeds {
        let plan = plan(seed, &mut Random::seeded(seed));
        sweep_sets(&plan, &mut runs, seed);
    }
    runs
}

#[test]
fn the_worked_figures_hold() {
    let mut runs = Runs::default();
    let mut agreed = |plan: &Plan, week, out| {
        runs.agreed(&encode(plan), week, out, format_args!("a worked figure"))
    };
    // P1: unit 2 is out in week 1, unit 1 in week 2, nobody in week 3
    let of_a = [(1, 0b10), (2, 0b01), (3, 0)].map(|(week, out)| agreed(&example_a(), week, out));
    assert_eq!(of_a, [found(1, 3), found(2, 4), found(1, 3)]);
    // P4: of the three runs 13, 14 and 15
    let plan = one_week(800, &[100, 200, 300, 400], &[5, 4, 3, 2]);
    assert_eq!(agreed(&plan, 1, 0), found(14, 9));
    assert_eq!(agreed(&plan, 1, 0b0010), found(13, 10));
    assert_eq!(agreed(&plan, 1, 0b0011), Ok(None));
    // P5 and P6
    assert_eq!(agreed(&one_week(0, &[0], &[7]), 1, 1), found(0, 0));
    assert_eq!(agreed(&one_week(1, &[0], &[7]), 1, 1), Ok(None));
}

#[test]
fn every_set_out_of_small_files_agrees() {
    let runs = sweep_seeds(720, |seed, random| {
        let (units, weeks) = (seed % 8 + 1, seed / 8 % 3 + 1);
        tied_plan(random, weeks as u32, units as u32)
    });
    runs.report("every set out of small files");
    assert!(runs.found() > 30_000 && runs.tied() > 10_000 && runs.none() > 30_000);
    assert!(runs.unneeded() > 5000 && runs.thrifty_out() > 5000);
    assert!(runs.off().rarest() > 2000);
}

#[test]
fn every_set_out_of_files_with_any_figures_agrees() {
    let runs = sweep_seeds(500, |_, random| {
        let mut plan = random_plan(random, 3, 8);
        let most = plan.capacity.iter().sum();
        plan.demand.fill_with(|| random.edgy(0, most));
        plan
    });
    runs.report("every set out of files with any figures");
    assert!(runs.found() > 10_000 && runs.none() > 10_000);
    assert!(runs.unneeded() > 1000 && runs.off().rarest() > 1000);
}

/// OFF costs of each class, a euro or so beside the running costs, in files whose demand leaves
/// something to choose.
#[test]
fn every_set_out_of_files_with_off_costs_of_each_class_agrees() {
    for class in OffClass::ALL {
        let runs = sweep_seeds(120, |seed, random| {
            let (units, weeks) = (seed % 6 + 2, seed / 6 % 3 + 1);
            let mut plan = tied_plan(random, weeks as u32, units as u32);
            plan.off = class.costs(&plan.running, random);
            plan
        });
        runs.report(&format!("{class:?} OFF costs"));
        assert!(runs.found() > 2000 && runs.none() > 1000);
        let above = matches!(class, OffClass::Above | OffClass::Mixed);
        assert_eq!(runs.unneeded() > 0, above);
        assert_eq!(runs.thrifty_out() > 0, above);
        assert!(!above || (runs.unneeded() > 500 && runs.thrifty_out() > 500));
    }
}

/// Unit 2 runs though demand does not need it where that is cheaper than OFF, stays OFF where it
/// costs the same, and is not charged where it is out.
#[test]
fn a_unit_that_demand_does_not_need_runs_where_that_is_cheaper() {
    let mut runs = Runs::default();
    let mut agreed = |off: u32, out| {
        let plan = Plan {
            off: Some(vec![vec![9, off]]),
            ..one_week(5, &[5, 5], &[4, 6])
        };
        runs.agreed(&encode(&plan), 1, out, format_args!("OFF at {off}"))
    };
    for off in 0..=6 {
        assert_eq!(agreed(off, 0b00), found(0b01, 4 + u64::from(off)));
    }
    for off in [7, 8, 250_000] {
        assert_eq!(agreed(off, 0b00), found(0b11, 4 + 6));
    }
    for off in [0, 5, 6, 7, 250_000] {
        assert_eq!(agreed(off, 0b10), found(0b01, 4));
        assert_eq!(agreed(off, 0b01), found(0b10, 6));
        assert_eq!(agreed(off, 0b11), Ok(None));
    }
}

/// Every unit thrifty, and every set of them out: all others run, whatever is demanded.
#[test]
fn all_units_run_that_cost_less_running_than_off() {
    let mut runs = Runs::default();
    for units in [1, 2, 7, 16] {
        let plan = Plan {
            off: Some(vec![vec![2; units]]),
            ..one_week(0, &vec![0; units], &vec![1; units])
        };
        let (words, all) = (encode(&plan), thrifty_units(&plan, 1));
        assert_eq!(all, (1 << units) - 1);
        for out in (0..=all).step_by(1 << (units / 2)) {
            let answer = runs.agreed(&words, 1, out, format_args!("{units} units"));
            let run = all & !out;
            assert_eq!(answer, found(run, u64::from(run.count_ones())));
        }
    }
    assert!(runs.unneeded() > 100 && runs.thrifty_out() > 100);
}

/// All units alike, so that any of the same number would do and the lowest are to be taken.
#[test]
fn of_units_that_are_alike_the_lowest_are_taken() {
    let mut runs = Runs::default();
    for units in 1..=8 {
        for (capacity, cost) in [(0, 0), (3, 0), (3, 7), (1_000_000, 250_000)] {
            for demand in 0..=units as u32 * 3 + 1 {
                let unit = |value| vec![value; units];
                let plan = one_week(demand, &unit(capacity), &unit(cost));
                sweep_sets(&plan, &mut runs, 0);
            }
        }
    }
    assert!(runs.tied() > 5000);
    let plan = one_week(5, &[3; 8], &[7; 8]);
    let answer = runs.agreed(&encode(&plan), 1, 0b101, format_args!("alike"));
    assert_eq!(answer, found(0b1010, 14));
    runs.report("units alike");
}

/// The demand at the sum of the capacities of each set of units, and a kilogram around it.
#[test]
fn demands_around_every_sum_of_capacities_agree() {
    let mut runs = Runs::default();
    for seed in 0..60 {
        let mut random = Random::seeded(seed);
        let mut plan = tied_plan(&mut random, 1, 5);
        let capacity = plan.capacity.clone();
        let output = |run: u32, unit| (run >> unit & 1) * capacity[unit];
        for run in 0..32 {
            let sum: u32 = (0..5).map(|unit| output(run, unit)).sum();
            for demand in [sum.saturating_sub(1), sum, sum + 1] {
                plan.demand = vec![demand];
                sweep_sets(&plan, &mut runs, seed);
            }
        }
    }
    assert!(runs.found() > 30_000 && runs.none() > 30_000);
    runs.report("demands around every sum of capacities");
}

/// Every figure at or beside an end of its range.
#[test]
fn figures_at_the_ends_of_their_ranges_agree() {
    let extreme = |random: &mut Random, units| {
        let mut plan = smallest(2, units);
        let mut fill = |values: &mut [u32], choices: &[u32]| {
            values.fill_with(|| choices[random.place(choices.len())]);
        };
        fill(&mut plan.capacity, &[0, 1, 999_999, 1_000_000]);
        fill(&mut plan.running[0], &[0, 1, 249_999, 250_000]);
        fill(&mut plan.running[1], &[249_999, 250_000]);
        let mut off = vec![vec![0; units as usize]; 2];
        fill(&mut off[0], &[0, 1, 2, 249_999, 250_000]);
        fill(&mut off[1], &[249_999, 250_000]);
        let most: u32 = plan.capacity.iter().sum();
        let demands = [0, 1, most / 2, most.saturating_sub(1), most, 16_000_000];
        fill(&mut plan.demand, &demands);
        plan.off = (!random.once_in(3)).then_some(off);
        plan
    };
    let mut runs = sweep_seeds(300, |seed, random| extreme(random, seed as u32 % 8 + 1));
    assert!(runs.found() > 10_000 && runs.tied() > 5000 && runs.none() > 10_000);
    for seed in 0..20 {
        let mut random = Random::seeded(seed);
        let words = encode(&extreme(&mut random, 16));
        for week in [1, 2] {
            let out = few_units(&mut random);
            let _ = runs.agreed(&words, week, out, format_args!("16 units, seed {seed}"));
        }
    }
    runs.report("figures at the ends of their ranges");
}

#[test]
fn bits_of_units_that_the_file_has_not_do_not_count() {
    let mut runs = Runs::default();
    for seed in 0..400 {
        let mut random = Random::seeded(seed);
        let units = seed as u32 % 8 + 1;
        let words = encode(&tied_plan(&mut random, 2, units));
        for out in 0..1 << units {
            let more = out | random.word() << units;
            let mut agreed = |out| runs.agreed(&words, 1, out, format_args!("seed {seed}"));
            let answer = agreed(out);
            assert_eq!(agreed(more), answer, "seed {seed}");
            assert_eq!(agreed(out | !0 << units), answer, "seed {seed}");
        }
    }
    let words = encode(&one_week(16, &[1; 16], &[1; 16]));
    for bit in 0..32 {
        let answer = runs.agreed(&words, 1, 1 << bit, format_args!("bit {bit}"));
        let expected = if bit < 16 {
            Ok(None)
        } else {
            found(0xFFFF, 16)
        };
        assert_eq!(answer, expected);
    }
    runs.report("bits of absent units");
}

#[test]
fn weeks_that_the_file_has_not_have_no_run() {
    let mut runs = Runs::default();
    for weeks in [1, 2, 51, 52] {
        let (words, last) = (encode(&smallest(weeks, 2)), weeks as usize);
        let beyond = [last + 1, last + 2, 53, 63, 64, 65_536, 1 << 32, 1 << 63];
        let wrapped = [(1 << 32) + 1, (1 << 62) + 1, usize::MAX - 1, usize::MAX];
        for out in 0..4 {
            for week in [0].into_iter().chain(beyond).chain(wrapped) {
                let answer = runs.agreed(&words, week, out, format_args!("W {weeks}"));
                assert_eq!(answer, Ok(None));
            }
            for week in 1..=last {
                let answer = runs.agreed(&words, week, out, format_args!("W {weeks}"));
                assert_eq!(answer, found(0, 0));
            }
        }
    }
}

/// Every figure at its top: all 16 units are needed, and cost 250,000 euros each.
#[test]
fn the_dearest_run_of_any_file_is_given() {
    let mut runs = Runs::default();
    let words = encode(&largest());
    for week in [1, 26, 52] {
        let mut agreed = |out| runs.agreed(&words, week, out, format_args!("largest"));
        assert_eq!(agreed(0), found(65_535, 4_000_000));
        assert_eq!(agreed(1), Ok(None));
        assert_eq!(agreed(1 << 15), Ok(None));
    }
}

/// One run of the last unit alone or of all others, so that no number is too large or too small.
#[test]
fn runs_at_both_ends_of_the_numbers_are_given() {
    let mut runs = Runs::default();
    let mut capacity = [1; 16];
    capacity[15] = 15;
    let mut agreed = |last: u32| {
        let mut running = [1; 16];
        running[15] = last;
        let words = encode(&one_week(15, &capacity, &running));
        runs.agreed(&words, 1, 0, format_args!("last unit at {last}"))
    };
    assert_eq!(agreed(14), found(1 << 15, 14));
    assert_eq!(agreed(15), found((1 << 15) - 1, 15));
    assert_eq!(agreed(16), found((1 << 15) - 1, 15));
}

#[test]
fn some_sets_out_of_files_of_16_units_agree() {
    let mut runs = Runs::default();
    for seed in 0..30 {
        let mut random = Random::seeded(seed);
        let mut plan = tied_plan(&mut random, 52, 16);
        if random.once_in(2) {
            let most = plan.capacity.iter().sum();
            plan.demand.fill_with(|| random.within(0, most));
        }
        let words = encode(&plan);
        for _ in 0..3 {
            let week = random.edgy(1, 52) as usize;
            let out = few_units(&mut random);
            let _ = runs.agreed(&words, week, out, format_args!("seed {seed}"));
        }
    }
    runs.report("some sets out of files of 16 units");
    assert!(runs.found() > 30 && runs.none() > 10);
    assert!(runs.unneeded() > 5 && runs.thrifty_out() > 3);
}

/// The refusal is the reader's, whatever the week and the set are.
#[test]
fn every_single_word_damage_of_small_files_agrees() {
    let mut runs = Runs::default();
    for plan in small_plans().iter().filter(|plan| plan.units <= 4) {
        let words = encode(plan);
        for place in 0..words.len() {
            let mut damaged = words.clone();
            for new in replacements(&words, place, plan) {
                damaged[place] = new;
                for (week, out) in [(1, 0), (1, 1), (0, 0), (53, u32::MAX)] {
                    let origin = format_args!("word {place} replaced by {new:#x}");
                    let answer = runs.agreed(&damaged, week, out, origin);
                    assert_eq!(answer.err(), read(&damaged).err());
                }
            }
        }
    }
    assert_eq!(runs.refusals(), [1, 2, 3, 4, 6]);
    runs.report("single word of the file damaged");
}

#[test]
fn files_cut_short_or_too_long_are_refused() {
    let mut runs = Runs::default();
    let refused = |number, place| Err(Refusal { number, place });
    for plan in small_plans() {
        let words = encode(&plan);
        for length in 0..words.len() {
            let answer = runs.agreed(&words[..length], 1, 0, format_args!("cut"));
            assert_eq!(answer, refused(1, length));
        }
        let longer = [&words[..], &[word(15, words.len() as u32)]].concat();
        let answer = runs.agreed(&longer, 1, 0, format_args!("a word more"));
        assert_eq!(answer, refused(7, words.len()));
    }
}

#[test]
fn files_with_several_words_edited_agree() {
    let mut runs = Runs::default();
    for seed in 0..5000 {
        let mut random = Random::seeded(seed);
        let plan = tied_plan(&mut random, 3, 4);
        let words = edited(&encode(&plan), &plan, &mut random);
        let (week, out) = (random.within(0, 4) as usize, few_units(&mut random));
        let _ = runs.agreed(&words, week, out, format_args!("seed {seed}"));
    }
    runs.report("several words of the file edited");
    assert_eq!(runs.refusals(), [1, 2, 3, 4, 6]);
    assert!(runs.found() > 50 && runs.none() > 50);
}
