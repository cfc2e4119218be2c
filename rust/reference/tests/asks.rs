//! The reference on single asks: the worked figures of document 01 that concern them, and blocks by
//! hand.

mod single_asks;

use reference::{
    check_block, conflicts, cost, counted_rank, encode, example_a, is_true, judge, lay_out,
    permitted_starts, sizing, smallest, word, Judgement, Plan, Schedule, Status, Survey, ON,
};
use single_asks::{ask, conflict, survey_a};

/// One week and one unit, whose overhaul costs 7, with the given demand.
fn one_unit(demand: u32) -> Plan {
    Plan {
        demand: vec![demand],
        maint: vec![vec![7]],
        ..smallest(1, 1)
    }
}

/// Three weeks and three units, of which the given one can only start when it is too late.
fn with_late_unit(unit: usize) -> Plan {
    let mut plan = Plan {
        crews: 3,
        latest: vec![2; 3],
        ..smallest(3, 3)
    };
    plan.duration[unit - 1] = 2;
    (plan.earliest[unit - 1], plan.latest[unit - 1]) = (3, 3);
    plan
}

fn schedule(starts: &[u32], runs: &[u32], cost: u64) -> Schedule {
    Schedule {
        starts: starts.to_vec(),
        runs: runs.to_vec(),
        cost,
    }
}

/// Every list of `length` numbers from `low` to `high`, in lexicographic order.
fn lists(length: u32, low: u32, high: u32) -> Vec<Vec<u32>> {
    let numbers = high - low + 1;
    let number = |list: u32, place: u32| list / numbers.pow(length - 1 - place) % numbers + low;
    (0..numbers.pow(length))
        .map(|list| (0..length).map(|place| number(list, place)).collect())
        .collect()
}

/// All sound schedules of a plan, whatever their runs: each list of weeks as starts, each list of
/// numbers as runs, kept where the starts are permitted and no unit runs that is out.
fn every_schedule(plan: &Plan) -> Vec<Schedule> {
    let permitted = |starts: &Vec<u32>| {
        let mut pairs = (1..).zip(starts);
        pairs.all(|(unit, start)| permitted_starts(plan, unit).contains(start))
    };
    let words = encode(plan);
    let mut sound = vec![];
    for starts in lists(plan.units, 1, plan.weeks)
        .iter()
        .filter(|&list| permitted(list))
    {
        for runs in lists(plan.weeks, 0, (1 << plan.units) - 1) {
            let grid = lay_out(plan, starts, &runs);
            // a unit that is out and in the run makes the grid of a smaller run
            let running = grid.iter().filter(|&&state| state == ON).count() as u32;
            let whole = runs.iter().map(|run| run.count_ones()).sum::<u32>() == running;
            if whole && judge(&words, &grid) == Judgement::Sound(cost(plan, &grid)) {
                sound.push(schedule(starts, &runs, cost(plan, &grid)));
            }
        }
    }
    sound
}

#[test]
fn p1_p2_the_cheapest_of_file_a_and_none_at_18() {
    let survey = survey_a();
    let cheapest = schedule(&[2, 1], &[1, 2, 1], 19);
    assert_eq!(survey.cheapest(100), Some(&cheapest));
    assert_eq!(survey.cheapest(19), Some(&cheapest));
    assert_eq!(survey.cheapest(18), None);
    let costs: Vec<u64> = survey.sound().iter().map(|sound| sound.cost).collect();
    assert_eq!(costs, [22, 21, 19, 20, 21, 23]);
}

#[test]
fn p3_unit_1_at_start_1_is_a_true_conflict_at_20_and_false_at_21() {
    let survey = survey_a();
    assert!(is_true(&survey, &conflict(20, &[(1, 1)])));
    assert!(!is_true(&survey, &conflict(21, &[(1, 1)])));
    let table = [word(13, 20), word(14, 65), 0, 0];
    let read = conflicts(survey.plan(), &[&table[..], &[0; 60]].concat());
    assert_eq!(read, Ok(vec![conflict(20, &[(1, 1)])]));
}

#[test]
fn p5_p6_one_unit_is_overhauled_without_demand_alone() {
    let survey = Survey::new(&one_unit(0));
    assert_eq!(survey.cheapest(7), Some(&schedule(&[1], &[0], 7)));
    assert_eq!(survey.cheapest(6), None);
    assert_eq!(Survey::new(&one_unit(1)).cheapest(100), None);
}

#[test]
fn p7_four_weeks_and_duration_3_leave_places_1_and_2() {
    let plan = Plan {
        latest: vec![4],
        duration: vec![3],
        ..smallest(4, 1)
    };
    assert_eq!(Survey::new(&plan).places(), [[1], [2]]);
}

#[test]
fn p8_one_crew_cannot_overhaul_two_units_in_one_week() {
    let survey = Survey::new(&smallest(1, 2));
    assert_eq!(survey.places(), [vec![1], vec![1, 1]]);
    assert_eq!(survey.cheapest(100), None);
}

#[test]
fn p11_file_a_has_12_places_and_starts_2_1_have_rank_5() {
    let survey = survey_a();
    assert_eq!(survey.places().len(), 12);
    assert_eq!(sizing(&example_a()), 12);
    assert_eq!(survey.rank(&[2, 1]), Some(5));
    let ranks = [
        vec![1],
        vec![1, 1],
        vec![1, 3],
        vec![2],
        vec![3],
        vec![3, 3],
    ];
    assert_eq!(
        ranks.map(|place| survey.rank(&place)),
        [0, 1, 3, 4, 8, 11].map(Some)
    );
    for none in [&[][..], &[4], &[0, 1], &[1, 0], &[1, 4], &[1, 1, 1]] {
        assert_eq!(survey.rank(none), None);
    }
}

#[test]
fn counted_ranks_are_those_of_the_walk() {
    let mut narrow = Plan {
        latest: vec![3, 4, 4],
        earliest: vec![2, 1, 3],
        duration: vec![1, 2, 1],
        ..smallest(4, 3)
    };
    let mut plans = vec![example_a(), narrow.clone()];
    narrow.duration[1] = 4;
    plans.extend([
        narrow,
        with_late_unit(1),
        with_late_unit(2),
        with_late_unit(3),
    ]);
    for plan in plans {
        let survey = Survey::new(&plan);
        for (rank, place) in survey.places().iter().enumerate() {
            assert_eq!(counted_rank(&plan, place), Some(rank as u128));
        }
        for none in [&[][..], &[9], &[2, 0], &[2, 1, 9], &[1, 1, 1, 1]] {
            assert_eq!(survey.rank(none), None);
            assert_eq!(counted_rank(&plan, none), None);
        }
    }
    // 52 + 52² + … + 52^16 places, of which the last has them all but one before it
    let largest = Plan {
        latest: vec![52; 16],
        ..smallest(52, 16)
    };
    let all: u128 = (1..=16).map(|power| 52u128.pow(power)).sum();
    assert_eq!(counted_rank(&largest, &[52; 16]), Some(all - 1));
    assert_eq!(counted_rank(&largest, &[1; 16]), Some(15));
}

/// The survey looks at one schedule for each list of starts; the earliest of the cheapest of all
/// schedules, runs of any number included, is the same.
#[test]
fn of_all_schedules_the_survey_has_the_earliest_of_the_cheapest() {
    let mut alike = example_a();
    (alike.maint, alike.running) = (vec![vec![1; 2]; 3], vec![vec![0; 2]; 3]);
    let mut free = alike.clone();
    (free.maint, free.demand[1]) = (vec![vec![0; 2]; 3], 0);
    let three_units = Plan {
        crews: 2,
        demand: vec![2, 3],
        capacity: vec![1, 2, 3],
        latest: vec![2; 3],
        running: vec![vec![1, 2, 3]; 2],
        pairs: vec![(1, 2)],
        ..smallest(2, 3)
    };
    for plan in [example_a(), alike, free, three_units] {
        let every = every_schedule(&plan);
        let order = |schedule: &Schedule| {
            let Schedule { starts, runs, cost } = schedule.clone();
            (cost, starts, runs)
        };
        let first = every.into_iter().min_by_key(order);
        assert!(first.is_some());
        assert_eq!(Survey::new(&plan).cheapest(100), first.as_ref());
    }
}

#[test]
fn blocks_of_file_a_by_hand_are_right() {
    let survey = survey_a();
    let right = |ceiling, budget, block| check_block(&survey, ask(ceiling, budget), block);
    let plan = [1, 19, 2, 1, 1, 2, 1, 0, 0];
    for budget in [1, 12, 268_435_455] {
        assert_eq!(right(100, budget, &plan), Ok(Status::Plan));
        assert_eq!(right(19, budget, &plan), Ok(Status::Plan));
        assert_eq!(
            right(18, budget, &[2, 0, 0, 0, 0, 0, 0, 0, 0]),
            Ok(Status::None)
        );
    }
    // before the mark 2 and before 2 1 are the starts 1 2 at 22 and 1 3 at 21
    assert_eq!(
        right(100, 4, &[3, 21, 1, 3, 2, 1, 1, 2, 0]),
        Ok(Status::Best)
    );
    assert_eq!(
        right(21, 5, &[3, 21, 1, 3, 2, 1, 1, 2, 1]),
        Ok(Status::Best)
    );
    assert_eq!(
        right(20, 5, &[4, 0, 0, 0, 0, 0, 0, 2, 1]),
        Ok(Status::Spent)
    );
    assert_eq!(
        right(20, 6, &[3, 19, 2, 1, 1, 2, 1, 2, 2]),
        Ok(Status::Best)
    );
    assert_eq!(
        right(100, 2, &[4, 0, 0, 0, 0, 0, 0, 1, 2]),
        Ok(Status::Spent)
    );
    assert_eq!(
        right(100, 11, &[3, 19, 2, 1, 1, 2, 1, 3, 3]),
        Ok(Status::Best)
    );
}

/// The places of the units before it stand, so an ask may be spent among them.
#[test]
fn a_unit_without_a_start_leaves_the_places_before_it() {
    let none = [2, 0, 0, 0, 0, 0, 0, 0, 0, 0, 0];
    let marked = |mark| [&[4, 0, 0, 0, 0, 0, 0, 0][..], mark].concat();
    let survey = Survey::new(&with_late_unit(2));
    assert_eq!(survey.places(), [[1], [2]]);
    let said = |budget, block: &[u32]| check_block(&survey, ask(100, budget), block);
    assert_eq!(said(1, &none), Ok(Status::None));
    assert_eq!(said(1, &marked(&[2, 0, 0])), Ok(Status::Spent));
    assert!(said(2, &marked(&[2, 0, 0])).is_err());
    assert!(said(1, &marked(&[2, 3, 0])).is_err());
    // after the last unit but one there are 2 + 4 places; before the first there is none
    assert_eq!(Survey::new(&with_late_unit(3)).places().len(), 6);
    let survey = Survey::new(&with_late_unit(1));
    assert_eq!(survey.places().len(), 0);
    assert_eq!(check_block(&survey, ask(100, 1), &none), Ok(Status::None));
    assert!(check_block(&survey, ask(100, 1), &marked(&[0, 0, 0])).is_err());
}
