//! The reference on the runs of a week and on the starts of a unit: the worked figures of document
//! 01 that concern them, ties, demands at their borders, and costs by hand.

use reference::{
    cheapest_run, encode, example_a, example_a_words, permitted_starts, run_cost, runs, smallest,
    upkeep, week_costs, CheapestRun, Plan, Refusal,
};

/// Five weeks and four units with the capacities of figure P4. Every week demands 800.
fn plan() -> Plan {
    Plan {
        demand: vec![800; 5],
        capacity: vec![100, 200, 300, 400],
        earliest: vec![1, 2, 4, 5],
        latest: vec![5, 3, 5, 5],
        duration: vec![3, 1, 2, 2],
        maint: (1..=5).map(|t| vec![t, 10 * t, 100 * t, 7]).collect(),
        running: vec![vec![1, 2, 3, 4]; 5],
        ..smallest(5, 4)
    }
}

/// The plan with another demand in week 1, and other costs.
fn with(demand: u32, running: [u32; 4]) -> Plan {
    let mut plan = plan();
    plan.demand[0] = demand;
    plan.running[0] = running.to_vec();
    plan
}

fn found(run: u32, cost: u64) -> Option<CheapestRun> {
    Some(CheapestRun { run, cost })
}

#[test]
fn p4_three_of_16_runs_meet_the_demand() {
    assert_eq!(runs(&plan(), 1, 0), [0b1101, 0b1110, 0b1111]);
    assert_eq!(cheapest_run(&plan(), 1, 0), found(0b1101, 8));
    assert_eq!(cheapest_run(&plan(), 1, 0b0001), found(0b1110, 9));
    assert_eq!(cheapest_run(&plan(), 1, 0b0010), found(0b1101, 8));
    assert_eq!(cheapest_run(&plan(), 1, 0b0011), None);
    assert_eq!(cheapest_run(&plan(), 1, 0b0100), None);
}

#[test]
fn p1_the_runs_of_the_cheapest_schedule_of_file_a() {
    let plan = example_a();
    assert_eq!(cheapest_run(&plan, 1, 0b10), found(1, 3));
    assert_eq!(cheapest_run(&plan, 2, 0b01), found(2, 4));
    assert_eq!(cheapest_run(&plan, 3, 0), found(1, 3));
    assert_eq!(cheapest_run(&plan, 3, 0b11), None);
    let starts = upkeep(&plan, 1, 2).zip(upkeep(&plan, 2, 1));
    assert_eq!(starts, Some((4, 5)));
}

#[test]
fn p5_p6_without_demand_the_run_is_0_and_with_it_there_is_none() {
    assert_eq!(cheapest_run(&with(0, [1, 1, 1, 1]), 1, 0b1111), found(0, 0));
    assert_eq!(cheapest_run(&with(1, [1, 1, 1, 1]), 1, 0b1111), None);
}

#[test]
fn p7_four_weeks_and_duration_3_leave_starts_1_and_2() {
    let mut plan = plan();
    plan.weeks = 4;
    plan.latest[0] = 4;
    assert_eq!(permitted_starts(&plan, 1), [1, 2]);
}

#[test]
fn among_equals_the_smallest_number_is_given() {
    assert_eq!(cheapest_run(&with(300, [5, 5, 5, 5]), 1, 0), found(4, 5));
    assert_eq!(cheapest_run(&with(300, [2, 3, 5, 5]), 1, 0), found(3, 5));
    assert_eq!(cheapest_run(&with(0, [0, 0, 0, 0]), 1, 0), found(0, 0));
    assert_eq!(cheapest_run(&with(500, [0, 0, 0, 0]), 1, 0), found(6, 0));
}

#[test]
fn output_equal_to_demand_is_enough() {
    assert_eq!(cheapest_run(&with(1000, [1; 4]), 1, 0), found(15, 4));
    assert_eq!(cheapest_run(&with(1001, [1; 4]), 1, 0), None);
    assert_eq!(cheapest_run(&with(400, [1; 4]), 1, 0), found(8, 1));
    assert_eq!(cheapest_run(&with(401, [1; 4]), 1, 0), found(6, 2));
}

#[test]
fn bits_beyond_the_units_do_not_count_and_other_weeks_have_no_run() {
    let out = 0xFFFF_FFF1;
    assert_eq!(cheapest_run(&plan(), 5, out), found(0b1110, 9));
    for week in [0, 6, 1 << 32, usize::MAX] {
        assert_eq!(cheapest_run(&plan(), week, 0), None);
        assert_eq!(runs(&plan(), week, 0), []);
    }
}

#[test]
fn a_run_costs_what_its_units_cost_in_its_week() {
    let plan = with(0, [10, 200, 3000, 40_000]);
    assert_eq!(run_cost(&plan, 1, 0, 0b1010), 40_200);
    assert_eq!(run_cost(&plan, 2, 0b0101, 0b1010), 6);
    assert_eq!(run_cost(&plan, 2, 0, 0), 0);
}

#[test]
fn queries_get_their_costs_after_the_file_and_the_room_are_tested() {
    let queries = [65_536, 65_537, 65_536 + 3, 0, 6 * 65_536, u32::MAX];
    let none = 268_435_456;
    let words = encode(&plan());
    let refused = |number, place| Err(Refusal { number, place });
    let costs = vec![8, 9, none, none, none, none];
    assert_eq!(week_costs(&words, &queries, 6), Ok(costs));
    assert_eq!(week_costs(&words, &queries, 5), refused(17, 0));
    assert_eq!(week_costs(&words[..9], &queries, 5), refused(1, 9));
    assert_eq!(week_costs(&example_a_words(), &[], 0), Ok(vec![]));
}

#[test]
fn starts_run_to_the_latest_or_the_last_that_is_finished_in_time() {
    let plan = plan();
    assert_eq!(permitted_starts(&plan, 1), [1, 2, 3]);
    assert_eq!(permitted_starts(&plan, 2), [2, 3]);
    assert_eq!(permitted_starts(&plan, 3), [4]);
    assert_eq!(permitted_starts(&plan, 4), []);
    assert_eq!(permitted_starts(&plan, 0), []);
    assert_eq!(permitted_starts(&plan, 5), []);
}

#[test]
fn an_overhaul_costs_its_weeks_from_a_permitted_start_alone() {
    let plan = plan();
    let of_unit = |unit| [0, 1, 2, 3, 4, 5, 6].map(|start| upkeep(&plan, unit, start));
    let (no, some) = (None, Some);
    assert_eq!(of_unit(1), [no, some(6), some(9), some(12), no, no, no]);
    assert_eq!(of_unit(2), [no, no, some(20), some(30), no, no, no]);
    assert_eq!(of_unit(3), [no, no, no, no, some(900), no, no]);
    assert_eq!(of_unit(4), [no; 7]);
    assert_eq!(of_unit(5), [no; 7]);
    assert_eq!(upkeep(&plan, 1, (1 << 32) + 1), None);
}
