//! The reference on OFF costs: their words and refusals, the cost of a grid, and figures by hand of
//! weeks and plans in which a line runs that demand does not need, since that is cheaper, and of
//! others in which it costs the same and the line stays OFF.

use reference::{
    bytes_of, cheapest_run, cost, encode, example_a, example_a_words, is_true, judge, lay_out,
    plan_text, read, run_cost, smallest, week_costs, word, words_from, CheapestRun, Conflict,
    Judgement, Plan, Refusal, Schedule, Survey, MAINT, OFF, ON,
};

/// File A with an OFF cost for each cell.
fn a_with(off: [[u32; 2]; 3]) -> Plan {
    Plan {
        off: Some(off.map(|row| row.to_vec()).to_vec()),
        ..example_a()
    }
}

/// A week with three units. The first is cheaper OFF, the second costs the same, the third, which
/// gives next to nothing, is cheaper ON.
fn one_week(demand: u32) -> Plan {
    Plan {
        demand: vec![demand],
        capacity: vec![10, 10, 1],
        running: vec![vec![5, 6, 2]],
        off: Some(vec![vec![1, 6, 3]]),
        ..smallest(1, 3)
    }
}

/// Two weeks and one unit that nobody needs. Its overhaul is cheaper in week 1, but in week 1 it
/// would cost this much OFF and 1 running, in week 2 it costs 3 OFF and 4 running.
fn two_weeks(off: u32) -> Plan {
    Plan {
        latest: vec![2],
        maint: vec![vec![5], vec![6]],
        running: vec![vec![1], vec![4]],
        off: Some(vec![vec![off], vec![3]]),
        ..smallest(2, 1)
    }
}

fn found(run: u32, cost: u64) -> Option<CheapestRun> {
    Some(CheapestRun { run, cost })
}

fn refused(number: u32, place: usize) -> Result<Plan, Refusal> {
    Err(Refusal { number, place })
}

/// The words of file A up to its end word, then these, then an end word that counts them.
fn a_and(more: &[u32]) -> Vec<u32> {
    let mut words = example_a_words();
    words.pop();
    words.extend(more);
    words.push(word(15, words.len() as u32));
    words
}

#[test]
fn off_costs_stand_after_the_running_costs_and_are_counted() {
    let plan = a_with([[1, 2], [3, 4], [5, 250_000]]);
    let words = words_from(
        "1:3 2:2 3:1 4:10 4:10 4:10 5:10 6:67 7:1 5:15 6:67 7:1 8:5 8:5 8:4 8:7 8:6 8:6 \
         9:3 9:4 9:3 9:4 9:3 9:4 0:1 0:2 0:3 0:4 0:5 0:250000 15:30",
    );
    assert_eq!(encode(&plan), words);
    assert_eq!(read(&words), Ok(plan.clone()));
    let cells = [(1, 1), (1, 2), (2, 1), (2, 2), (3, 1), (3, 2)];
    let costs = cells.map(|(week, unit)| plan.off_cost(week, unit));
    assert_eq!(costs, [1, 2, 3, 4, 5, 250_000]);
    let pair = Plan {
        pairs: vec![(1, 2)],
        ..plan
    };
    assert_eq!(read(&encode(&pair)), Ok(pair));
}

/// The same costs, but other words and so another plan.
#[test]
fn costs_of_0_are_not_costs_left_out() {
    let zero = a_with([[0; 2]; 3]);
    assert_eq!(read(&example_a_words()), Ok(example_a()));
    assert_eq!(read(&encode(&zero)), Ok(zero.clone()));
    assert_ne!(encode(&zero), example_a_words());
    assert_eq!(zero.off_cost(2, 1), example_a().off_cost(2, 1));
    assert_eq!(
        Survey::new(&zero).sound(),
        Survey::new(&example_a()).sound()
    );
}

#[test]
fn all_of_them_are_there_or_none() {
    let off = [word(0, 7); 7];
    assert_eq!(read(&a_and(&[])), Ok(example_a()));
    for count in 1..6 {
        let words = a_and(&off[..count]);
        assert_eq!(read(&words), refused(1, 24 + count));
        // the file ends there, or goes on with a pair
        assert_eq!(read(&words[..24 + count]), refused(1, 24 + count));
        let pair = [&off[..count], &[word(10, 34)]].concat();
        assert_eq!(read(&a_and(&pair)), refused(1, 24 + count));
    }
    assert_eq!(read(&a_and(&off[..6])), Ok(a_with([[7; 2]; 3])));
    assert_eq!(read(&a_and(&off)), refused(1, 30));
    assert_eq!(read(&a_and(&off)[..30]), refused(1, 30));
    assert_eq!(
        read(&a_and(&[&[word(10, 34)], &off[..6]].concat())),
        refused(1, 25)
    );
}

#[test]
fn another_kind_within_is_refused_as_1_and_too_much_as_2() {
    let words = encode(&a_with([[7; 2]; 3]));
    let with = |place: usize, new: u32| {
        let mut words = words.clone();
        words[place] = new;
        read(&words)
    };
    for place in 25..30 {
        for kind in 1..16 {
            assert_eq!(with(place, word(kind, 7)), refused(1, place));
        }
    }
    for place in 24..30 {
        assert_eq!(with(place, word(0, 250_001)), refused(2, place));
        assert_eq!(with(place, word(0, 268_435_455)), refused(2, place));
        assert!(with(place, word(0, 250_000)).is_ok());
    }
    assert_eq!(with(30, word(15, 24)), refused(6, 30));
    // nowhere else
    assert_eq!(with(12, word(0, 5)), refused(1, 12));
    assert_eq!(with(23, word(0, 5)), refused(1, 23));
}

#[test]
fn off_is_charged_in_a_grid_where_a_unit_neither_runs_nor_is_out() {
    let plan = a_with([[10, 20], [30, 40], [50, 60]]);
    let words = encode(&plan);
    let cheapest = [ON, MAINT, MAINT, ON, ON, OFF];
    assert_eq!(judge(&words, &cheapest), Judgement::Sound(19 + 60));
    let all_on = [ON, MAINT, MAINT, ON, ON, ON];
    assert_eq!(judge(&words, &all_on), Judgement::Sound(19 + 4));
    assert_eq!(judge(&words, &[OFF; 6]), Judgement::Breaks(1));
    assert_eq!(cost(&plan, &[OFF; 6]), 210);
    assert_eq!(cost(&example_a(), &[OFF; 6]), 0);
}

#[test]
fn a_run_is_charged_off_for_units_that_neither_run_nor_are_out() {
    let plan = one_week(10);
    assert_eq!(run_cost(&plan, 1, 0, 0b000), 1 + 6 + 3);
    assert_eq!(run_cost(&plan, 1, 0, 0b101), 5 + 6 + 2);
    assert_eq!(run_cost(&plan, 1, 0b010, 0b101), 5 + 2);
    assert_eq!(run_cost(&plan, 1, 0b111, 0b000), 0);
    assert_eq!(run_cost(&plan, 1, 0b100, 0b010), 1 + 6);
}

/// Unit 3 runs wherever it may, and unit 2, dearer than unit 1, since it is no cheaper OFF.
#[test]
fn a_line_runs_that_demand_does_not_need_where_that_is_cheaper() {
    let plan = one_week(10);
    assert_eq!(cheapest_run(&plan, 1, 0b000), found(0b110, 1 + 6 + 2));
    assert_eq!(cheapest_run(&plan, 1, 0b001), found(0b110, 6 + 2));
    assert_eq!(cheapest_run(&plan, 1, 0b010), found(0b101, 5 + 2));
    assert_eq!(cheapest_run(&plan, 1, 0b100), found(0b010, 1 + 6));
    assert_eq!(cheapest_run(&plan, 1, 0b011), None);
    let without = Plan { off: None, ..plan };
    assert_eq!(cheapest_run(&without, 1, 0b000), found(0b001, 5));
    assert_eq!(cheapest_run(&without, 1, 0b001), found(0b010, 6));
}

/// Runs 4 and 6 both cost 9 where nothing is demanded, and 1 of unit 3 is enough for 1.
#[test]
fn a_line_that_costs_the_same_stays_off_unless_it_is_needed() {
    for demand in [0, 1] {
        let plan = one_week(demand);
        assert_eq!(run_cost(&plan, 1, 0, 0b110), run_cost(&plan, 1, 0, 0b100));
        assert_eq!(cheapest_run(&plan, 1, 0), found(0b100, 1 + 6 + 2));
    }
    assert_eq!(cheapest_run(&one_week(0), 1, 0b100), found(0, 1 + 6));
    assert_eq!(cheapest_run(&one_week(0), 1, 0b111), found(0, 0));
    assert_eq!(cheapest_run(&one_week(2), 1, 0), found(0b110, 1 + 6 + 2));
}

#[test]
fn lists_of_costs_leave_out_what_units_out_would_cost_off() {
    let words = encode(&one_week(10));
    let queries: Vec<u32> = (0..8).map(|out| 65_536 + out).collect();
    let none = 268_435_456;
    let costs = vec![9, 8, 7, none, 7, 6, 5, none];
    assert_eq!(week_costs(&words, &queries, 8), Ok(costs));
}

/// OFF costs move the overhaul to week 2, and the unit runs in week 1 though nobody needs it.
#[test]
fn off_costs_change_the_plan() {
    let schedule = |start, runs: [u32; 2], cost| Schedule {
        starts: vec![start],
        runs: runs.to_vec(),
        cost,
    };
    let survey = Survey::new(&two_weeks(3));
    let sound = [schedule(1, [0, 0], 5 + 3), schedule(2, [1, 0], 6 + 1)];
    assert_eq!(survey.sound(), sound);
    assert_eq!(survey.cheapest(100), Some(&sound[1]));
    // as dear OFF as running: OFF in week 1
    let same = Survey::new(&two_weeks(1));
    assert_eq!(same.cheapest(100), Some(&schedule(2, [0, 0], 7)));
    let without = Plan {
        off: None,
        ..two_weeks(3)
    };
    let survey = Survey::new(&without);
    assert_eq!(survey.cheapest(100), Some(&schedule(1, [0, 0], 5)));
}

#[test]
fn conflicts_are_told_by_costs_with_off() {
    let survey = Survey::new(&two_weeks(3));
    let claim = |bound, choices: &[(u32, u32)]| {
        let choices = choices.to_vec();
        is_true(&survey, &Conflict { bound, choices })
    };
    assert!(claim(7, &[(1, 1)]) && !claim(8, &[(1, 1)]));
    assert!(claim(6, &[(1, 2)]) && !claim(7, &[(1, 2)]));
    assert!(claim(6, &[]) && !claim(7, &[]));
}

/// All units of file A that are not out run where OFF costs 5, which is above all running costs, and
/// one alone runs where it costs 2.
#[test]
fn file_a_has_its_cheapest_schedule_with_off_costs() {
    let text = |off: u32| {
        let asks = words_from("11:100 12:12 11:20 12:1");
        plan_text(&bytes_of(&[encode(&a_with([[off; 2]; 3])), asks].concat()))
    };
    let due = |line: &str| Some(format!("{line}\nask 2 none\n"));
    assert_eq!(text(5), due("ask 1 plan 23 starts 2 1 run 1 2 3"));
    assert_eq!(text(2), due("ask 1 plan 21 starts 2 1 run 1 2 1"));
    assert_eq!(text(4), due("ask 1 plan 23 starts 2 1 run 1 2 1"));
}

/// Of all 729 grids of file A with some OFF costs none that is sound costs less than the cheapest
/// schedule, and its own grid costs as much.
#[test]
fn the_cheapest_schedule_is_the_cheapest_of_all_sound_grids() {
    for off in [
        [[0, 0], [0, 0], [0, 0]],
        [[9, 1], [3, 4], [0, 8]],
        [[1, 9], [9, 1], [1, 9]],
        [[3, 4], [3, 4], [3, 4]],
        [[250_000; 2]; 3],
    ] {
        let plan = a_with(off);
        let words = encode(&plan);
        let state = |number: u32, cell| (number / 3u32.pow(cell) % 3) as u8;
        let grids = (0..729).map(|number| [0, 1, 2, 3, 4, 5].map(|cell| state(number, cell)));
        let least = grids
            .filter_map(|grid| match judge(&words, &grid) {
                Judgement::Sound(cost) => Some(cost),
                _ => None,
            })
            .min();
        let survey = Survey::new(&plan);
        let cheapest = survey.cheapest(100_000_000).expect("file A has schedules");
        let grid = lay_out(&plan, &cheapest.starts, &cheapest.runs);
        assert_eq!(least, Some(cheapest.cost), "{off:?}");
        assert_eq!(judge(&words, &grid), Judgement::Sound(cheapest.cost));
    }
}
