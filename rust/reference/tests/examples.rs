//! The examples: their bytes are the words of their text, and the output that they show is one that
//! the planning program may print.

use reference::{
    bytes_of, check_plan_text, plan_input, words_from, Plan, Schedule, Status, Survey,
};
use std::fs;
use std::path::PathBuf;

/// The example seasons: without OFF costs and with them.
const SEASONS: [&str; 2] = ["season", "season-warm"];

/// A file of an example season.
fn season(name: &str, ending: &str) -> PathBuf {
    let folder = PathBuf::from(env!("CARGO_MANIFEST_DIR")).join("../../examples");
    folder.join(name).with_extension(ending)
}

fn bytes(name: &str) -> Vec<u8> {
    fs::read(season(name, "bin")).expect("the example's bytes")
}

#[test]
fn the_bytes_of_the_seasons_are_the_words_of_their_text() {
    for name in SEASONS {
        let text = fs::read_to_string(season(name, "txt")).expect("the example's text");
        assert_eq!(bytes_of(&words_from(&text)), bytes(name), "{name}");
    }
}

#[test]
fn the_seasons_are_accepted() {
    for name in SEASONS {
        let (plan, asks) = plan_input(&bytes(name)).expect("the example is accepted");
        assert_eq!((plan.weeks, plan.units, plan.crews), (6, 5, 2));
        assert_eq!(plan.pairs, [(1, 2)]);
        assert_eq!(plan.off.is_some(), name == "season-warm");
        assert_eq!(asks.len(), 6);
    }
}

/// A plan, none, and both statuses of a spent ask.
#[test]
fn the_output_of_the_seasons_is_right_and_has_every_status() {
    for name in SEASONS {
        let shown = fs::read_to_string(season(name, "out")).expect("the example's output");
        let said = check_plan_text(&bytes(name), &shown).expect("the output is right");
        let statuses = said.expect("the example is accepted");
        for status in [Status::Plan, Status::None, Status::Best, Status::Spent] {
            assert!(statuses.contains(&status), "{status:?} in {name}");
        }
    }
}

/// Other starts than without OFF costs, and in week 1 the units 1, 2 and 5, of which 5 is not needed.
#[test]
fn off_costs_change_the_plan_of_the_warm_season() {
    let (plan, _) = plan_input(&bytes("season-warm")).expect("the example is accepted");
    let cheapest = |plan: &Plan| {
        let survey = Survey::new(plan);
        survey.cheapest(268_435_455).cloned()
    };
    let schedule = |starts: [u32; 5], runs: [u32; 6], cost| {
        let (starts, runs) = (starts.to_vec(), runs.to_vec());
        Some(Schedule { starts, runs, cost })
    };
    let warm = schedule([5, 2, 1, 4, 6], [0b10011, 13, 29, 7, 22, 6], 8150);
    assert_eq!(cheapest(&plan), warm);
    assert!(plan.capacity[0] + plan.capacity[1] >= plan.demand[0]);
    let cold = schedule([5, 2, 1, 5, 4], [0b01001, 13, 29, 7, 22, 6], 7600);
    assert_eq!(cheapest(&Plan { off: None, ..plan }), cold);
}
