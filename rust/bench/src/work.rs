//! What an ask takes beside its tries: asks with a budget of one try on files that are made to be bad for
//! the search of a week, with many crews, long overhauls, and figures that tie.

use crate::generated::{Normal, Scheme};
use crate::plain_ask;
use crate::table;
use reference::{block_len, encode, word, Plan};
use std::time::Instant;

/// A ceiling that no schedule is above.
const OPEN: u32 = (1 << 28) - 1;
/// The most milliseconds for each week of a file.
const MOST: f64 = 10.0;

/// Prints for each number of crews and each duration what the worst file takes; then the worst of all.
pub fn run() {
    table::told("milliseconds a week of the slowest file");
    println!("16 units, 52 weeks, an open ceiling, one try");
    table::titles(&["files", "proved", "plain"]);
    let mut worst = [0.0_f64; 2];
    for crews in [4, 8, 12, 16] {
        for duration in [2.0, 10.0, 20.0] {
            let plans = plans(crews, duration);
            let mut slowest = [0.0_f64; 2];
            for plan in &plans {
                let taken = milliseconds(plan);
                slowest = [0, 1].map(|side| slowest[side].max(taken[side]));
            }
            let case = format!("{crews} crews, {duration} weeks");
            let figures = [(plans.len() as f64, 0), (slowest[0], 2), (slowest[1], 2)];
            table::figures(&case, &figures);
            worst = [0, 1].map(|side| worst[side].max(slowest[side]));
        }
    }
    let verdict = if worst[0] <= MOST { "met" } else { "MISSED" };
    println!();
    println!(
        "slowest file: proved {:.2}, plain {:.2} (proved at most {MOST}): {verdict}",
        worst[0], worst[1]
    );
}

/// Files with so many crews and with overhauls of such a length: with costs and capacities that are all
/// equal or not, and without OFF costs, with small ones and with ones as high as running costs.
fn plans(crews: u32, duration: f64) -> Vec<Plan> {
    let mut plans = vec![];
    for seed in 0..12 {
        let deviation = |is_equal: bool, deviation: f64| if is_equal { 0.0 } else { deviation };
        let (equal_costs, equal_units) = (seed % 2 == 0, seed / 2 % 2 == 0);
        let off = [None, Some(1500.0), Some(5000.0)][seed as usize / 4];
        let scheme = Scheme {
            units: 16,
            weeks: 52,
            crews,
            seed: 52_000 + seed,
            low: 300.0,
            high: 400.0,
            capacity: Normal::new(200.0, deviation(equal_units, 25.0)),
            duration: Normal::new(duration, 1.0),
            longest: 40,
            maint_deviation: deviation(equal_costs, 1000.0),
            running_deviation: deviation(equal_costs, 2000.0),
            pairs: 4,
            off: off.map(|mean| Normal::new(mean, deviation(equal_costs, mean / 3.0))),
            ..Scheme::default()
        };
        plans.push(scheme.plan());
    }
    plans
}

/// What an ask of one try takes for each week: proved, then plain.
fn milliseconds(plan: &Plan) -> [f64; 2] {
    let words = encode(plan);
    let ask = [word(11, OPEN), word(12, 1)];
    let (mut block, mut table) = (vec![0; block_len(plan)], vec![0; 16_384]);
    let mut scratch = vec![0; 1 << plan.units];
    let mut timed = |is_proved: bool| {
        let start = Instant::now();
        if is_proved {
            ffi::run(&words, &ask, &mut block, &mut table, &mut scratch).expect("accepted");
        } else {
            let plain = plain_ask::ask(&words, &ask, &mut block, &mut table, &mut scratch);
            plain.expect("accepted");
        }
        1000.0 * start.elapsed().as_secs_f64() / f64::from(plan.weeks)
    };
    [timed(true), timed(false)]
}
