//! The costs of cheapest runs in generated instances of 16 units: random queries without a memo,
//! beside the plain twin and a scan of all runs; then a walk's own queries without and with a memo.

use crate::generated::{Normal, Scheme};
use crate::timing::Times;
use crate::{plain_week, table, walk};
use agree::{query, Random};
use reference::{encode, Plan};
use std::collections::BTreeSet;
use std::hint::black_box;

/// How many random queries a case has.
const QUERIES: usize = 2000;
/// How many of them are scanned.
const SCANNED: usize = 50;
/// How many of a walk's queries are asked.
const WALKED: usize = 200_000;
/// The words of a memo.
const MEMO: usize = 65_536;
/// How often each side of a case is timed on random queries.
const ROUNDS: usize = 40;
/// How often each side of a case is timed on a walk's queries.
const WALK_ROUNDS: usize = 5;

/// Holds the proved call against the plain twin on all queries, times them, prints both tables.
pub fn run() {
    let cases = cases().map(|(case, scheme)| (case, scheme.plan()));
    table::preamble(&format!("{ROUNDS} rounds"));
    println!("{QUERIES} random queries with 0 to 3 units out, no memo; nanoseconds a query");
    table::titles(&[
        "proved ns",
        "plain ns",
        "proved/plain",
        "scan ns",
        "scan/proved",
    ]);
    for (case, plan) in &cases {
        time_random(case, plan);
    }
    println!();
    println!("{WALKED} queries of a walk, {WALK_ROUNDS} rounds; nanoseconds a query");
    table::titles(&[
        "queries",
        "distinct",
        "no memo ns",
        "memo ns",
        "no memo/memo",
    ]);
    for (case, plan) in &cases {
        time_walk(case, plan);
    }
    println!();
    println!(
        "Scan: all 65,536 runs, on {SCANNED} of the random queries; its ratio is on the same."
    );
    println!("Memo: {MEMO} words of scratch, as the call before left them.");
}

/// Instances of 16 units, named by their weeks and by how much of the capacity is demanded or what
/// else is particular to them; warm ones have OFF costs, at a mean of 5,000 euros often above the
/// running costs.
fn cases() -> [(&'static str, Scheme); 11] {
    let of_16 = |weeks, crews, seed, (low, high)| Scheme {
        weeks,
        units: 16,
        crews,
        seed,
        low,
        high,
        ..Scheme::default()
    };
    let long = Scheme {
        duration: Normal::new(5.0, 2.0),
        ..of_16(52, 2, 11, (650.0, 800.0))
    };
    let crews = Scheme {
        duration: Normal::new(3.0, 1.0),
        ..of_16(52, 6, 12, (600.0, 760.0))
    };
    // the worst for the bounds: only how many units run tells runs apart
    let equal = Scheme {
        capacity: Normal::new(200.0, 10.0),
        running_deviation: 0.0,
        ..of_16(26, 2, 16, (600.0, 700.0))
    };
    let wide = Scheme {
        capacity: Normal::new(60_000.0, 20_000.0),
        ..of_16(26, 3, 14, (600.0, 720.0))
    };
    let warm = |mean| Scheme {
        off: Some(Normal::new(mean, mean / 3.0)),
        ..of_16(20, 3, 11_620, (600.0, 720.0))
    };
    [
        ("16x20 mid", of_16(20, 3, 11_620, (600.0, 720.0))),
        ("16x52 easy", of_16(52, 2, 11_652, (500.0, 620.0))),
        ("16x52 mid", of_16(52, 2, 11_652, (600.0, 720.0))),
        ("16x52 tight", of_16(52, 2, 11_652, (680.0, 800.0))),
        ("16x52 over", of_16(52, 2, 11_652, (780.0, 900.0))),
        ("16x52 long overhauls", long),
        ("16x52 six crews", crews),
        ("16x26 wide capacities", wide),
        ("16x26 equal costs", equal),
        ("16x20 warm", warm(1500.0)),
        ("16x20 warm, many thrifty", warm(5000.0)),
    ]
}

/// The proved call beside the twin on all random queries, and the scan beside the proved call on
/// some of them.
fn time_random(case: &str, plan: &Plan) {
    let (words, queries) = (encode(plan), random_queries(plan));
    check(&words, &queries);
    let some = &queries[..SCANNED];
    check_scan(&words, some);
    let twin = Times::in_rounds(
        ROUNDS,
        1,
        lending(queries.len(), |costs| {
            proved(&words, &queries, &mut [], costs)
        }),
        lending(queries.len(), |costs| plain(&words, &queries, costs)),
    );
    let scan = Times::in_rounds(
        ROUNDS,
        1,
        lending(some.len(), |costs| scanned(&words, some, costs)),
        lending(some.len(), |costs| proved(&words, some, &mut [], costs)),
    );
    let (proved, plain) = twin.medians();
    let of_all = QUERIES as f64;
    table::figures(
        case,
        &[
            (proved / of_all, 0),
            (plain / of_all, 0),
            (twin.ratio(), 2),
            (scan.medians().0 / SCANNED as f64, 0),
            (scan.ratio(), 1),
        ],
    );
}

/// The proved call on a walk's queries, without and with a memo.
fn time_walk(case: &str, plan: &Plan) {
    let (words, queries) = (encode(plan), walk::queries(plan, WALKED));
    check(&words, &queries);
    let mut memo = vec![0; MEMO];
    let times = Times::in_rounds(
        WALK_ROUNDS,
        1,
        lending(queries.len(), |costs| {
            proved(&words, &queries, &mut [], costs)
        }),
        lending(queries.len(), |costs| {
            proved(&words, &queries, &mut memo, costs)
        }),
    );
    let distinct: BTreeSet<&u32> = queries.iter().collect();
    let (count, (without, with)) = (queries.len() as f64, times.medians());
    table::figures(
        case,
        &[
            (count, 0),
            (distinct.len() as f64, 0),
            (without / count, 0),
            (with / count, 0),
            (times.ratio(), 1),
        ],
    );
}

/// Random weeks of the plan with 0 to 3 random units out.
fn random_queries(plan: &Plan) -> Vec<u32> {
    let mut random = Random::seeded(0);
    let mut one = || {
        let week = random.within(1, plan.weeks);
        let units = 0..random.within(0, 3);
        let out = units.fold(0, |out, _| out | 1 << random.place(plan.units as usize));
        query(week, out)
    };
    (0..QUERIES).map(|_| one()).collect()
}

/// A call with so many words lent for the costs that it writes.
fn lending(count: usize, mut call: impl FnMut(&mut [u32])) -> impl FnMut() {
    let mut costs = vec![0; count];
    move || call(black_box(&mut costs))
}

fn proved(words: &[u32], queries: &[u32], scratch: &mut [u32], costs: &mut [u32]) {
    ffi::week_costs(black_box(words), black_box(queries), scratch, costs).expect("accepted");
}

fn plain(words: &[u32], queries: &[u32], costs: &mut [u32]) {
    plain_week::week_costs(black_box(words), black_box(queries), costs).expect("accepted");
}

fn scanned(words: &[u32], queries: &[u32], costs: &mut [u32]) {
    plain_week::scanned_costs(black_box(words), black_box(queries), costs).expect("accepted");
}

/// Panics unless the proved call gives the twin's cost for every query, without and with a memo.
fn check(words: &[u32], queries: &[u32]) {
    let mut costs = [0; 3].map(|_| vec![0; queries.len()]);
    let [expected, without, with] = &mut costs;
    plain(words, queries, expected);
    proved(words, queries, &mut [], without);
    proved(words, queries, &mut vec![0; MEMO], with);
    assert_eq!(without, expected, "proved without a memo, then plain");
    assert_eq!(with, expected, "proved with a memo, then plain");
}

/// Panics unless the scan gives the proved call's cost for every query.
fn check_scan(words: &[u32], queries: &[u32]) {
    let (mut expected, mut costs) = (vec![0; queries.len()], vec![0; queries.len()]);
    proved(words, queries, &mut [], &mut expected);
    scanned(words, queries, &mut costs);
    assert_eq!(costs, expected, "scan, then proved");
}
