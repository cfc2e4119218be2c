//! What each mechanism of an ask buys: the plain twin on the classes of the comparison, as it is set
//! and with one thing changed at a time.

use crate::classes::Class;
use crate::hard_classes::HardClass;
use crate::plain_ask::tuned_ask;
use crate::plain_tuning::{Tuning, TUNED};
use crate::table;
use reference::{block_len, encode, word, Plan};
use std::time::Instant;

/// A ceiling that no schedule is above.
const OPEN: u32 = (1 << 28) - 1;
/// The tries of an ask; one that spends them is not solved.
const TRIES: u32 = 1_000_000;
/// The instances of a class.
const SEEDS: u32 = 5;

/// Instances that are looked at together.
struct Group {
    name: String,
    /// What it is chosen by.
    key: String,
    plans: Vec<Plan>,
}

/// Prints a table for each size, those with OFF costs last, then for each kind of hard classes: what is
/// changed, how many instances are solved, the tries and the milliseconds.
pub fn run() {
    table::told("geometric means over all instances, solved or not");
    println!("plain twin, {TRIES} tries at most and as many in probes, {SEEDS} instances a class");
    let chosen: Vec<String> = std::env::args().skip(2).collect();
    for group in groups() {
        if chosen.is_empty() || chosen.contains(&group.key) {
            println!();
            table::titles(&["instances", "solved", "walks", "tries", "ms"]);
            for (name, tuning, words) in variants() {
                let case = format!("{} {name}", group.name);
                print_variant(&case, &group.plans, &tuning, words);
            }
        }
    }
}

/// The classes of each size, those with OFF costs apart, and the hard classes of each kind.
fn groups() -> Vec<Group> {
    let (all, hard) = (Class::all(), HardClass::all());
    let same = |a: &Class, b: &Class| a.size() == b.size() && a.is_warm() == b.is_warm();
    let sizes = all.chunk_by(same).map(|classes| {
        let (key, warm) = (classes[0].size(), classes[0].is_warm());
        Group {
            name: format!("{key}{}", if warm { " warm" } else { "" }),
            plans: plans(classes, Class::plan),
            key,
        }
    });
    let kinds = hard.chunk_by(|a, b| a.kind == b.kind).map(|classes| Group {
        name: classes[0].kind.name().to_string(),
        key: classes[0].kind.name().to_string(),
        plans: plans(classes, HardClass::plan),
    });
    sizes.chain(kinds).collect()
}

/// The instances of some classes.
fn plans<T>(classes: &[T], plan: impl Fn(&T, u32) -> Plan) -> Vec<Plan> {
    let of_class = |class| (1..=SEEDS).map(|number| plan(class, number)).collect();
    classes.iter().flat_map::<Vec<Plan>, _>(of_class).collect()
}

/// The settings as they are and changed: a name, the settings, the words of the table.
fn variants() -> Vec<(&'static str, Tuning, usize)> {
    let tuned = TUNED;
    let changed = [
        ("no prices", Tuning { rounds: 0, ..tuned }),
        (
            "half the rounds",
            Tuning {
                rounds: tuned.rounds / 2,
                ..tuned
            },
        ),
        (
            "no stop rule",
            Tuning {
                least_reach: 1,
                ..tuned
            },
        ),
        (
            "no probes",
            Tuning {
                probes: false,
                ..tuned
            },
        ),
        (
            "probes in order",
            Tuning {
                any_order: false,
                ..tuned
            },
        ),
        (
            "no free plant",
            Tuning {
                free: false,
                ..tuned
            },
        ),
        (
            "free plant early",
            Tuning {
                early_tries: 10_000,
                free_rounds: 24,
                ..tuned
            },
        ),
        (
            "sets alone",
            Tuning {
                sets: u32::MAX,
                ..tuned
            },
        ),
        (
            "values may fall",
            Tuning {
                grows: false,
                ..tuned
            },
        ),
        (
            "all placed blamed",
            Tuning {
                shrinks: false,
                ..tuned
            },
        ),
        (
            "no notes",
            Tuning {
                choices: 0,
                ..tuned
            },
        ),
        (
            "notes to 8 choices",
            Tuning {
                choices: 8,
                ..tuned
            },
        ),
    ];
    let long = |(name, tuning)| (name, tuning, 16_384);
    let mut variants = vec![("as set", tuned, 16_384), ("64 words", tuned, 64)];
    variants.extend(changed.into_iter().map(long));
    variants
}

/// Solves all instances, and prints what it took.
fn print_variant(case: &str, plans: &[Plan], tuning: &Tuning, words: usize) {
    let (mut count, mut solved, mut walks, mut tries, mut seconds) = (0.0, 0.0, 0.0, 0.0, 0.0);
    for plan in plans {
        let taken = Taken::of(plan, tuning, words);
        count += 1.0;
        solved += f64::from(u32::from(taken.solved));
        walks += taken.walks.ln();
        tries += taken.tries.ln();
        seconds += taken.seconds.ln();
    }
    let mean = |sum: f64| (sum / count).exp();
    table::figures(
        case,
        &[
            (count, 0),
            (solved, 0),
            (mean(walks), 1),
            (mean(tries), 0),
            (1000.0 * mean(seconds), 2),
        ],
    );
}

/// What an ask on an instance took.
struct Taken {
    solved: bool,
    walks: f64,
    tries: f64,
    seconds: f64,
}

impl Taken {
    fn of(plan: &Plan, tuning: &Tuning, words: usize) -> Self {
        let file = encode(plan);
        let (mut block, mut table) = (vec![0; block_len(plan)], vec![0; words]);
        let mut scratch = vec![0; 1 << plan.units];
        let ask = [word(11, OPEN), word(12, TRIES)];
        let start = Instant::now();
        let effort =
            tuned_ask(&file, &ask, &mut block, &mut table, &mut scratch, tuning).expect("accepted");
        Taken {
            solved: block[0] <= 2,
            seconds: start.elapsed().as_secs_f64(),
            walks: f64::from(effort.walks.max(1)),
            tries: f64::from(effort.tries.max(1)),
        }
    }
}
