//! Asks under an open ceiling on generated instances, each a list of its own, the proved call beside
//! the plain twin: what an ask takes, then the same as the season gets longer, and as the table of
//! conflicts does.

use crate::classes::Class;
use crate::generated::Scheme;
use crate::plain_ask::{self, Effort};
use crate::table;
use crate::timing::Times;
use reference::{block_len, encode, word, Plan};
use std::hint::black_box;
use std::time::Instant;

/// A ceiling that no schedule is above.
const OPEN: u32 = (1 << 28) - 1;
/// How often each side of a case is timed.
const ROUNDS: usize = 15;
/// The tries of an ask.
const TRIES: u32 = 1_500_000;
/// Asks are timed together for about as many nanoseconds, but for no more than so many of them.
const TOGETHER: (u128, u128) = (20_000_000, 200);
/// The words of the longest table.
const LONGEST: usize = 16_384;

/// Holds the proved call against the plain twin on all asks, times them, prints three tables.
pub fn run() {
    table::preamble(&format!("{ROUNDS} rounds of some calls"));
    time_instances();
    println!();
    time_seasons();
    println!();
    time_tables();
    println!();
    println!("Status: 1 plan, 2 none, 3 spent with a best, 4 spent without one.");
    println!("Tries: all walks'. Lookups: what the memo was asked for, runs and values of weeks.");
    println!("Misses: the runs that it did not have. All three are the twin's.");
}

/// Instances of many sizes.
fn time_instances() {
    println!("open ceiling, {TRIES} tries, table of {LONGEST} words; microseconds an ask");
    table::titles(&["status", "tries", "proved us", "plain us", "proved/plain"]);
    for (case, plan) in instances() {
        let measured = Measured::of(&plan, TRIES, LONGEST);
        let (proved, plain) = measured.microseconds();
        table::figures(
            &case,
            &[
                (f64::from(measured.status), 0),
                (f64::from(measured.effort.tries), 0),
                (proved, 0),
                (plain, 0),
                (measured.times.ratio(), 2),
            ],
        );
    }
}

/// Instances named by their units, their weeks and the demand; narrow windows leave five starts, and
/// warm ones have OFF costs.
fn instances() -> Vec<(String, Plan)> {
    let mid = |units, weeks, crews, seed| Scheme {
        weeks,
        units,
        crews,
        seed,
        ..Scheme::default()
    };
    let cold = [
        ("6x8 mid", mid(6, 8, 2, 168)),
        ("8x13 mid", mid(8, 13, 2, 1813)),
        ("10x13 mid", mid(10, 13, 2, 11_013)),
        ("12x13 mid", mid(12, 13, 3, 11_213)),
        ("15x13 mid", mid(15, 13, 3, 11_513)),
        ("16x20 mid", mid(16, 20, 3, 11_620)),
        ("16x52 mid", mid(16, 52, 2, 11_652)),
        ("15x13 narrow", narrow(5, 2)),
    ];
    let cold = cold.map(|(name, scheme)| (name.to_string(), scheme.plan()));
    let warm = Class::warm().into_iter();
    let warm = warm.map(|class| (format!("{} warm", class.size()), class.plan(1)));
    cold.into_iter().chain(warm).collect()
}

/// 15 units over 13 weeks, with windows that leave so many starts, and so many excluded pairs.
fn narrow(window: u32, pairs: usize) -> Scheme {
    Scheme {
        seed: 711_513,
        window,
        pairs,
        ..Scheme::default()
    }
}

/// The same plant over longer and longer seasons.
fn time_seasons() {
    println!("15 units of the same durations, open ceiling; microseconds an ask");
    table::titles(&[
        "status",
        "tries",
        "lookups",
        "misses",
        "proved us",
        "plain us",
        "proved/plain",
    ]);
    for budget in [20_000, TRIES] {
        for (case, weeks) in [("13 weeks", 13), ("26 weeks", 26), ("52 weeks", 52)] {
            time_season(case, weeks, budget);
        }
    }
}

fn time_season(case: &str, weeks: u32, budget: u32) {
    let season = |weeks| Scheme {
        weeks,
        seed: 11_513,
        ..Scheme::default()
    };
    let (plan, shortest) = (season(weeks).plan(), season(13).plan());
    assert_eq!(plan.duration, shortest.duration, "the plant is the same");
    let measured = Measured::of(&plan, budget, LONGEST);
    let Effort {
        tries,
        lookups,
        misses,
        ..
    } = measured.effort;
    let (proved, plain) = measured.microseconds();
    table::figures(
        case,
        &[
            (f64::from(measured.status), 0),
            (f64::from(tries), 0),
            (lookups as f64, 0),
            (misses as f64, 0),
            (proved, 0),
            (plain, 0),
            (measured.times.ratio(), 2),
        ],
    );
}

/// Files with narrow windows and many pairs, which leave many dead ends of few choices, and tables
/// with room for some of them or for most.
fn time_tables() {
    println!("15x13, windows of 4 or 5 starts, open ceiling; microseconds an ask");
    table::titles(&[
        "status",
        "tries",
        "words used",
        "proved us",
        "plain us",
        "proved/plain",
    ]);
    for (name, scheme) in [("30 pairs", narrow(4, 30)), ("40 pairs", narrow(5, 40))] {
        for length in [64, 1024, LONGEST] {
            let measured = Measured::of(&scheme.plan(), TRIES, length);
            let (proved, plain) = measured.microseconds();
            table::figures(
                &format!("{name}, {length} words"),
                &[
                    (f64::from(measured.status), 0),
                    (f64::from(measured.effort.tries), 0),
                    (measured.used as f64, 0),
                    (proved, 0),
                    (plain, 0),
                    (measured.times.ratio(), 2),
                ],
            );
        }
    }
}

/// What an ask under an open ceiling came to, and what it took.
struct Measured {
    status: u32,
    /// The words of the table up to the last conflict.
    used: usize,
    effort: Effort,
    times: Times,
}

impl Measured {
    /// Asks both sides on a plan with so many tries and words of table; panics where they differ.
    /// Short asks are timed many at a time.
    fn of(plan: &Plan, budget: u32, table: usize) -> Self {
        let words = encode(plan);
        let mut lent = Lent::new(plan, table);
        let start = Instant::now();
        let effort = checked(&words, OPEN, budget, &mut lent);
        let calls = TOGETHER.0 / start.elapsed().as_nanos().max(1);
        let last = lent.table.iter().rposition(|&word| word != 0);
        let (status, used) = (lent.answer[0], last.map_or(0, |last| last + 1));
        let mut other = lent.clone();
        let times = Times::in_rounds(
            ROUNDS,
            calls.clamp(1, TOGETHER.1) as u32,
            || proved(black_box(&words), OPEN, budget, black_box(&mut lent)),
            || plain(black_box(&words), OPEN, budget, black_box(&mut other)),
        );
        Measured {
            status,
            used,
            effort,
            times,
        }
    }

    /// The microseconds for an ask: proved, plain.
    fn microseconds(&self) -> (f64, f64) {
        let (proved, plain) = self.times.medians();
        (proved / 1000.0, plain / 1000.0)
    }
}

/// Words lent to an ask.
#[derive(Clone)]
struct Lent {
    answer: Vec<u32>,
    table: Vec<u32>,
    scratch: Vec<u32>,
}

impl Lent {
    /// As many words as a plan wants, and so many for the table.
    fn new(plan: &Plan, table: usize) -> Self {
        Lent {
            answer: vec![0; block_len(plan)],
            table: vec![0; table],
            scratch: vec![0; 1 << plan.units],
        }
    }
}

fn proved(words: &[u32], ceiling: u32, budget: u32, lent: &mut Lent) {
    let Lent {
        answer,
        table,
        scratch,
    } = lent;
    let ask = [word(11, ceiling), word(12, budget)];
    ffi::run(words, &ask, answer, table, scratch).expect("accepted");
}

fn plain(words: &[u32], ceiling: u32, budget: u32, lent: &mut Lent) -> Effort {
    let Lent {
        answer,
        table,
        scratch,
    } = lent;
    let ask = [word(11, ceiling), word(12, budget)];
    plain_ask::ask(words, &ask, answer, table, scratch).expect("accepted")
}

/// What the twin took; panics unless the proved call leaves the same block, which is then in the
/// lent words, where neither is spent.
fn checked(words: &[u32], ceiling: u32, budget: u32, lent: &mut Lent) -> Effort {
    let mut expected = lent.clone();
    let effort = plain(words, ceiling, budget, &mut expected);
    proved(words, ceiling, budget, lent);
    if lent.answer[0] < 3 && expected.answer[0] < 3 {
        assert_eq!(lent.answer, expected.answer, "proved block, then plain");
    }
    effort
}

/// These link the archive of the proved code, as all tests of `agree` do.
#[cfg(test)]
mod tests {
    use super::{checked, instances, narrow, plain, proved, Lent, OPEN};
    use crate::classes::Class;
    use crate::generated::small_plan;
    use reference::encode;

    /// Panics unless the proved call leaves the same block and the same table as the twin, which
    /// are then in the lent words.
    fn checked_words(words: &[u32], ceiling: u32, budget: u32, lent: &mut Lent) {
        let mut expected = lent.clone();
        plain(words, ceiling, budget, &mut expected);
        proved(words, ceiling, budget, lent);
        assert_eq!(lent.answer, expected.answer, "proved block, then plain");
        assert!(lent.table == expected.table, "the tables differ");
    }

    /// Asks about small files as `check` does it.
    fn sweep_small(check: impl Fn(&[u32], u32, u32, &mut Lent)) {
        for seed in 0..600 {
            let plan = small_plan(seed);
            let mut lent = Lent::new(&plan, [64, 500][seed as usize % 2]);
            let words = encode(&plan);
            check(&words, OPEN, OPEN, &mut lent);
            let cost = lent.answer[1];
            for ceiling in [0, cost.saturating_sub(1), cost, OPEN] {
                for budget in [1, 2, 3, 5, 10, 20, 50] {
                    check(&words, ceiling, budget, &mut lent);
                }
            }
        }
    }

    /// Asks about generated files as `check` does it.
    fn sweep_generated(check: impl Fn(&[u32], u32, u32, &mut Lent)) {
        let noting = [narrow(4, 30), narrow(5, 40)];
        let warm = Class::warm().into_iter().map(|class| class.plan(2));
        let plans = instances().into_iter().map(|(_, plan)| plan);
        for plan in plans.chain(noting.map(|scheme| scheme.plan())).chain(warm) {
            for table in [64, 100, 1024, 16_384] {
                let mut lent = Lent::new(&plan, table);
                for budget in [1, 20, 1000, 30_000] {
                    check(&encode(&plan), OPEN, budget, &mut lent);
                }
            }
        }
    }

    #[test]
    fn proved_and_plain_give_the_same_answers_on_small_files() {
        sweep_small(|words, ceiling, budget, lent| {
            checked(words, ceiling, budget, lent);
        });
    }

    #[test]
    fn proved_and_plain_give_the_same_answers_on_generated_ones() {
        sweep_generated(|words, ceiling, budget, lent| {
            checked(words, ceiling, budget, lent);
        });
    }

    #[test]
    fn proved_and_plain_leave_the_same_words_on_small_files() {
        sweep_small(checked_words);
    }

    #[test]
    fn proved_and_plain_leave_the_same_words_on_generated_ones() {
        sweep_generated(checked_words);
    }
}
