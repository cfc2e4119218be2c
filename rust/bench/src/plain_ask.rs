//! The plain twin of an ask, as one would write it in Rust for speed and clarity, without proofs:
//! the file by the plain reader, then prices, probes and the walk that the proved code makes, so
//! that block and table agree word by word.

use crate::plain::{self, VALUE};
use crate::plain_file::File;
use crate::plain_free::Free;
use crate::plain_memo::{query, Memo};
use crate::plain_notes::Notes;
use crate::plain_prices::{self, Prices};
use crate::plain_probes::Probes;
use crate::plain_relaxed::Weeks;
use crate::plain_tuning::{Tuning, TUNED};
use crate::plain_walk::{Spent, Walk};
use crate::plain_week;
use reference::Refusal;

/// The kind of an ask's first word, its ceiling.
const CEILING: u32 = 11;
/// The kind of its second word, its budget.
const BUDGET: u32 = 12;

/// What an ask took.
#[derive(Clone, Copy, Debug, Default, PartialEq, Eq)]
pub struct Effort {
    /// The tries, those of probes too.
    pub tries: u32,
    /// The walks.
    pub walks: u32,
    /// What the memo was asked for.
    pub lookups: u64,
    /// The cheapest runs that it did not have.
    pub misses: u64,
}

/// Answers one ask in the lent words, as the proved call does for a list of it alone, and says what
/// it took.
#[inline(never)]
pub fn ask(
    words: &[u32],
    ask: &[u32; 2],
    answer: &mut [u32],
    table: &mut [u32],
    scratch: &mut [u32],
) -> Result<Effort, Refusal> {
    tuned_ask(words, ask, answer, table, scratch, &TUNED)
}

/// Answers one ask with other settings.
pub fn tuned_ask(
    words: &[u32],
    ask: &[u32; 2],
    answer: &mut [u32],
    table: &mut [u32],
    scratch: &mut [u32],
    tuning: &Tuning,
) -> Result<Effort, Refusal> {
    plain::read(words)?;
    let file = File::new(words);
    accept_ask(ask)?;
    file.accept_lent(answer.len(), table.len(), scratch.len())?;
    table.fill(0);
    scratch.fill(0);
    let answer = &mut answer[..2 + 2 * file.units.len() + file.weeks];
    answer.fill(0);
    let [ceiling, budget] = ask.map(|word| word & VALUE);
    let mut memo = Memo::new(words, scratch);
    let mut notes = Notes::new(table, tuning.choices);
    let Some((free, prices)) = find(&file, &mut memo, tuning) else {
        answer[0] = 2;
        notes.conclude(u64::from(ceiling) + 1);
        return Ok(Effort::default());
    };
    let probes = Probes::new(prices.0.root, ceiling, budget, tuning);
    let mut walk = Walk::new(&file, tuning, prices, notes, memo);
    let (ended, walks) = probes.run(&mut walk, free);
    if ended.is_ok() {
        walk.notes.conclude(walk.limit);
    }
    write_block(&file, &walk, ended, answer);
    Ok(Effort {
        tries: walk.tries,
        walks,
        lookups: walk.memo.lookups,
        misses: walk.memo.misses,
    })
}

/// Prices for the free plant, where these are wanted, and for the plant; none where they show that
/// there is no schedule.
fn find<'a>(
    file: &'a File,
    memo: &mut Memo,
    tuning: &'a Tuning,
) -> Option<(Option<Free<'a>>, (Prices, Weeks))> {
    let free = match tuning.free {
        true => Some(Free::new(file, tuning)?),
        false => None,
    };
    Some((free, plain_prices::find(file, memo, tuning)?))
}

/// The refusals of an ask's own words.
fn accept_ask(ask: &[u32; 2]) -> Result<(), Refusal> {
    if ask[0] >> 28 != CEILING {
        return plain::refuse(9, 0);
    }
    if ask[1] >> 28 != BUDGET {
        return plain::refuse(9, 1);
    }
    if ask[1] & VALUE == 0 {
        return plain::refuse(10, 1);
    }
    Ok(())
}

/// Writes the block, which is all 0: status, cost, starts, runs, mark.
fn write_block(file: &File, walk: &Walk, ended: Result<(), Spent>, block: &mut [u32]) {
    let units = file.units.len();
    block[0] = match (&ended, walk.best) {
        (Ok(()), Some(_)) => 1,
        (Ok(()), None) => 2,
        (Err(_), Some(_)) => 3,
        (Err(_), None) => 4,
    };
    if let Some(best) = walk.best {
        block[1] = walk.limit as u32;
        copy_starts(&best[..units], &mut block[2..]);
        write_runs(file, &best, &mut block[2 + units..]);
    }
    if let Err(Spent(count)) = ended {
        copy_starts(&walk.starts[..count], &mut block[2 + units + file.weeks..]);
    }
}

/// Writes the number of each week's cheapest run when the units start then.
fn write_runs(file: &File, starts: &[u8; 16], runs: &mut [u32]) {
    let mut out = [0; 52];
    for (unit, (of_unit, &start)) in file.units.iter().zip(starts).enumerate() {
        out[of_unit.weeks_from(start)]
            .iter_mut()
            .for_each(|out| *out |= 1 << unit);
    }
    for week in 0..file.weeks {
        let run = plain_week::cheapest(file.words, query(week, out[week]));
        runs[week] = run.map_or(0, |(_, number)| number);
    }
}

fn copy_starts(starts: &[u8], words: &mut [u32]) {
    for (word, &start) in words.iter_mut().zip(starts) {
        *word = u32::from(start);
    }
}

#[cfg(test)]
mod tests {
    use super::{ask, tuned_ask};
    use crate::classes::Class;
    use crate::generated::small_plan;
    use crate::plain_tuning::{Tuning, TUNED};
    use agree::{asked_plan, telling_ceilings, OffCounts, Random};
    use reference::{accept, block_len, check_run, encode, word, Ask, Lent, Plan, Status, Survey};
    use std::collections::{BTreeMap, BTreeSet};
    use std::time::Instant;

    /// The largest ceiling and the largest budget.
    const MOST: u32 = (1 << 28) - 1;

    /// The status of the twin's answer; panics where anything is wrong with it.
    fn checked(survey: &Survey, asked: Ask, table: usize, tuning: &Tuning, seed: u64) -> Status {
        let plan = survey.plan();
        let (length, mut table) = (block_len(plan), vec![7; table]);
        let (mut answer, mut scratch) = (vec![7; length + 1], vec![7; 1 << plan.units]);
        let words = [word(11, asked.ceiling), word(12, asked.budget)];
        let effort = tuned_ask(
            &encode(plan),
            &words,
            &mut answer,
            &mut table,
            &mut scratch,
            tuning,
        );
        let tries = effort.expect("the file and the ask are accepted").tries;
        let told = format!("{asked:?}, block {answer:?}, {tuning:?}, seed {seed}");
        let (block, known) = (&answer[..length], &mut BTreeSet::new());
        let found = check_run(survey, &[asked], block, &table, known).expect(&told);
        let status = found.statuses[0];
        let spent = matches!(status, Status::Best | Status::Spent);
        assert!(tries <= 2 * asked.budget, "{tries} tries, {told}");
        assert!(!spent || tries >= asked.budget, "{tries} tries, {told}");
        assert_eq!(answer[length], 7, "beyond the block, {told}");
        status
    }

    /// 0, the cost of the cheapest schedule and one euro less, some more, the largest that there
    /// is.
    fn ceilings(survey: &Survey) -> Vec<u32> {
        let least = survey
            .cheapest(MOST)
            .map_or(0, |cheapest| cheapest.cost as u32);
        vec![0, least.saturating_sub(1), least, least + 3, MOST]
    }

    /// The settings that an ask takes, and others, so that each mechanism is seen at work alone and
    /// missing, and probes are many though costs are small.
    fn tunings() -> Vec<Tuning> {
        let probing = Tuning {
            first_gap: 16,
            last_gap: 1,
            ..TUNED
        };
        let bare = Tuning {
            rounds: 0,
            probes: false,
            shrinks: false,
            choices: 0,
            ..probing
        };
        let by_states = Tuning {
            sets: 0,
            round_nodes: 4,
            pool: 30,
            short_nodes: 1,
            walk_nodes: 3,
            ..probing
        };
        vec![
            TUNED,
            probing,
            by_states,
            bare,
            Tuning { rounds: 3, ..bare },
            Tuning {
                probes: true,
                ..bare
            },
            Tuning {
                shrinks: true,
                choices: 8,
                ..bare
            },
            Tuning {
                rounds: 1,
                choices: 8,
                ..probing
            },
            Tuning {
                any_order: false,
                ..probing
            },
            Tuning {
                early_tries: 2,
                free_tries: 3,
                ..probing
            },
            Tuning {
                sets: 2,
                walk_nodes: 100,
                ..probing
            },
        ]
    }

    #[test]
    fn answers_on_small_files_are_as_the_reference_says() {
        let mut statuses = BTreeMap::<Status, usize>::new();
        let (tunings, mut off) = (tunings(), OffCounts::default());
        for seed in 0..1400 {
            let survey = Survey::new(&small_plan(seed));
            off.add(survey.plan());
            let places = survey.places().len() as u32;
            let tuning = &tunings[seed as usize % tunings.len()];
            for ceiling in ceilings(&survey) {
                for budget in [1, 2, 3, 4, 6, 9, places / 2 + 1, places + 1, MOST] {
                    let asked = Ask { ceiling, budget };
                    let table = [64, 500][seed as usize % 2];
                    let status = checked(&survey, asked, table, tuning, seed);
                    *statuses.entry(status).or_default() += 1;
                }
            }
        }
        println!("{statuses:?}, {off}");
        assert!(statuses.len() == 4 && statuses.values().all(|&count| count > 300));
        assert!(off.rarest() > 80);
    }

    /// Files with ties, with figures from their whole range, and with OFF costs of each class.
    #[test]
    fn answers_on_files_of_all_kinds_are_as_the_reference_says() {
        let mut statuses = BTreeMap::<Status, usize>::new();
        let (tunings, mut off) = (tunings(), OffCounts::default());
        for seed in 0..700 {
            let mut random = Random::seeded(seed);
            let (weeks, units) = (seed as u32 % 5 + 1, seed as u32 / 5 % 4 + 1);
            let survey = Survey::new(&asked_plan(&mut random, weeks, units));
            off.add(survey.plan());
            let tuning = &tunings[seed as usize % 4];
            for ceiling in telling_ceilings(&survey, &mut random) {
                for budget in [1, 2, random.within(3, 50), MOST] {
                    let asked = Ask { ceiling, budget };
                    let status = checked(&survey, asked, 64, tuning, seed);
                    *statuses.entry(status).or_default() += 1;
                }
            }
        }
        println!("{statuses:?}, {off}");
        assert!(statuses.len() == 4 && statuses.values().all(|&count| count > 100));
        assert!(off.rarest() > 80);
    }

    /// Budgets 1, 2, 3 and so on up to what an ask takes, so that tries run out in every probe, in the
    /// descent and in the walk.
    #[test]
    fn every_budget_up_to_enough_is_answered_as_the_reference_says() {
        let mut statuses = BTreeMap::<Status, usize>::new();
        for seed in 0..150 {
            let mut random = Random::seeded(seed);
            let (weeks, units) = (seed as u32 % 4 + 2, seed as u32 / 4 % 3 + 2);
            let survey = Survey::new(&asked_plan(&mut random, weeks, units));
            let tuning = &tunings()[seed as usize % 3];
            for ceiling in ceilings(&survey) {
                for budget in 1..80 {
                    let asked = Ask { ceiling, budget };
                    let status = checked(&survey, asked, 64, tuning, seed);
                    *statuses.entry(status).or_default() += 1;
                    if matches!(status, Status::Plan | Status::None) {
                        break;
                    }
                }
            }
        }
        println!("{statuses:?}");
        assert!(statuses.len() == 4 && statuses.values().all(|&count| count > 100));
    }

    /// What was found by an ask on an instance under an open ceiling: the status and the cost.
    fn solved(plan: &Plan, tries: u32, told: &str) -> (u32, u32) {
        let Lent {
            answers, scratch, ..
        } = enough(plan);
        let (mut answer, mut table) = (vec![0; answers], vec![0; 16_384]);
        let (words, start) = ([word(11, MOST), word(12, tries)], Instant::now());
        let effort = ask(
            &encode(plan),
            &words,
            &mut answer,
            &mut table,
            &mut vec![0; scratch],
        );
        let (tries, seconds) = (effort.expect("accepted").tries, start.elapsed());
        println!("{told}: {:?}, {tries} tries, {seconds:?}", &answer[..2]);
        (answer[0], answer[1])
    }

    /// A bound that is worse with OFF costs than without would leave most of these spent.
    #[test]
    fn instances_with_off_costs_are_solved() {
        let mut plans = 0;
        for class in Class::warm() {
            for number in 1..=3 {
                let (plan, name) = (class.plan(number), class.name());
                let (status, _) = solved(&plan, 1_000_000, &format!("{name} {number}"));
                plans += usize::from(status == 1);
            }
        }
        assert!(plans >= 14, "{plans} of 15");
    }

    /// The numbers of words that are just enough for a plan.
    fn enough(plan: &Plan) -> Lent {
        Lent {
            answers: block_len(plan),
            table: 64,
            scratch: 1 << plan.units,
        }
    }

    /// Panics unless the twin refuses, or answers, as the reference says; refused, it changes none
    /// of the lent words.
    fn check_refusal(words: &[u32], asked: &[u32; 2], lent: Lent) {
        let expected = accept(words, asked, lent).map(|_| ());
        let before = [lent.answers, lent.table, lent.scratch].map(|length| vec![7; length]);
        let mut words_lent = before.clone();
        let [answer, table, scratch] = &mut words_lent;
        let got = ask(words, asked, answer, table, scratch).map(|_| ());
        assert_eq!(got, expected, "{asked:?}, {lent:?}");
        assert!(got.is_ok() || words_lent == before, "{expected:?}");
    }

    #[test]
    fn refusals_are_those_of_the_reference() {
        let plan = small_plan(30);
        let (words, lent) = (encode(&plan), enough(&plan));
        for ceiling in [word(11, 0), word(11, MOST), word(12, 1), 0, u32::MAX] {
            for budget in [word(12, 0), word(12, 1), word(12, MOST), word(11, 0), 1] {
                let asked = [ceiling, budget];
                for table in [63, 64, 16_384, 16_385] {
                    check_refusal(&words, &asked, Lent { table, ..lent });
                }
                let answers = lent.answers - 1;
                check_refusal(&words, &asked, Lent { answers, ..lent });
                let scratch = lent.scratch - 1;
                check_refusal(&words, &asked, Lent { scratch, ..lent });
                check_refusal(&words[1..], &asked, lent);
            }
        }
    }
}
