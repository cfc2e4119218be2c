//! The proved reader against the reference, number and place of every refusal: each cause, the
//! order of tests, and files that are legal, cut short or too long.

use agree::{
    all_pairs, border_plans, largest, off_damages, random_plan, recounted, small_plans, smallest,
    Counts, OffClass, Random, Verdict,
};
use reference::{encode, example_a_words, word, Plan, Refusal};

fn refused(number: u32, place: usize) -> Verdict {
    Err(Refusal { number, place })
}

/// Every shorter file is refused for ending, at its length.
fn sweep_truncations(plan: &Plan, counts: &mut Counts) {
    let words = encode(plan);
    for length in 0..words.len() {
        let verdict = counts.agreed(&words[..length], format_args!("cut at {length}"));
        assert_eq!(verdict, refused(1, length));
    }
    assert_eq!(counts.agreed(&words, format_args!("whole")), Ok(()));
}

/// A longer file is refused at the first word after the end word, whatever the words are.
fn sweep_extensions(plan: &Plan, counts: &mut Counts) {
    let words = encode(plan);
    let end = words[words.len() - 1];
    let next_end = word(15, words.len() as u32);
    let pair = word(10, 34);
    let tails = [
        vec![0],
        vec![end],
        vec![next_end],
        vec![pair],
        vec![u32::MAX],
        vec![end, end, end],
        vec![pair, next_end],
        words.clone(),
    ];
    for tail in tails {
        let longer = [&words[..], &tail].concat();
        let verdict = counts.agreed(&longer, format_args!("{} words more", tail.len()));
        assert_eq!(verdict, refused(7, words.len()));
    }
}

#[test]
fn file_a_is_accepted() {
    let mut counts = Counts::default();
    let verdict = counts.agreed(&example_a_words(), format_args!("file A"));
    assert_eq!(verdict, Ok(()));
}

#[test]
fn files_at_the_borders_of_size_range_window_and_pairs_are_accepted() {
    let mut counts = Counts::default();
    for (case, plan) in border_plans().iter().enumerate() {
        let verdict = counts.agreed(&encode(plan), format_args!("border plan {case}"));
        assert_eq!(verdict, Ok(()), "border plan {case}");
    }
    assert_eq!(encode(&largest()).len(), 2720);
    assert!(counts.accepted() > 100);
    counts.report("borders");
}

#[test]
fn random_legal_files_are_accepted() {
    let small = Counts::over_seeds(4000, |random| encode(&random_plan(random, 8, 16)));
    let any = Counts::over_seeds(400, |random| encode(&random_plan(random, 52, 16)));
    assert_eq!((small.accepted(), any.accepted()), (4000, 400));
    assert!(small.off().rarest() > 500 && any.off().rarest() > 50);
    small.report("random legal, small");
    any.report("random legal, any size");
}

/// Verdicts written out by hand from document 01, on file A with one word replaced.
#[test]
fn each_cause_has_its_number_and_place_in_file_a() {
    let cases = [
        (0, word(2, 3), 1),             // another kind than due
        (0, word(1, 0), 2),             // no week
        (0, word(1, 53), 2),            // a week too many
        (1, word(2, 0), 2),             // no unit
        (1, word(2, 17), 2),            // a unit too many
        (2, word(3, 17), 2),            // a crew too many
        (4, word(4, 16_000_001), 2),    // demand
        (4, word(5, 16_000_001), 1),    // kind comes before range
        (9, word(5, 1_000_001), 2),     // capacity
        (7, word(6, 0), 2),             // a window without either week
        (7, word(6, 64), 2),            // latest 0 is out of range, not before earliest
        (7, word(6, 4 * 64 + 1), 2),    // earliest after W: range comes before relation
        (7, word(6, 3 * 64 + 2), 3),    // latest before earliest
        (7, word(6, 268_435_455), 2),   // no week has so large a number
        (8, word(7, 0), 2),             // no duration
        (11, word(7, 4), 2),            // a duration over W
        (12, word(8, 250_001), 2),      // maintenance cost
        (12, word(9, 5), 1),            // running cost where maintenance cost is due
        (23, word(9, 250_001), 2),      // running cost
        (23, word(10, 34), 1),          // a pair where a cost is due
        (24, word(9, 4), 1),            // a cost too many
        (24, word(0, 250_001), 2),      // OFF cost
        (24, word(10, 33), 4),          // a = b
        (24, word(10, 65), 4),          // a > b
        (24, word(10, 2), 4),           // a = 0
        (24, word(10, 35), 4),          // b over U
        (24, word(10, 0), 4),           // a pair has no range of its own
        (24, word(10, 268_435_455), 4), // nor at the other end
        (24, word(15, 23), 6),          // the end word counts one too few
        (24, word(15, 25), 6),          // one too many
        (24, word(15, 268_435_455), 6), // the end word has no range of its own
        (24, word(11, 24), 1),          // a kind of the asks
    ];
    let mut counts = Counts::default();
    for (place, new, number) in cases {
        let mut words = example_a_words();
        words[place] = new;
        let verdict = counts.agreed(&words, format_args!("word {place} of A is {new:#x}"));
        assert_eq!(verdict, refused(number, place));
    }
}

/// Verdicts written out by hand from document 01, on pairs after a smallest file of 3 units.
#[test]
fn pairs_have_to_be_legal_and_rise() {
    let cases: [(&[u32], Verdict); 9] = [
        (&[], Ok(())),
        (&[34, 35, 67], Ok(())),
        (&[34, 34], refused(4, 20)),
        (&[35, 34], refused(4, 20)),
        (&[34, 67, 35], refused(4, 21)),
        (&[34, 36], refused(4, 20)),
        (&[1], refused(4, 19)),
        (&[99], refused(4, 19)),
        (&[131], refused(4, 19)),
    ];
    let mut counts = Counts::default();
    let mut words = encode(&smallest(1, 3));
    words.pop();
    assert_eq!(words.len(), 19);
    for (pairs, expected) in cases {
        let mut file = words.clone();
        file.extend(pairs.iter().map(|&pair| word(10, pair)));
        file.push(word(15, file.len() as u32));
        let verdict = counts.agreed(&file, format_args!("pairs {pairs:?}"));
        assert_eq!(verdict, expected);
    }
}

/// OFF costs after the 24 words of file A before its end word: all six or none.
#[test]
fn off_costs_are_all_there_or_none() {
    let mut counts = Counts::default();
    let words = &example_a_words()[..24];
    for count in 0..=8 {
        for tail in [vec![], vec![word(10, 34)]] {
            let off = vec![word(0, 250_000); count];
            let mut file = [words, &off, &tail].concat();
            let end = file.len();
            file.push(word(15, end as u32));
            let expected = match count {
                0 | 6 => Ok(()),
                // fewer: at the word after them; more: at the seventh
                _ => refused(1, 24 + count.min(6)),
            };
            let verdict = counts.agreed(&file, format_args!("{count} OFF costs"));
            assert_eq!(verdict, expected, "{count} OFF costs");
            // without its end word it ends, there or before
            let place = if expected.is_ok() {
                end
            } else {
                24 + count.min(6)
            };
            let verdict = counts.agreed(&file[..end], format_args!("{count}, cut"));
            assert_eq!(verdict, refused(1, place), "{count} OFF costs, cut");
        }
    }
    assert_eq!(counts.accepted(), 4);
}

/// The OFF costs of files of every class damaged in every way, with the refusals that are due.
#[test]
fn every_damage_of_off_costs_is_refused() {
    let mut counts = Counts::default();
    let mut random = Random::seeded(0);
    let with_off = |plan: Plan, random: &mut Random| {
        let classes = OffClass::ALL[1..].iter();
        let off: Vec<_> = classes
            .map(|class| class.costs(&plan.running, random))
            .collect();
        off.into_iter().map(move |off| Plan {
            off,
            ..plan.clone()
        })
    };
    let mut plans = small_plans();
    plans.extend((0..20).map(|_| random_plan(&mut random, 4, 4)));
    for plan in plans.into_iter().filter(|plan| plan.weeks < 52) {
        for plan in with_off(plan, &mut random) {
            for (damaged, refusal) in off_damages(&plan) {
                let verdict = counts.agreed(&damaged, format_args!("damaged OFF costs"));
                assert_eq!(verdict, Err(refusal));
            }
        }
    }
    let damages = off_damages(&largest());
    for (damaged, refusal) in damages.into_iter().step_by(101) {
        let verdict = counts.agreed(&damaged, format_args!("damaged OFF costs, largest"));
        assert_eq!(verdict, Err(refusal));
    }
    counts.report("damaged OFF costs");
    assert_eq!(counts.numbers(), [1, 2]);
    assert!(counts.total() > 10_000 && counts.places() > 100);
}

#[test]
fn a_pair_in_a_file_of_one_unit_is_refused_as_a_pair() {
    let mut counts = Counts::default();
    let mut words = encode(&smallest(1, 1));
    let end = words.len() - 1;
    for value in 0..1024 {
        words[end] = word(10, value);
        let verdict = counts.agreed(&words, format_args!("pair {value}"));
        assert_eq!(verdict, refused(4, end));
    }
}

/// In a file with two faults the first word at fault decides, not the smaller number.
#[test]
fn the_first_fault_decides() {
    let mut counts = Counts::default();
    let mut words = example_a_words();
    words[24] = word(15, 0);
    words[23] = word(9, 250_001);
    let verdict = counts.agreed(&words, format_args!("2 before 6"));
    assert_eq!(verdict, refused(2, 23));
    words[10] = word(6, 2 * 64 + 1);
    words[12] = word(1, 1);
    let verdict = counts.agreed(&words, format_args!("3 before 1"));
    assert_eq!(verdict, refused(3, 10));
}

#[test]
fn a_file_cut_short_is_refused_at_its_length() {
    let mut counts = Counts::default();
    for plan in small_plans() {
        sweep_truncations(&plan, &mut counts);
    }
    sweep_truncations(&largest(), &mut counts);
    assert_eq!(counts.numbers(), [1]);
    counts.report("cut short");
}

#[test]
fn words_after_the_end_word_are_refused_at_the_first() {
    let mut counts = Counts::default();
    for plan in border_plans() {
        sweep_extensions(&plan, &mut counts);
    }
    assert_eq!(counts.numbers(), [7]);
    assert_eq!(counts.accepted(), 0);
    counts.report("too long");
}

/// A wrong end word is refused for its value, also where words follow it.
#[test]
fn a_wrong_end_value_comes_before_words_after_the_end() {
    let mut counts = Counts::default();
    let mut words = example_a_words();
    words[24] = word(15, 25);
    words.push(word(15, 25));
    let verdict = counts.agreed(&words, format_args!("6 before 7"));
    assert_eq!(verdict, refused(6, 24));
}

/// All 120 pairs of 16 units are there, so a further one is never legal and rising: refusal 4
/// takes it, and refusal 5, which is tested after it, never arises.
#[test]
fn a_121st_pair_is_refused_as_4_and_never_as_5() {
    let mut counts = Counts::default();
    let plan = Plan {
        pairs: all_pairs(16),
        ..smallest(1, 16)
    };
    let words = encode(&plan);
    let (first, end) = (words.len() - 121, words.len() - 1);
    let mut last: Vec<u32> = (0..1024).map(|value| word(10, value)).collect();
    last.extend((10..28).map(|bit| word(10, (1 << bit) + 34)));
    for new in last {
        let verdict = counts.agreed(&with_inserted(&words, end, new), format_args!("{new:#x}"));
        assert_eq!(verdict, refused(4, end));
    }
    for place in first..=end {
        for &(a, b) in &plan.pairs {
            let longer = with_inserted(&words, place, word(10, a * 32 + b));
            let verdict = counts.agreed(&longer, format_args!("pair {a} {b} at {place}"));
            assert_eq!(verdict.map_err(|refusal| refusal.number), Err(4));
        }
    }
    assert_eq!(counts.numbers(), [4]);
    counts.report("121st pair");
}

/// The file with one word more, and its end word counting it.
fn with_inserted(words: &[u32], place: usize, new: u32) -> Vec<u32> {
    let mut longer = words.to_vec();
    longer.insert(place, new);
    recounted(longer)
}
