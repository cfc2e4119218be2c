//! The proved reader against the reference on files damaged in one word or several, and on random
//! words: number and place of every refusal.

use agree::{
    edited, largest, near, random_from, random_plan, recounted, replacements, small_plans, Counts,
};
use reference::{encode, Plan};

/// The plan's file with each telling word at each of the places.
fn sweep_places(plan: &Plan, places: impl Iterator<Item = usize>, counts: &mut Counts) {
    let words = encode(plan);
    let mut damaged = words.clone();
    for place in places {
        for new in replacements(&words, place, plan) {
            damaged[place] = new;
            let _ = counts.agreed(&damaged, format_args!("word {place} replaced by {new:#x}"));
        }
        damaged[place] = words[place];
    }
}

#[test]
fn every_single_word_damage_of_small_files_agrees() {
    let mut counts = Counts::default();
    for plan in small_plans() {
        let length = encode(&plan).len();
        sweep_places(&plan, 0..length, &mut counts);
    }
    assert_eq!(counts.numbers(), [1, 2, 3, 4, 6]);
    assert!(counts.accepted() > 1000 && counts.total() > 50_000);
    counts.report("single word, small files");
}

#[test]
fn every_word_deleted_doubled_or_swapped_in_small_files_agrees() {
    let mut counts = Counts::default();
    for plan in small_plans() {
        let words = encode(&plan);
        for place in 0..words.len() {
            let mut shorter = words.clone();
            shorter.remove(place);
            let mut longer = words.clone();
            longer.insert(place, words[place]);
            let mut swapped = words.clone();
            swapped.swap(place, (place + 1) % words.len());
            for file in [shorter, longer, swapped] {
                let _ = counts.agreed(&file, format_args!("word {place} moved"));
                let _ = counts.agreed(&recounted(file), format_args!("word {place}, recounted"));
            }
        }
    }
    assert_eq!(counts.numbers(), [1, 4, 6, 7]);
    counts.report("deleted, doubled, swapped");
}

#[test]
fn sampled_single_word_damage_of_the_largest_file_agrees() {
    let mut counts = Counts::default();
    let plan = largest();
    let length = encode(&plan).len();
    let head = (0..8).chain((50..110).step_by(7));
    let middle = (110..length - 130).step_by(97);
    let tail = (length - 130..length).step_by(13);
    let places = head
        .chain(middle)
        .chain(tail)
        .chain([length - 2, length - 1]);
    sweep_places(&plan, places, &mut counts);
    assert_eq!(counts.numbers(), [1, 2, 3, 4, 6]);
    assert!(counts.accepted() > 500);
    counts.report("single word, largest file");
}

/// Nearly every such list is refused at its first word; the next test gets further.
#[test]
fn lists_of_any_words_agree() {
    let counts = Counts::over_seeds(500, |random| {
        let length = random.place(60);
        random.words(length)
    });
    assert_eq!(counts.numbers(), [1, 2]);
    assert_eq!(counts.accepted(), 0);
    counts.report("any words");
}

/// The beginning is of any length, from no word to the whole file, so the first word at fault is
/// anywhere: of more than 100 places one at least is beyond the first 100 words.
#[test]
fn random_words_after_a_legal_beginning_agree() {
    let counts = Counts::over_seeds(10_000, |random| {
        let plan = random_plan(random, 6, 6);
        let words = encode(&plan);
        let place = random.place(words.len() + 1);
        random_from(&words, place, &plan, random)
    });
    assert_eq!(counts.numbers(), [1, 2, 3, 4, 6, 7]);
    assert!(counts.places() > 100);
    counts.report("random words after a legal beginning");
}

/// The kinds of a legal file, with values that are legal for the most part and else near it.
#[test]
fn lists_with_the_kinds_of_a_legal_file_agree() {
    let counts = Counts::over_seeds(5000, |random| {
        let plan = random_plan(random, 6, 6);
        let mut words = encode(&plan);
        for old in &mut words {
            if random.once_in(40) {
                *old = near(*old, &plan, random);
            }
        }
        words
    });
    assert_eq!(counts.numbers(), [1, 2, 3, 4, 6]);
    assert!(counts.accepted() > 1000 && counts.off().rarest() > 100);
    counts.report("kinds of a legal file");
}

#[test]
fn legal_files_with_several_words_edited_agree() {
    let counts = Counts::over_seeds(10_000, |random| {
        let plan = random_plan(random, 6, 6);
        edited(&encode(&plan), &plan, random)
    });
    assert_eq!(counts.numbers(), [1, 2, 3, 4, 6, 7]);
    assert!(counts.accepted() > 100 && counts.off().rarest() > 10);
    counts.report("several words edited");
}
