//! The reader and the loader on the longest legal file, whole and with a fault near its end.

use crate::buffers::Buffers;
use crate::timing::Times;
use crate::{plain, table};
use agree::{largest, proved_verdict, replacements, small_plans};
use reference::{bytes_of, encode, word, Plan};
use std::cell::RefCell;
use std::hint::black_box;

/// Holds the plain twins against the reference, times both sides, prints the table.
pub fn run() {
    let cases = cases();
    check_plain(&cases);
    table::heading();
    for (case, words) in &cases {
        table::row(case, words.len(), &time_read(words));
    }
    let whole = &cases[0].1;
    table::row("bytes to words", whole.len(), &time_load(&bytes_of(whole)));
    println!();
    println!("A refused file takes two calls of the proved reader: for the number, for the place.");
    println!("Bytes to words: both sides write the same lent words, not cleared between calls.");
    println!("Where the linker puts the proved reader's code can change its figures by a third.");
}

fn time_read(words: &[u32]) -> Times {
    Times::in_turns(
        || ffi::read(black_box(words)),
        || plain::read(black_box(words)),
    )
}

/// Both sides take the same bytes and write the same lent words.
fn time_load(bytes: &[u8]) -> Times {
    let mut buffers = Buffers::with(bytes);
    let (bytes, words) = buffers.split(bytes.len() / 4);
    let lent = RefCell::new(words);
    Times::in_turns(
        || ffi::load(black_box(bytes), black_box(&mut lent.borrow_mut())),
        || plain::load(black_box(bytes), black_box(&mut lent.borrow_mut())),
    )
}

/// The longest legal file, the same without OFF costs, and five damaged versions, named; the longest
/// first.
fn cases() -> Vec<(&'static str, Vec<u32>)> {
    let whole = encode(&largest());
    let end = whole.len() - 1;
    let with = |place: usize, new: u32| {
        let mut words = whole.clone();
        words[place] = new;
        words
    };
    let longer = [&whole[..], &[whole[end]]].concat();
    let cold = Plan {
        off: None,
        ..largest()
    };
    vec![
        ("accepted", whole.clone()),
        ("accepted, no OFF costs", encode(&cold)),
        ("1: end word missing", whole[..end].to_vec()),
        (
            "2: last OFF cost too high",
            with(end - 121, word(0, 250_001)),
        ),
        (
            "4: last pair not above the last",
            with(end - 1, whole[end - 2]),
        ),
        ("6: end value wrong", with(end, word(15, 0))),
        ("7: a word after the end word", longer),
    ]
}

/// Panics unless the plain twins say what the reference says: on the timed cases, on every
/// single-word damage of the small files, and on their truncations; and the proved code too on
/// the timed cases.
fn check_plain(cases: &[(&str, Vec<u32>)]) {
    for (case, words) in cases {
        assert_eq!(proved_verdict(words), verdict(words), "{case}");
        check_read(words);
    }
    for plan in small_plans() {
        let words = encode(&plan);
        let mut damaged = words.clone();
        for place in 0..words.len() {
            check_read(&words[..place]);
            for new in replacements(&words, place, &plan) {
                damaged[place] = new;
                check_read(&damaged);
            }
            damaged[place] = words[place];
        }
    }
    check_load(&bytes_of(&cases[0].1));
}

fn verdict(words: &[u32]) -> Result<(), reference::Refusal> {
    reference::read(words).map(|_| ())
}

fn check_read(words: &[u32]) {
    assert_eq!(plain::read(words), verdict(words), "plain reader");
}

fn check_load(bytes: &[u8]) {
    for (count, lent) in [(bytes.len(), 3000), (bytes.len(), 9), (7, 1), (0, 0)] {
        let mut words = vec![7; lent];
        let expected = reference::load(&bytes[..count], lent);
        let loaded = plain::load(&bytes[..count], &mut words);
        assert_eq!(loaded, expected.clone().map(|words| words.len()));
        let written = expected.unwrap_or_default();
        assert!(words.starts_with(&written) && words[written.len()..].iter().all(|&w| w == 7));
    }
}
