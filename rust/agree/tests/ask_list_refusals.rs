//! Lists of asks that are refused: every refusal in its order, and damaged files, lists and memory.

use agree::{asked_plan, edited, smallest, Answers, AskedFile, Buffers, Random, MOST};
use reference::{
    ask_words, block_len, encode, example_a_words, word, words_from, Ask, Refusal, Status,
};

/// A list's words, and the number and place of its refusal in good memory.
type Listed = (Vec<u32>, Option<(u32, usize)>);

/// Lists of asks for file A, good ones and bad ones.
fn lists() -> Vec<Listed> {
    let good = "11:100 12:12 11:18 12:1 ";
    let with = |text: &str, refusal| (words_from(text), refusal);
    vec![
        with("11:100 12:12", None),
        with(good, None),
        with(&good.repeat(16), None),
        with("", Some((8, 0))),
        with("11:100", Some((8, 0))),
        with("12:0", Some((8, 0))),
        with("0:0 0:0 0:0", Some((8, 0))),
        with(&good.repeat(17)[..], Some((8, 0))),
        with(&("0:0 ".repeat(65) + "15:7"), Some((8, 0))),
        with("12:12 11:100", Some((9, 0))),
        with("11:100 11:100", Some((9, 1))),
        with("11:100 12:12 12:1 12:0", Some((9, 2))),
        with("11:100 12:12 11:1 13:0", Some((9, 3))),
        with("11:100 12:0", Some((10, 1))),
        with("11:100 12:1 11:0 12:0 0:0 12:0", Some((10, 3))),
        with("11:100 12:0 0:0 0:0", Some((10, 1))),
    ]
}

/// Every combination of a good or bad file, list, table, answers and scratch: the refusal is that of
/// the first in the order of tests.
#[test]
fn every_refusal_comes_in_its_order() {
    let mut answers = Answers::default();
    let words = example_a_words();
    let files = [
        (words.clone(), None),
        (words[..7].to_vec(), Some((1, 7))),
        ([&words[..], &[7]].concat(), Some((7, 25))),
        (vec![], Some((1, 0))),
    ];
    let mut calls = 0;
    for (words, bad_file) in files {
        let mut file = AskedFile::new(words);
        for (asks, bad_list) in lists() {
            let block = asks.len() / 2 * 9;
            for table in [0, 63, 64, 16_384, 16_385] {
                for less in [0, 1] {
                    for scratch in [3, 4, 5] {
                        let enough = block.saturating_sub(less);
                        let mut lent = Buffers::alike(enough, table, scratch);
                        let origin = format_args!("{enough}, {table}, {scratch} lent");
                        let said = answers.agreed(&mut file, &asks, &mut lent, origin);
                        let tabled = (64..=16_384).contains(&table);
                        let bad_memory = match (tabled, less, scratch) {
                            (false, _, _) => Some((13, 0)),
                            (_, 1, _) => Some((14, 0)),
                            (_, _, 3) => Some((15, 0)),
                            _ => None,
                        };
                        let first = bad_file.or(bad_list).or(bad_memory);
                        let told = said.err().map(|refusal| (refusal.number, refusal.place));
                        assert_eq!(told, first, "{asks:?}, {origin}");
                        calls += 1;
                    }
                }
            }
        }
    }
    assert_eq!(calls, 4 * 16 * 5 * 2 * 3);
    answers.report("every refusal of lists");
    assert_eq!(answers.refusals(), [1, 7, 8, 9, 10, 13, 14, 15]);
}

/// In lists of every length each word is given each other kind in turn, and each budget is 0 in turn.
#[test]
fn every_place_of_an_ask_word_is_refused_with_its_place() {
    let mut answers = Answers::default();
    let mut file = AskedFile::new(example_a_words());
    let mut said = |asks: &[u32]| {
        let mut lent = Buffers::alike(32 * 9, 64, 4);
        answers.agreed(&mut file, asks, &mut lent, format_args!("one word"))
    };
    for count in 1..=32 {
        let good = words_from(&"11:18 12:12 ".repeat(count));
        assert_eq!(said(&good), Ok(vec![Status::None; count]));
        for place in 0..good.len() {
            let mut bad = good.clone();
            let due = 11 + place as u32 % 2;
            let kind = (due + 1 + (place + count) as u32 % 15) % 16;
            bad[place] = word(kind, 12);
            assert_eq!(said(&bad), Err(Refusal { number: 9, place }));
            if due == 12 {
                bad[place] = word(12, 0);
                assert_eq!(said(&bad), Err(Refusal { number: 10, place }));
            }
        }
    }
    answers.report("every place of an ask word");
    assert_eq!(answers.refusals(), [9, 10]);
    assert_eq!(answers.places(), 64);
}

/// Answers of just enough words, one fewer and some more, for every number of asks.
#[test]
fn answer_words_just_enough_or_one_fewer_are_told_apart() {
    let mut answers = Answers::default();
    let mut file = AskedFile::new(example_a_words());
    for count in 1..=32 {
        let asks = words_from(&"11:100 12:12 ".repeat(count));
        for length in [0, 9 * count - 1, 9 * count, 9 * count + 1, 9 * 33] {
            let mut lent = Buffers::alike(length, 64, 4);
            let origin = format_args!("{count} asks, {length} words");
            let said = answers.agreed(&mut file, &asks, &mut lent, origin);
            let number = said.map_err(|refusal| refusal.number);
            let expected = match length < 9 * count {
                true => Err(14),
                false => Ok(vec![Status::Plan; count]),
            };
            assert_eq!(number, expected, "{origin}");
        }
    }
    assert_eq!(answers.runs(), 32 * 3);
}

/// The words of a list after a random edit or two: a word of any kind, two swapped, one taken out or
/// put in, a budget of 0, or asks without end.
fn edited_asks(asks: &[u32], random: &mut Random) -> Vec<u32> {
    let mut asks = asks.to_vec();
    for _ in 0..random.within(1, 2) {
        if asks.is_empty() {
            return asks;
        }
        let (place, other) = (random.place(asks.len()), random.place(asks.len()));
        match random.within(0, 7) {
            0 => asks[place] = random.word(),
            1 => asks[place] = word(random.within(10, 13), random.edgy(0, MOST)),
            2 => asks.swap(place, other),
            3 => drop(asks.remove(place)),
            4 => asks.insert(place, asks[other]),
            5 => asks[place] = word(12, 0),
            6 => asks = asks.repeat(1 + random.place(33)),
            _ => asks.truncate(place),
        }
        if asks.len() % 2 == 1 && random.once_in(2) {
            asks.pop();
        }
    }
    asks
}

/// Files, lists and memory, each damaged or not.
#[test]
fn damaged_files_lists_and_memory_agree() {
    let mut answers = Answers::default();
    for seed in 0..12_000 {
        let mut random = Random::seeded(seed);
        let plan = asked_plan(&mut random, 3, 2);
        let mut words = encode(&plan);
        if random.once_in(2) {
            words = edited(&words, &plan, &mut random);
        }
        let mut file = AskedFile::new(words);
        let count = random.within(1, 32);
        let ask = |_| Ask {
            ceiling: random.edgy(0, MOST),
            budget: random.edgy(1, 40),
        };
        let asks: Vec<Ask> = (0..count).map(ask).collect();
        let mut asks = ask_words(&asks);
        if random.once_in(2) {
            asks = edited_asks(&asks, &mut random);
        }
        let mut around = |enough: usize| {
            let most = if random.once_in(2) { 2 } else { 40 };
            let length = (enough + random.place(most)).saturating_sub(1);
            random.words(length)
        };
        let mut lent = Buffers {
            answers: around(asks.len() / 2 * block_len(&plan)),
            table: around([64, 66, 16_384][seed as usize % 3]),
            scratch: around(4),
        };
        let _ = answers.agreed(&mut file, &asks, &mut lent, format_args!("seed {seed}"));
    }
    answers.report("damaged files, lists and memory");
    assert_eq!(answers.refusals(), [1, 2, 3, 4, 6, 7, 8, 9, 10, 13, 14, 15]);
    assert!(answers.runs() > 500 && answers.places() > 40);
    assert!(answers.got(Status::Plan) > 1000 && answers.got(Status::None) > 1000);
}

/// The lists above refuse for the causes they are there for, also on the smallest file.
#[test]
fn lists_on_the_smallest_file_agree() {
    let mut answers = Answers::default();
    let mut file = AskedFile::new(encode(&smallest(1, 1)));
    for (asks, refusal) in lists() {
        let mut lent = Buffers::alike(asks.len() / 2 * 5, 64, 2);
        let said = answers.agreed(&mut file, &asks, &mut lent, format_args!("one unit"));
        let told = said.err().map(|refusal| (refusal.number, refusal.place));
        assert_eq!(told, refusal, "{asks:?}");
    }
    assert_eq!(answers.free(), 1 + 2 + 32);
}
