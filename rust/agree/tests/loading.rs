//! Bytes to words: the proved call against the reference, with every lent word looked at.

use agree::Random;
use reference::{bytes_of, example_a_words, load, Refusal};

/// Loads `bytes` into `dirty` words by the proved call and holds the result and every lent word
/// against the reference: the words and then what was there before, or all of it where refused.
fn agreed(bytes: &[u8], dirty: &[u32], seed: u64) -> Result<usize, Refusal> {
    let mut lent = dirty.to_vec();
    let proved = ffi::load(bytes, &mut lent).map_err(|refusal| Refusal {
        number: refusal.number,
        place: refusal.place,
    });
    let expected = load(bytes, dirty.len());
    let mut after = dirty.to_vec();
    if let Ok(words) = &expected {
        after[..words.len()].copy_from_slice(words);
    }
    let count = expected.map(|words| words.len());
    let sizes = (bytes.len(), dirty.len());
    assert_eq!(proved, count, "bytes and lent {sizes:?}, seed {seed}");
    assert_eq!(lent, after, "bytes and lent {sizes:?}, seed {seed}");
    count
}

#[test]
fn the_lowest_byte_comes_first() {
    let mut words = [7, 8, 9];
    let bytes = [0x04, 0x03, 0x02, 0x01, 0xFF, 0xFE, 0x80, 0x90];
    assert_eq!(ffi::load(&bytes, &mut words), Ok(2));
    assert_eq!(words, [0x0102_0304, 0x9080_FEFF, 9]);
}

#[test]
fn every_byte_counts_in_every_position() {
    for position in 0..4 {
        for byte in 0..=255 {
            let mut bytes = [0; 4];
            bytes[position] = byte;
            let mut words = [u32::MAX];
            assert_eq!(ffi::load(&bytes, &mut words), Ok(1));
            assert_eq!(words, [u32::from(byte) << (8 * position)]);
        }
    }
}

#[test]
fn every_byte_count_meets_every_lent_count() {
    let (mut loaded, mut uneven, mut short) = (0, 0, 0);
    for count in 0..=40 {
        for lent in 0..=12 {
            for round in 0..8 {
                let seed = (count * 13 + lent) as u64 * 8 + round;
                let mut random = Random::seeded(seed);
                let (bytes, dirty) = (random.bytes(count), random.words(lent));
                match agreed(&bytes, &dirty, seed).map_err(|refusal| refusal.number) {
                    Ok(_) => loaded += 1,
                    Err(16) => uneven += 1,
                    Err(17) => short += 1,
                    Err(number) => panic!("refusal {number} is not of bytes"),
                }
            }
        }
    }
    // 11 of the 41 counts are whole words; of those, 0 to 10 words meet 0 to 12 lent.
    assert_eq!((loaded, uneven, short), (88 * 8, 30 * 13 * 8, 55 * 8));
}

#[test]
fn an_uneven_count_is_refused_as_16_also_where_too_few_words_are_lent() {
    let mut words = [5];
    let refusal = ffi::Refusal {
        number: 16,
        place: 0,
    };
    assert_eq!(ffi::load(&[1; 9], &mut words), Err(refusal));
    assert_eq!(words, [5]);
}

#[test]
fn bytes_at_any_address_are_loaded() {
    let mut random = Random::seeded(1);
    let bytes = random.bytes(64);
    let dirty = random.words(16);
    for start in 0..8 {
        for end in start..=bytes.len() {
            let _ = agreed(&bytes[start..end], &dirty, 1);
        }
    }
    assert_eq!(agreed(&bytes[1..61], &dirty, 1), Ok(15));
}

#[test]
fn long_lists_are_loaded_and_refused_whole() {
    let mut random = Random::seeded(2);
    let bytes = random.bytes(400_000);
    let dirty = random.words(100_001);
    let refused = |number| Err(Refusal { number, place: 0 });
    assert_eq!(agreed(&bytes, &dirty, 2), Ok(100_000));
    assert_eq!(agreed(&bytes, &dirty[..100_000], 2), Ok(100_000));
    assert_eq!(agreed(&bytes, &dirty[..99_999], 2), refused(17));
    assert_eq!(agreed(&bytes[1..], &dirty, 2), refused(16));
}

#[test]
fn the_bytes_of_file_a_become_its_words() {
    let mut words = [0; 25];
    assert_eq!(ffi::load(&bytes_of(&example_a_words()), &mut words), Ok(25));
    assert_eq!(words[..], example_a_words());
    assert_eq!(ffi::read(&words), Ok(()));
}
