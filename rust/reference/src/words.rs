//! Words and bytes: the top 4 bits of a word are its kind, the low 28 its value; as bytes, a word
//! is four, lowest first.

use crate::Refusal;

/// The first value that no longer fits the low 28 bits.
const VALUES: u32 = 1 << 28;

/// The word of a kind and a value. Panics where either does not fit, since no file has such a word.
pub fn word(kind: u32, value: u32) -> u32 {
    assert!(kind < 16, "kind {kind} has more than 4 bits");
    assert!(value < VALUES, "value {value} has more than 28 bits");
    kind * VALUES + value
}

/// The words of a text that has them as `kind:value`, with spaces or line feeds between them and
/// comments in lines that begin with `#`. Panics where it has anything else: no program reads it.
pub fn words_from(text: &str) -> Vec<u32> {
    let number = |digits: &str| digits.parse().expect("figures are in base ten");
    text.lines()
        .filter(|line| !line.starts_with('#'))
        .flat_map(str::split_whitespace)
        .map(|pair| pair.split_once(':').expect("kind:value"))
        .map(|(kind, value)| word(number(kind), number(value)))
        .collect()
}

/// The top 4 bits of a word.
pub fn kind_of(word: u32) -> u32 {
    word / VALUES
}

/// The low 28 bits of a word.
pub fn value_of(word: u32) -> u32 {
    word % VALUES
}

/// The bytes of a list of words, as they stand in a file.
pub fn bytes_of(words: &[u32]) -> Vec<u8> {
    let mut bytes = Vec::new();
    for &word in words {
        for position in 0..4 {
            bytes.push((word / 256u32.pow(position) % 256) as u8);
        }
    }
    bytes
}

/// The words of a list of bytes, where `lent` is the number of words there is room for:
/// refusal 16 where the bytes are not whole words, then 17 where the words are more than lent.
pub fn load(bytes: &[u8], lent: usize) -> Result<Vec<u32>, Refusal> {
    let refuse = |number| Err(Refusal { number, place: 0 });
    if !bytes.len().is_multiple_of(4) {
        return refuse(16);
    }
    if lent < bytes.len() / 4 {
        return refuse(17);
    }
    Ok(bytes.chunks(4).map(word_of_bytes).collect())
}

/// The word of four bytes.
pub(crate) fn word_of_bytes(four: &[u8]) -> u32 {
    four.iter()
        .rev()
        .fold(0, |higher, &byte| higher * 256 + u32::from(byte))
}

/// How many bytes of a program's input are the file's: those up to the first word of kind 15 and with it,
/// or all where there is none.
pub(crate) fn file_end(bytes: &[u8]) -> usize {
    let end_word = bytes
        .chunks_exact(4)
        .position(|four| kind_of(word_of_bytes(four)) == 15);
    end_word.map_or(bytes.len(), |place| 4 * (place + 1))
}
