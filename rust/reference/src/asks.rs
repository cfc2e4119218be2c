//! Lists of asks: their words, and for what a run of them on a file in lent memory is refused.

use crate::block::block_len;
use crate::words::{kind_of, value_of, word};
use crate::{read, Plan, Refusal};

/// The kind of a ceiling's word.
const CEILING: u32 = 11;
/// The kind of a budget's word.
const BUDGET: u32 = 12;
/// The most words that a list of asks has.
const MOST_ASK_WORDS: usize = 64;

/// An ask.
#[derive(Clone, Copy, Debug, PartialEq, Eq)]
pub struct Ask {
    /// What a schedule may cost, in euros.
    pub ceiling: u32,
    /// The number of tries.
    pub budget: u32,
}

/// How many words are lent to a run.
#[derive(Clone, Copy, Debug, PartialEq, Eq)]
pub struct Lent {
    /// Words for the blocks.
    pub answers: usize,
    /// Words for conflicts.
    pub table: usize,
    /// Words for anything.
    pub scratch: usize,
}

/// The words of a list of asks: a ceiling and a budget for each. It tests no number of asks and no
/// budget, so that tests can also write lists that are to be refused.
pub fn ask_words(asks: &[Ask]) -> Vec<u32> {
    asks.iter()
        .flat_map(|ask| [word(CEILING, ask.ceiling), word(BUDGET, ask.budget)])
        .collect()
}

/// The plan and the asks of a run that is answered; else the refusal: the file's, then that of the
/// ask words, then those of the lent words in number order.
pub fn accept(words: &[u32], asks: &[u32], lent: Lent) -> Result<(Plan, Vec<Ask>), Refusal> {
    let plan = read(words)?;
    let asks = read_asks(asks)?;
    let causes = [
        (lent.table < 64 || lent.table > 16_384, 13),
        (lent.answers < asks.len() * block_len(&plan), 14),
        (lent.scratch < 2usize.pow(plan.units), 15),
    ];
    match causes.into_iter().find(|&(stands, _)| stands) {
        Some((_, number)) => Err(Refusal { number, place: 0 }),
        None => Ok((plan, asks)),
    }
}

/// The asks that a list of words says: its length is tested, then word by word the kind and, of a
/// budget, that it is not 0. A place counts in this list.
pub fn read_asks(words: &[u32]) -> Result<Vec<Ask>, Refusal> {
    let length = words.len();
    if length == 0 || !length.is_multiple_of(2) || length > MOST_ASK_WORDS {
        return Err(Refusal {
            number: 8,
            place: 0,
        });
    }
    let mut asks = vec![];
    for (pair, both) in words.chunks(2).enumerate() {
        asks.push(Ask {
            ceiling: ask_value(both[0], CEILING, 2 * pair)?,
            budget: ask_value(both[1], BUDGET, 2 * pair + 1)?,
        });
    }
    Ok(asks)
}

/// The value of an ask word, which has to be of the kind due, and not 0 where that is a budget's.
fn ask_value(word: u32, due: u32, place: usize) -> Result<u32, Refusal> {
    match (kind_of(word), value_of(word)) {
        (BUDGET, 0) if due == BUDGET => Err(Refusal { number: 10, place }),
        (kind, value) if kind == due => Ok(value),
        _ => Err(Refusal { number: 9, place }),
    }
}
