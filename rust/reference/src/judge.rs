//! The judge of a grid, and the input of the program that prints its judgement.

use crate::formulas::{broken, cost};
use crate::words::{file_end, load};
use crate::{read, Plan, Refusal};
use std::fmt;

/// What the judge says of a file and a grid.
#[derive(Clone, Copy, Debug, PartialEq, Eq)]
pub enum Judgement {
    /// The grid meets the formulas (1) to (8): its cost, formula (9).
    Sound(u64),
    /// The smallest number among the formulas that the grid breaks.
    Breaks(u32),
    /// The file or the grid is turned away.
    Rejected(Refusal),
}

/// The line that the program prints, without its line feed.
impl fmt::Display for Judgement {
    fn fmt(&self, f: &mut fmt::Formatter) -> fmt::Result {
        match self {
            Judgement::Sound(cost) => write!(f, "sound {cost}"),
            Judgement::Breaks(number) => write!(f, "rule {number}"),
            Judgement::Rejected(refusal) => write!(f, "{refusal}"),
        }
    }
}

/// The judgement on a grid: the file is tested, then the grid's bytes, then the formulas.
pub fn judge(words: &[u32], grid: &[u8]) -> Judgement {
    match accepted(words, grid) {
        Err(refusal) => Judgement::Rejected(refusal),
        Ok(plan) => match broken(&plan, grid).first() {
            Some(&number) => Judgement::Breaks(number),
            None => Judgement::Sound(cost(&plan, grid)),
        },
    }
}

/// The judgement on the program's input, the bytes of a file and then those of a grid: refusal 17
/// for more than 32,768 bytes, whatever they are, then 16 where the file's are not whole words.
pub fn judge_input(bytes: &[u8]) -> Judgement {
    if bytes.len() > 32_768 {
        return Judgement::Rejected(Refusal {
            number: 17,
            place: 0,
        });
    }
    let (file, grid) = bytes.split_at(file_end(bytes));
    match load(file, 8192) {
        Err(refusal) => Judgement::Rejected(refusal),
        Ok(words) => judge(&words, grid),
    }
}

/// The plan of the file, where the grid has W × U bytes (else refusal 11) and none is above 2
/// (else 12, at the first that is).
fn accepted(words: &[u32], grid: &[u8]) -> Result<Plan, Refusal> {
    let plan = read(words)?;
    let refuse = |number, place| Err(Refusal { number, place });
    if grid.len() != (plan.weeks * plan.units) as usize {
        return refuse(11, 0);
    }
    match grid.iter().position(|&cell| cell > 2) {
        Some(place) => refuse(12, place),
        None => Ok(plan),
    }
}
