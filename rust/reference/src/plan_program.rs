//! The planning program: what it takes for a file and for asks in its input, and the text that it
//! prints for them, a line for each ask or one line for a refusal.

use crate::asks::{accept, Ask, Lent};
use crate::block::{block_len, mark_of, runs_of, same, starts_of, Status};
use crate::outcome::{check_answers, determined};
use crate::survey::Survey;
use crate::words::{file_end, load};
use crate::{Plan, Refusal};

/// The most bytes that the program reads.
const MOST_BYTES: usize = 32_768;

/// The words that the program lends itself: 64 KiB for the table and as much for the scratch, and
/// always enough for the blocks.
const OWN: Lent = Lent {
    answers: usize::MAX,
    table: 16_384,
    scratch: 16_384,
};

/// The names of the statuses 1 to 4.
const NAMES: [&str; 4] = ["plan", "none", "best", "spent"];

/// The plan and the asks of the program's input, the bytes of a file and then those of asks; else
/// the refusal: 17 for more than 32,768 bytes, whatever they are, then 16 where all of them together
/// are not whole words, then those of a run in the program's own words.
pub fn plan_input(bytes: &[u8]) -> Result<(Plan, Vec<Ask>), Refusal> {
    let refuse = |number| Err(Refusal { number, place: 0 });
    if bytes.len() > MOST_BYTES {
        return refuse(17);
    }
    if !bytes.len().is_multiple_of(4) {
        return refuse(16);
    }
    let (file, asks) = bytes.split_at(file_end(bytes));
    accept(&load(file, MOST_BYTES)?, &load(asks, MOST_BYTES)?, OWN)
}

/// The lines of answers, one for each block, each with its line feed.
pub fn plan_lines(plan: &Plan, answers: &[u32]) -> String {
    let blocks = answers.chunks(block_len(plan));
    (1..)
        .zip(blocks)
        .map(|(number, block)| line(plan, number, block) + "\n")
        .collect()
}

/// An ask's line, without its line feed: what the status has, in the order of the block. Panics
/// where there is no such status.
fn line(plan: &Plan, number: usize, block: &[u32]) -> String {
    let name = NAMES[block[0] as usize - 1];
    let mut line = format!("ask {number} {name}");
    if matches!(name, "plan" | "best") {
        line += &figures("", &block[1..2]);
        line += &figures(" starts", starts_of(plan, block));
        line += &figures(" run", runs_of(plan, block));
    }
    if matches!(name, "best" | "spent") {
        line += &figures(" mark", mark_of(plan, block));
    }
    line
}

/// A title and figures, each after a space.
fn figures(title: &str, values: &[u32]) -> String {
    let figures = values.iter().map(|value| format!(" {value}"));
    [title.to_string()].into_iter().chain(figures).collect()
}

/// What the program prints, where the input determines it: for a refusal, and where each ask is
/// settled by those before it or has tries for every place.
pub fn plan_text(bytes: &[u8]) -> Option<String> {
    match plan_input(bytes) {
        Err(refusal) => Some(format!("{refusal}\n")),
        Ok((plan, asks)) => {
            let blocks = determined(&Survey::new(&plan), &asks)?;
            Some(plan_lines(&plan, &blocks))
        }
    }
}

/// What a text says that the program may print for its input, the refusal or each ask's status;
/// else what is wrong with it. It has to be, to the letter, the lines of blocks that are right.
pub fn check_plan_text(bytes: &[u8], text: &str) -> Result<Result<Vec<Status>, Refusal>, String> {
    match plan_input(bytes) {
        Err(refusal) => {
            same("text", text, &format!("{refusal}\n"))?;
            Ok(Err(refusal))
        }
        Ok((plan, asks)) => {
            let blocks: Result<Vec<_>, _> =
                text.lines().map(|line| block_from(&plan, line)).collect();
            let answers = blocks?.concat();
            same("text", text, &plan_lines(&plan, &answers))?;
            check_answers(&Survey::new(&plan), &asks, &answers).map(Ok)
        }
    }
}

/// The block that a line says. It takes what it finds, and 0 for what it does not: the block's own
/// line is then another.
fn block_from(plan: &Plan, line: &str) -> Result<Vec<u32>, String> {
    let fields: Vec<&str> = line.split(' ').collect();
    let name = fields.get(2).copied().unwrap_or_default();
    let status = NAMES.iter().position(|&known| known == name);
    let status = status.ok_or_else(|| format!("no status in {line:?}"))?;
    let (units, weeks) = (plan.units as usize, plan.weeks as usize);
    Ok([
        vec![status as u32 + 1],
        figures_after(&fields, name, 1),
        figures_after(&fields, "starts", units),
        figures_after(&fields, "run", weeks),
        figures_after(&fields, "mark", units),
    ]
    .concat())
}

/// So many figures after a title; 0 for each that is not there.
fn figures_after(fields: &[&str], title: &str, count: usize) -> Vec<u32> {
    let mut after = fields.iter().skip_while(|&&field| field != title).skip(1);
    let figure = |field: Option<&&str>| field.and_then(|digits| digits.parse().ok()).unwrap_or(0);
    (0..count).map(|_| figure(after.next())).collect()
}
