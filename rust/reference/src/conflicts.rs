//! The conflicts that a run of asks leaves in the lent table: how they are laid out, whether they
//! are true, and which of them have to be there.

use crate::survey::Survey;
use crate::words::{kind_of, value_of};
use crate::{permitted_starts, Plan};
use std::collections::BTreeSet;

/// The most choices that a conflict has.
const MOST_CHOICES: usize = 8;
/// So many of the table's last words have no conflict with choices.
const KEPT_FREE: usize = 32;

/// The claim that no schedule with the choices meets (1) to (8) and costs at most the bound.
#[derive(Clone, Debug, PartialEq, Eq, PartialOrd, Ord)]
pub struct Conflict {
    /// The bound, in euros.
    pub bound: u32,
    /// Units and their starts.
    pub choices: Vec<(u32, u32)>,
}

/// The conflicts in a table's words; else what is wrong with the words: from the first word on a
/// bound, its choices after it, then the next conflict, and only 0 after the last.
pub fn conflicts(plan: &Plan, table: &[u32]) -> Result<Vec<Conflict>, String> {
    let mut found = vec![];
    let mut place = 0;
    while place < table.len() && kind_of(table[place]) == 13 {
        let conflict = Conflict {
            bound: value_of(table[place]),
            choices: choices_from(table, place + 1),
        };
        let end = place + 1 + conflict.choices.len();
        laid_out(plan, &conflict).map_err(|reason| format!("{reason}, at {place}"))?;
        if !conflict.choices.is_empty() && end + KEPT_FREE > table.len() {
            return Err(format!("{conflict:?} ends in the last words, at {place}"));
        }
        found.push(conflict);
        place = end;
    }
    match table[place..].iter().position(|&word| word != 0) {
        None => Ok(found),
        Some(more) => {
            let (at, word) = (place + more, table[place + more]);
            let (kind, value) = (kind_of(word), value_of(word));
            Err(format!("{kind}:{value} in no conflict, at {at}"))
        }
    }
}

/// The choices in the words of kind 14 from a place on: unit × 64 + start.
fn choices_from(table: &[u32], place: usize) -> Vec<(u32, u32)> {
    let words = table[place..].iter();
    words
        .take_while(|&&word| kind_of(word) == 14)
        .map(|&word| (value_of(word) / 64, value_of(word) % 64))
        .collect()
}

/// Not too many choices, units that rise, and starts that are permitted, as none is for a unit that
/// the plan has not.
fn laid_out(plan: &Plan, conflict: &Conflict) -> Result<(), String> {
    let choices = &conflict.choices;
    let rising = choices.windows(2).all(|pair| pair[0].0 < pair[1].0);
    let permitted = |&(unit, start): &(u32, u32)| {
        let starts = permitted_starts(plan, unit as usize);
        starts.contains(&start)
    };
    if choices.len() > MOST_CHOICES {
        return Err(format!("{conflict:?} has too many choices"));
    }
    if !rising {
        return Err(format!("{conflict:?} has units that do not rise"));
    }
    if !choices.iter().all(permitted) {
        return Err(format!("{conflict:?} has a start that is not permitted"));
    }
    Ok(())
}

/// Whether no schedule with the conflict's choices meets (1) to (8) and costs at most its bound.
pub fn is_true(survey: &Survey, conflict: &Conflict) -> bool {
    let claimed_away = survey.cheapest_with(&conflict.choices, conflict.bound);
    claimed_away.is_none()
}

/// The first of the conflicts that is not true. Those that are known to be true are not looked at
/// again, and true ones become known.
pub(crate) fn find_untrue<'a>(
    survey: &Survey,
    conflicts: &'a [Conflict],
    known: &mut BTreeSet<Conflict>,
) -> Option<&'a Conflict> {
    conflicts.iter().find(|&conflict| {
        let holds = known.contains(conflict) || is_true(survey, conflict);
        if holds {
            known.insert(conflict.clone());
        }
        !holds
    })
}

/// Says what is wrong with the conflicts without choices where those with the bounds are due, in
/// their order; the others are which the program likes, and where.
pub(crate) fn check_concluded(due: &[u32], conflicts: &[Conflict]) -> Result<(), String> {
    let without = conflicts.iter().filter(|found| found.choices.is_empty());
    let bounds: Vec<u32> = without.map(|conflict| conflict.bound).collect();
    if bounds == due {
        return Ok(());
    }
    Err(format!(
        "bounds {bounds:?} without choices where {due:?} are due"
    ))
}
