//! The reader: it walks a file's words from the first to the end word, and turns the file away at
//! the first word at fault. A word is tested for kind, then range, then relation.

use crate::words::{kind_of, value_of};
use crate::{Plan, Refusal};

/// The plan that a file's words say, or the refusal of the first word at fault.
pub fn read(words: &[u32]) -> Result<Plan, Refusal> {
    let mut walk = Walk { words, place: 0 };
    let weeks = walk.number(1, 1, 52)?;
    let units = walk.number(2, 1, 16)?;
    let crews = walk.number(3, 1, 16)?;
    let demand = walk.numbers(4, 16_000_000, weeks)?;
    let (mut capacity, mut earliest, mut latest, mut duration) = (vec![], vec![], vec![], vec![]);
    for _ in 0..units {
        capacity.push(walk.number(5, 0, 1_000_000)?);
        let (first, last) = walk.window(weeks)?;
        earliest.push(first);
        latest.push(last);
        duration.push(walk.number(7, 1, weeks)?);
    }
    let maint = walk.costs(8, weeks, units)?;
    let running = walk.costs(9, weeks, units)?;
    let off = walk.off_costs(weeks, units)?;
    let pairs = walk.pairs(units)?;
    walk.end()?;
    Ok(Plan {
        weeks,
        units,
        crews,
        demand,
        capacity,
        earliest,
        latest,
        duration,
        maint,
        running,
        off,
        pairs,
    })
}

/// The words and the place of the one that is tested next.
struct Walk<'a> {
    words: &'a [u32],
    place: usize,
}

impl Walk<'_> {
    /// The refusal of the word that is tested now; at the file's end its place is the length.
    fn refuse<T>(&self, number: u32) -> Result<T, Refusal> {
        let place = self.place;
        Err(Refusal { number, place })
    }

    /// The value of the word that is tested now, which has to be there and of the kind due.
    fn due(&self, kind: u32) -> Result<u32, Refusal> {
        match self.words.get(self.place) {
            Some(&word) if kind_of(word) == kind => Ok(value_of(word)),
            _ => self.refuse(1),
        }
    }

    /// One word with a value from `low` to `high`.
    fn number(&mut self, kind: u32, low: u32, high: u32) -> Result<u32, Refusal> {
        let value = self.due(kind)?;
        if value < low || value > high {
            return self.refuse(2);
        }
        self.place += 1;
        Ok(value)
    }

    /// `count` words with values from 0 to `high`.
    fn numbers(&mut self, kind: u32, high: u32, count: u32) -> Result<Vec<u32>, Refusal> {
        (0..count).map(|_| self.number(kind, 0, high)).collect()
    }

    /// A table of costs: a row for each week, in it a cost for each unit.
    fn costs(&mut self, kind: u32, weeks: u32, units: u32) -> Result<Vec<Vec<u32>>, Refusal> {
        (0..weeks)
            .map(|_| self.numbers(kind, 250_000, units))
            .collect()
    }

    /// The OFF costs, of kind 0: all of them where the next word is of that kind, else none.
    fn off_costs(&mut self, weeks: u32, units: u32) -> Result<Option<Vec<Vec<u32>>>, Refusal> {
        match self.due(0) {
            Ok(_) => self.costs(0, weeks, units).map(Some),
            Err(_) => Ok(None),
        }
    }

    /// A window's earliest and latest week: each in range, then the latest not before the earliest.
    fn window(&mut self, weeks: u32) -> Result<(u32, u32), Refusal> {
        let value = self.due(6)?;
        let (earliest, latest) = (value / 64, value % 64);
        if earliest < 1 || earliest > weeks || latest < 1 || latest > weeks {
            return self.refuse(2);
        }
        if latest < earliest {
            return self.refuse(3);
        }
        self.place += 1;
        Ok((earliest, latest))
    }

    /// The excluded pairs, as many words of kind 10 as there are. A pair has no range of its own:
    /// whatever is wrong with its value is refusal 4.
    fn pairs(&mut self, units: u32) -> Result<Vec<(u32, u32)>, Refusal> {
        let mut pairs: Vec<(u32, u32)> = vec![];
        while let Ok(value) = self.due(10) {
            let (a, b) = (value / 32, value % 32);
            let legal = 1 <= a && a < b && b <= units;
            let rises = pairs.last().is_none_or(|&before| before < (a, b));
            if !legal || !rises {
                return self.refuse(4);
            }
            if pairs.len() == 120 {
                return self.refuse(5);
            }
            pairs.push((a, b));
            self.place += 1;
        }
        Ok(pairs)
    }

    /// The end word, which counts the words before it, and nothing after it.
    fn end(&mut self) -> Result<(), Refusal> {
        let value = self.due(15)?;
        if value as usize != self.place {
            return self.refuse(6);
        }
        self.place += 1;
        if self.place < self.words.len() {
            return self.refuse(7);
        }
        Ok(())
    }
}
