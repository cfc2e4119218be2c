//! The comparison of runs of asks: what the proved run left, its blocks and its table, held against
//! all schedules of the reference, or the refusal; every lent word is looked at.

use crate::asking::dirty_buffers;
use crate::compare::shown;
use crate::judgements::proved_judgement;
use crate::off_costs::OffCounts;
use crate::Random;
use reference::{
    accept, ask_words, block_len, check_run, lay_out, read, runs_of, starts_of, Ask, Checked,
    Conflict, Judgement, Lent, Plan, Refusal, Status, Survey,
};
use std::collections::{BTreeMap, BTreeSet};
use std::fmt::Arguments;

/// What is said of a list of asks: the statuses of blocks that are right, or the refusal.
pub type ListAnswer = Result<Vec<Status>, Refusal>;

/// A file with what asks on it are held against.
pub struct AskedFile {
    words: Vec<u32>,
    survey: Option<Survey>,
    known_true: BTreeSet<Conflict>,
}

impl AskedFile {
    /// The file of these words, which may be refused. Its places are all walked here.
    pub fn new(words: Vec<u32>) -> Self {
        let survey = read(&words).ok().map(|plan| Survey::new(&plan));
        AskedFile {
            words,
            survey,
            known_true: BTreeSet::new(),
        }
    }

    /// The file's words.
    pub fn words(&self) -> &[u32] {
        &self.words
    }

    /// All places and schedules of the file; panics where it is refused.
    pub fn survey(&self) -> &Survey {
        self.survey.as_ref().expect("the file is accepted")
    }

    /// What is found of a run on the file that left these words; else what is wrong.
    fn check(&mut self, asks: &[Ask], left: &Left) -> Result<Checked, String> {
        let survey = self.survey.as_ref().expect("the file is accepted");
        let known = &mut self.known_true;
        let checked = check_run(survey, asks, left.blocks, left.table, known)?;
        let blocks = left.blocks.chunks(block_len(survey.plan()));
        for (index, block) in blocks.enumerate() {
            let status = checked.statuses[index];
            check_tries(survey, asks[index], status)?;
            check_judged(&self.words, survey.plan(), status, block)?;
        }
        Ok(checked)
    }
}

/// Words lent to a run, with what is in them.
#[derive(Clone, Debug, PartialEq, Eq)]
pub struct Buffers {
    /// For the blocks.
    pub answers: Vec<u32>,
    /// For conflicts.
    pub table: Vec<u32>,
    /// For anything.
    pub scratch: Vec<u32>,
}

impl Buffers {
    /// Words of the given numbers, all alike.
    pub fn alike(answers: usize, table: usize, scratch: usize) -> Self {
        Buffers {
            answers: vec![9; answers],
            table: vec![9; table],
            scratch: vec![9; scratch],
        }
    }

    /// As many words of each, all 0.
    fn cleared(&self) -> Self {
        Buffers {
            answers: vec![0; self.answers.len()],
            table: vec![0; self.table.len()],
            scratch: vec![0; self.scratch.len()],
        }
    }

    /// How many words are lent.
    fn lent(&self) -> Lent {
        Lent {
            answers: self.answers.len(),
            table: self.table.len(),
            scratch: self.scratch.len(),
        }
    }

    /// What a run left in them, where its blocks take so many words.
    fn left(&self, length: usize) -> Left<'_> {
        Left {
            blocks: &self.answers[..length],
            table: &self.table,
        }
    }
}

/// The words that an answered run left, without those beyond the blocks.
#[derive(Debug, PartialEq, Eq)]
struct Left<'a> {
    blocks: &'a [u32],
    table: &'a [u32],
}

/// The runs that were answered rightly and those that were refused rightly, by number; the asks by
/// status, and how many were settled by those before them; how many plans cost nothing, how many
/// conflicts with and without choices were left, how many tables were full to the last word, and how
/// many runs were on files of each class of OFF costs. A test that asserts on them cannot pass by
/// comparing nothing.
#[derive(Default)]
pub struct Answers {
    runs: usize,
    answered: BTreeMap<Status, usize>,
    refused: BTreeMap<u32, usize>,
    places: BTreeSet<usize>,
    settled: usize,
    free: usize,
    noted: usize,
    concluded: usize,
    full: usize,
    off: OffCounts,
}

impl Answers {
    /// Runs the proved call in the lent words, and gives the statuses or the refusal that both sides
    /// give; panics, with the origin, the asks and the file, where anything is wrong with a block,
    /// the words beyond or the table, where a refused call changed a word, or where the same call in
    /// cleared words leaves other blocks or another table.
    pub fn agreed(
        &mut self,
        file: &mut AskedFile,
        asks: &[u32],
        lent: &mut Buffers,
        origin: Arguments,
    ) -> ListAnswer {
        let before = lent.clone();
        let proved = proved_asks(&file.words, asks, lent);
        let expected = accept(&file.words, asks, before.lent());
        let told = format!("asks {} on {origin}: {}", shown(asks), shown(&file.words));
        let verdict = expected.clone().map(|_| ());
        assert_eq!(proved, verdict, "proved, then reference, {told}");
        match expected {
            Err(refusal) => {
                assert!(*lent == before, "a lent word changed, {told}");
                *self.refused.entry(refusal.number).or_default() += 1;
                self.places.insert(refusal.place);
                Err(refusal)
            }
            Ok((plan, list)) => {
                let length = list.len() * block_len(&plan);
                let (beyond, kept) = (&lent.answers[length..], &before.answers[length..]);
                assert_eq!(beyond, kept, "beyond the blocks, then as it was, {told}");
                check_again(&file.words, asks, length, lent, &told);
                let left = lent.left(length);
                let checked = file.check(&list, &left);
                let checked = checked
                    .unwrap_or_else(|reason| panic!("{reason}; blocks {:?}, {told}", left.blocks));
                self.count(&plan, &checked, &left);
                Ok(checked.statuses)
            }
        }
    }

    /// The statuses of a list of asks on a file, in dirty words with a table of so many.
    pub fn statuses(
        &mut self,
        file: &mut AskedFile,
        asks: &[Ask],
        table: usize,
        random: &mut Random,
        seed: u64,
    ) -> Vec<Status> {
        let mut lent = dirty_buffers(file.survey().plan(), asks.len(), table, random);
        let origin = format_args!("table {table}, seed {seed}");
        let answer = self.agreed(file, &ask_words(asks), &mut lent, origin);
        answer.expect("file and asks are accepted, and the words are enough")
    }

    /// Counts a run that is right.
    fn count(&mut self, plan: &Plan, checked: &Checked, left: &Left) {
        self.runs += 1;
        self.off.add(plan);
        for &status in &checked.statuses {
            *self.answered.entry(status).or_default() += 1;
        }
        let free = |block: &&[u32]| block[0] == 1 && block[1] == 0;
        let blocks = left.blocks.chunks(block_len(plan));
        let without = |conflict: &&Conflict| conflict.choices.is_empty();
        let concluded = checked.conflicts.iter().filter(without).count();
        self.settled += checked.settled;
        self.free += blocks.filter(free).count();
        self.concluded += concluded;
        self.noted += checked.conflicts.len() - concluded;
        self.full += usize::from(left.table.last() != Some(&0));
    }

    /// How many runs were answered.
    pub fn runs(&self) -> usize {
        self.runs
    }

    /// How many asks got the status.
    pub fn got(&self, status: Status) -> usize {
        self.answered.get(&status).copied().unwrap_or(0)
    }

    /// How many asks were settled by those before them.
    pub fn settled(&self) -> usize {
        self.settled
    }

    /// How many plans cost nothing.
    pub fn free(&self) -> usize {
        self.free
    }

    /// How many conflicts with choices were left.
    pub fn noted(&self) -> usize {
        self.noted
    }

    /// How many conflicts without choices were left.
    pub fn concluded(&self) -> usize {
        self.concluded
    }

    /// How many tables were left full to the last word.
    pub fn full(&self) -> usize {
        self.full
    }

    /// How many runs were on files of each class of OFF costs.
    pub fn off(&self) -> &OffCounts {
        &self.off
    }

    /// The refusal numbers that arose, rising.
    pub fn refusals(&self) -> Vec<u32> {
        self.refused.keys().copied().collect()
    }

    /// At how many different places runs were refused.
    pub fn places(&self) -> usize {
        self.places.len()
    }

    /// Prints the counts, for those who run the tests with their output shown.
    pub fn report(&self, what: &str) {
        println!(
            "{what}: {} runs, {:?}, {} asks settled, {} plans cost nothing, {} conflicts with \
             choices, {} without, {} full tables, refusals {:?} at {} places, {}",
            self.runs,
            self.answered,
            self.settled,
            self.free,
            self.noted,
            self.concluded,
            self.full,
            self.refused,
            self.places.len(),
            self.off
        );
    }
}

/// The proved answers in the lent words, or the refusal in the reference's words.
pub fn proved_asks(words: &[u32], asks: &[u32], lent: &mut Buffers) -> Result<(), Refusal> {
    let Buffers {
        answers,
        table,
        scratch,
    } = lent;
    let proved = ffi::run(words, asks, answers, table, scratch);
    proved.map_err(|refusal| Refusal {
        number: refusal.number,
        place: refusal.place,
    })
}

/// The same call in cleared words leaves the same blocks and the same table, and has place 0, as
/// the run was answered.
pub(crate) fn check_again(words: &[u32], asks: &[u32], length: usize, lent: &Buffers, told: &str) {
    let mut again = lent.cleared();
    let answered = proved_asks(words, asks, &mut again);
    assert_eq!(answered, Ok(()), "in cleared words, {told}");
    let same = again.left(length) == lent.left(length);
    assert!(same, "other words than in cleared ones, {told}");
    let Lent {
        answers,
        table,
        scratch,
    } = lent.lent();
    let place = ffi::run_place(words, asks, answers, table, scratch);
    assert_eq!(place, 0, "answered has place 0, {told}");
}

/// An ask with tries for every place is not spent. The mark says the same, as no place has such a
/// rank; this says it without one.
fn check_tries(survey: &Survey, ask: Ask, status: Status) -> Result<(), String> {
    let spent = matches!(status, Status::Best | Status::Spent);
    if spent && ask.budget as usize >= survey.places().len() {
        return Err(format!("{status:?} with tries for every place"));
    }
    Ok(())
}

/// A schedule that the proved code lays out is sound at the block's cost for the proved judge.
fn check_judged(words: &[u32], plan: &Plan, status: Status, block: &[u32]) -> Result<(), String> {
    if matches!(status, Status::None | Status::Spent) {
        return Ok(());
    }
    let (starts, runs) = (starts_of(plan, block), runs_of(plan, block));
    let mut grid = vec![9; (plan.weeks * plan.units) as usize];
    let drawn = ffi::draw(words, starts, runs, &mut grid);
    if drawn.is_err() || grid != lay_out(plan, starts, runs) {
        return Err(format!("laid out as {grid:?}, {drawn:?}"));
    }
    match proved_judgement(words, &grid) {
        Judgement::Sound(cost) if cost == u64::from(block[1]) => Ok(()),
        other => Err(format!("{other:?} for the judge")),
    }
}
