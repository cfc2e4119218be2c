//! Safe functions over the proved code: the only `extern` declarations and the only `unsafe` of
//! the workspace.
//!
//! Nothing checks the declarations against the Rattle source, so they stand here once. No
//! exported function has a `requires`: each takes any slices, as pointer and length, and the
//! wrappers have nothing to test first. An empty slice's pointer is never read.

mod c {
    extern "C" {
        /// The refusal's number, 0 for none.
        pub fn novelbrisca_load(
            bytes: *const u8,
            bytes_len: usize,
            words: *mut u32,
            words_len: usize,
        ) -> u32;
        /// The refusal's number, 0 where the file is accepted.
        pub fn novelbrisca_read(words: *const u32, words_len: usize) -> u32;
        /// The refusal's place, 0 where the file is accepted.
        pub fn novelbrisca_read_place(words: *const u32, words_len: usize) -> usize;
        /// The sizing figure, 0 where the file is refused.
        pub fn novelbrisca_sizing(words: *const u32, words_len: usize) -> usize;
        /// The cost where the grid is sound, 2^32 and the number of the formula that it breaks, or
        /// 2^33 and the refusal's number.
        pub fn novelbrisca_judge(
            words: *const u32,
            words_len: usize,
            grid: *const u8,
            grid_len: usize,
        ) -> u64;
        /// The refusal's place, 0 where the grid is judged.
        pub fn novelbrisca_judge_place(
            words: *const u32,
            words_len: usize,
            grid: *const u8,
            grid_len: usize,
        ) -> usize;
        /// The refusal's number, 0 where the schedule is laid out.
        pub fn novelbrisca_draw(
            words: *const u32,
            words_len: usize,
            starts: *const u32,
            starts_len: usize,
            runs: *const u32,
            runs_len: usize,
            grid: *mut u8,
            grid_len: usize,
        ) -> u32;
        /// The cost × 2^32 and the run's number, 2^62 where there is no run, or 2^63 and the
        /// refusal's number.
        pub fn novelbrisca_cheapest_run(
            words: *const u32,
            words_len: usize,
            week: usize,
            out: u32,
        ) -> u64;
        /// The refusal's number, 0 where the costs are written.
        pub fn novelbrisca_week_costs(
            words: *const u32,
            words_len: usize,
            queries: *const u32,
            queries_len: usize,
            scratch: *mut u32,
            scratch_len: usize,
            costs: *mut u32,
            costs_len: usize,
        ) -> u32;
        /// The cost × 2^32 and the start, 2^62 where the start is not permitted, or 2^63 and the
        /// refusal's number.
        pub fn novelbrisca_upkeep(
            words: *const u32,
            words_len: usize,
            unit: usize,
            start: usize,
        ) -> u64;
        /// The refusal's number, 0 where the asks are answered.
        pub fn novelbrisca_run(
            words: *const u32,
            words_len: usize,
            asks: *const u32,
            asks_len: usize,
            answers: *mut u32,
            answers_len: usize,
            table: *mut u32,
            table_len: usize,
            scratch: *mut u32,
            scratch_len: usize,
        ) -> u32;
        /// The refusal's place, 0 where the asks are answered; lent memory by its numbers of words.
        pub fn novelbrisca_run_place(
            words: *const u32,
            words_len: usize,
            asks: *const u32,
            asks_len: usize,
            answers: usize,
            table: usize,
            scratch: usize,
        ) -> usize;
    }
}

/// Why the proved code turned a call away: document 01's number, and the place of the word or byte.
#[derive(Clone, Copy, Debug, PartialEq, Eq)]
pub struct Refusal {
    /// The number in the list of document 01.
    pub number: u32,
    /// The place of the word or byte at fault; 0 for the causes that have none.
    pub place: usize,
}

/// What the proved judge says of a file and a grid.
#[derive(Clone, Copy, Debug, PartialEq, Eq)]
pub enum Judgement {
    /// The grid meets the formulas (1) to (8): its cost, formula (9).
    Sound(u64),
    /// The smallest number among the formulas that the grid breaks.
    Breaks(u32),
    /// The file or the grid is turned away.
    Rejected(Refusal),
}

/// The cheapest run of a week, as the proved code finds it.
#[derive(Clone, Copy, Debug, PartialEq, Eq)]
pub struct CheapestRun {
    /// The run as a bit mask: bit i-1 for unit i.
    pub run: u32,
    /// Its cost, in euros: that of its units running, and of those OFF that neither run nor are out.
    pub cost: u64,
}

/// What [`week_costs`] writes where there is no run.
pub const NO_RUN: u32 = 1 << 28;
/// The code of a run or cost that there is not.
const NONE: u64 = 1 << 62;
/// The code of a refusal, less its number.
const REFUSED: u64 = 1 << 63;

/// Writes the words of `bytes` into the lent `words` and says how many they are; the lent words
/// beyond are kept. Refused (16, 17): every lent word is kept.
pub fn load(bytes: &[u8], words: &mut [u32]) -> Result<usize, Refusal> {
    // SAFETY: both pairs of pointer and length are those of live slices, `words` uniquely lent.
    let number = unsafe {
        c::novelbrisca_load(bytes.as_ptr(), bytes.len(), words.as_mut_ptr(), words.len())
    };
    match number {
        0 => Ok(bytes.len() / 4),
        _ => Err(Refusal { number, place: 0 }),
    }
}

/// Tests a plan file's words. A refusal takes a second call, for its place.
pub fn read(words: &[u32]) -> Result<(), Refusal> {
    // SAFETY: pointer and length are those of a live slice, which is only read.
    let number = unsafe { c::novelbrisca_read(words.as_ptr(), words.len()) };
    match number {
        0 => Ok(()),
        _ => Err(Refusal {
            number,
            place: read_place(words),
        }),
    }
}

/// The place that belongs to the refusal of a plan file's words; 0 where they are accepted.
pub fn read_place(words: &[u32]) -> usize {
    // SAFETY: pointer and length are those of a live slice, which is only read.
    unsafe { c::novelbrisca_read_place(words.as_ptr(), words.len()) }
}

/// The sizing figure of a plan file's words, or the file's refusal. The figure is never 0, so 0
/// stands for a refused file; panics where the reader then accepts it.
pub fn sizing(words: &[u32]) -> Result<usize, Refusal> {
    // SAFETY: pointer and length are those of a live slice, which is only read.
    let figure = unsafe { c::novelbrisca_sizing(words.as_ptr(), words.len()) };
    match figure {
        0 => Err(read(words).expect_err("a figure of 0 is given only for a refused file")),
        _ => Ok(figure),
    }
}

/// The judgement on a grid of a plan file's words. A refusal takes a second call, for its place.
pub fn judge(words: &[u32], grid: &[u8]) -> Judgement {
    // SAFETY: both pairs of pointer and length are those of live slices, which are only read.
    let code =
        unsafe { c::novelbrisca_judge(words.as_ptr(), words.len(), grid.as_ptr(), grid.len()) };
    // the upper half says which case it is; costs, formulas and refusals fit the lower half
    let low = code as u32;
    match code >> 32 {
        0 => Judgement::Sound(code),
        1 => Judgement::Breaks(low),
        _ => Judgement::Rejected(Refusal {
            number: low,
            place: judge_place(words, grid),
        }),
    }
}

/// The place that belongs to the refusal of a file or a grid; 0 where the grid is judged.
pub fn judge_place(words: &[u32], grid: &[u8]) -> usize {
    // SAFETY: both pairs of pointer and length are those of live slices, which are only read.
    unsafe { c::novelbrisca_judge_place(words.as_ptr(), words.len(), grid.as_ptr(), grid.len()) }
}

/// Lays a schedule out in the lent `grid`: the first W × U bytes are written, those beyond are
/// kept. Refused (1 to 7, then 17): every lent byte is kept. A refusal's place is the reader's,
/// which is 0 for 17, since that is given only for an accepted file.
pub fn draw(words: &[u32], starts: &[u32], runs: &[u32], grid: &mut [u8]) -> Result<(), Refusal> {
    // SAFETY: each pair of pointer and length is that of a live slice, `grid` uniquely lent.
    let number = unsafe {
        c::novelbrisca_draw(
            words.as_ptr(),
            words.len(),
            starts.as_ptr(),
            starts.len(),
            runs.as_ptr(),
            runs.len(),
            grid.as_mut_ptr(),
            grid.len(),
        )
    };
    match number {
        0 => Ok(()),
        _ => Err(Refusal {
            number,
            place: read_place(words),
        }),
    }
}

/// The cheapest run of a week with the units of `out` out, bit i-1 for unit i; none where the
/// others together fall short, or where the file has no such week. A refusal takes a second call,
/// for its place.
pub fn cheapest_run(words: &[u32], week: usize, out: u32) -> Result<Option<CheapestRun>, Refusal> {
    // SAFETY: pointer and length are those of a live slice, which is only read.
    let code = unsafe { c::novelbrisca_cheapest_run(words.as_ptr(), words.len(), week, out) };
    // a run's number is the lower half
    let found = |code: u64| CheapestRun {
        run: code as u32,
        cost: code >> 32,
    };
    given(code, words).map(|code| code.map(found))
}

/// Writes what the cheapest runs cost that the queries ask for, each a week × 65,536 + a set out,
/// [`NO_RUN`] where there is none; the lent costs beyond are kept. `scratch` has any length and
/// any content, and its content afterwards is free. Refused (1 to 7, then 17): every lent cost and
/// the scratch are kept. A refusal's place is the reader's, which is 0 for 17, since that is given
/// only for an accepted file.
pub fn week_costs(
    words: &[u32],
    queries: &[u32],
    scratch: &mut [u32],
    costs: &mut [u32],
) -> Result<(), Refusal> {
    // SAFETY: each pair of pointer and length is that of a live slice, `scratch` and `costs`
    // uniquely lent.
    let number = unsafe {
        c::novelbrisca_week_costs(
            words.as_ptr(),
            words.len(),
            queries.as_ptr(),
            queries.len(),
            scratch.as_mut_ptr(),
            scratch.len(),
            costs.as_mut_ptr(),
            costs.len(),
        )
    };
    match number {
        0 => Ok(()),
        _ => Err(Refusal {
            number,
            place: read_place(words),
        }),
    }
}

/// What the overhaul of a unit costs from a start; none where the start is not permitted, or where
/// the file has no such unit. A refusal takes a second call, for its place.
pub fn upkeep(words: &[u32], unit: usize, start: usize) -> Result<Option<u64>, Refusal> {
    // SAFETY: pointer and length are those of a live slice, which is only read.
    let code = unsafe { c::novelbrisca_upkeep(words.as_ptr(), words.len(), unit, start) };
    let cost = |code: u64| {
        assert_eq!(
            (code as u32) as usize,
            start,
            "the start stands beside its cost"
        );
        code >> 32
    };
    given(code, words).map(|code| code.map(cost))
}

/// Answers a list of asks, whose words are a ceiling and a budget of tries for each: writes their
/// blocks one after the other into the first words of `answers`, and those beyond are kept; leaves
/// conflicts in `table`, and 0 after them. `table` and `scratch` have any content before, and
/// `scratch` any afterwards. Refused (1 to 7, then 8 to 10 for the ask words, then 13 to 15): every
/// lent word is kept. A refusal takes a second call, for its place.
pub fn run(
    words: &[u32],
    asks: &[u32],
    answers: &mut [u32],
    table: &mut [u32],
    scratch: &mut [u32],
) -> Result<(), Refusal> {
    // SAFETY: each pair of pointer and length is that of a live slice, `answers`, `table` and
    // `scratch` uniquely lent.
    let number = unsafe {
        c::novelbrisca_run(
            words.as_ptr(),
            words.len(),
            asks.as_ptr(),
            asks.len(),
            answers.as_mut_ptr(),
            answers.len(),
            table.as_mut_ptr(),
            table.len(),
            scratch.as_mut_ptr(),
            scratch.len(),
        )
    };
    match number {
        0 => Ok(()),
        _ => Err(Refusal {
            number,
            place: run_place(words, asks, answers.len(), table.len(), scratch.len()),
        }),
    }
}

/// The place that belongs to the refusal of a run with so many lent words; 0 where its asks are
/// answered.
pub fn run_place(
    words: &[u32],
    asks: &[u32],
    answers: usize,
    table: usize,
    scratch: usize,
) -> usize {
    // SAFETY: both pairs of pointer and length are those of live slices, which are only read.
    unsafe {
        c::novelbrisca_run_place(
            words.as_ptr(),
            words.len(),
            asks.as_ptr(),
            asks.len(),
            answers,
            table,
            scratch,
        )
    }
}

/// What a code gives: a number below 2^62, none, or the refusal of the file's words.
fn given(code: u64, words: &[u32]) -> Result<Option<u64>, Refusal> {
    match code {
        ..NONE => Ok(Some(code)),
        NONE => Ok(None),
        REFUSED.. => Err(Refusal {
            number: u32::try_from(code - REFUSED).expect("a refusal's number is small"),
            place: read_place(words),
        }),
        _ => unreachable!("no code lies between 2^62 and 2^63"),
    }
}
