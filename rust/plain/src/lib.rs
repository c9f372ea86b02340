//! The rule of the page as one would write it for speed in plain, safe Rust: the file is read once, then a small state goes from row to row.
//! No calendar of gaps is made. It is what the proved reference is timed against, and is held to the same answers by its tests and by the benchmark itself.
#![forbid(unsafe_code)]

mod file;
mod gain;
mod gaps;
mod levels;
mod row;

/// Numbers of a row's answer: state, command, the three powers, held, and the two sets of ids.
pub const ANSWER_NUMBERS: usize = 8;

/// A refusal: its number, and its place.
#[derive(Clone, Copy, Debug, PartialEq, Eq)]
pub struct Refusal {
    pub number: u8,
    pub place: usize,
}

pub(crate) const fn refusal(number: u8, place: usize) -> Refusal {
    Refusal { number, place }
}

/// Every row of a job: eight numbers each into the lent buffer, up to the first row that is refused.
pub fn run(file: &[u8], answers: &mut [i32]) -> Result<usize, Refusal> {
    run_by::<false>(file, answers)
}

/// The same, and rows that no gap has to do with are spared the rules of gaps, as the proved reference spares them.
pub fn run_sparing(file: &[u8], answers: &mut [i32]) -> Result<usize, Refusal> {
    run_by::<true>(file, answers)
}

fn run_by<const SPARING: bool>(file: &[u8], answers: &mut [i32]) -> Result<usize, Refusal> {
    let job = file::load(file)?;
    let needed = ANSWER_NUMBERS * (job.rows.len() / 2);
    if answers.len() < needed {
        return Err(refusal(10, needed));
    }
    row::run::<SPARING>(&job, answers)
}
