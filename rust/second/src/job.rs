//! A job: loading one from a file, and running all its rows.

use crate::contents::{bodies, Bodies};
use crate::{Gain, History, Refusal, Sequence, Settings, ANSWER_NUMBERS, MOST_ROWS};

/// A job whose file was taken.
#[derive(Clone, Debug)]
pub struct Job {
    settings: Settings,
    gain: Gain,
    sequences: Vec<Sequence>,
    rows: Vec<[u8; 2]>,
}

/// Loads a file, or gives the first of the refusals 1 to 7.
pub fn load(file: &[u8]) -> Result<Job, Refusal> {
    let bodies = bodies(file)?;
    let (settings, _) = bodies.settings.as_chunks::<12>();
    let settings = Settings::read(&settings[0])?;
    let sequences = Sequence::read_all(bodies.records)?;
    let (rows, _) = bodies.rows.as_chunks::<2>();
    if rows.len() > MOST_ROWS {
        return Err(Refusal::new(7, MOST_ROWS as u32));
    }
    Ok(Job {
        settings,
        gain: Gain::of(&settings),
        sequences,
        rows: rows.to_vec(),
    })
}

/// The three parts of a file, as a load finds them; or its refusal.
pub fn parts(file: &[u8]) -> Result<Bodies<'_>, Refusal> {
    load(file)?;
    bodies(file)
}

impl Job {
    pub fn settings(&self) -> &Settings {
        &self.settings
    }

    pub fn gain(&self) -> &Gain {
        &self.gain
    }

    pub fn sequences(&self) -> &[Sequence] {
        &self.sequences
    }

    /// The rows of the file: commands and pilots.
    pub fn rows(&self) -> &[[u8; 2]] {
        &self.rows
    }

    /// A history that has accepted no row yet.
    pub fn history(&self) -> History<'_> {
        History::new(self)
    }
}

/// What holds after the accepted rows of a run.
#[derive(Clone, Copy, PartialEq, Eq, Debug)]
pub struct After {
    pub rows: u32,
    pub power: i32,
    pub held: i32,
}

impl After {
    fn of(history: &History) -> After {
        After {
            rows: history.rows() as u32,
            power: history.power(),
            held: history.held(),
        }
    }
}

/// How a run over lent numbers ends.
#[derive(Clone, Copy, PartialEq, Eq, Debug)]
pub enum Ran {
    /// All rows were accepted.
    Done(After),
    /// A row was refused with 8 or 9; the answers of earlier rows stand.
    Stopped(After, Refusal),
    /// Refused with 1 to 7 or 10; no number was touched.
    Refused(Refusal),
}

/// Runs a whole file. The answers of accepted rows are written one after the
/// other; every later number stays as it was.
pub fn run(file: &[u8], answers: &mut [i32]) -> Ran {
    let job = match load(file) {
        Ok(job) => job,
        Err(refusal) => return Ran::Refused(refusal),
    };
    let needed = ANSWER_NUMBERS * job.rows.len();
    if answers.len() < needed {
        return Ran::Refused(Refusal::new(10, needed as u32));
    }
    let mut history = job.history();
    for (row, places) in job
        .rows
        .iter()
        .zip(answers.chunks_exact_mut(ANSWER_NUMBERS))
    {
        match history.offer(row[0], row[1]) {
            Ok(answer) => places.copy_from_slice(&answer.numbers()),
            Err(refusal) => return Ran::Stopped(After::of(&history), refusal),
        }
    }
    Ran::Done(After::of(&history))
}
