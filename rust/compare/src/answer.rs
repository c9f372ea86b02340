//! What the page says of a block: one line of text.

use std::io::{self, Write};

use second::{listing, load, run, Job, Ran, Refusal, State, MOST_ROWS};

use crate::block::{Block, Head, LENT, STATE, STEPS};
use crate::digest::Digest;
use crate::generator::{block, kind_of};
use crate::subject::{Scope, Subject};
use crate::tally::Tally;

/// The first number of a lent buffer before the run; each later one is one
/// more.
const LENT_FROM: i32 = 1_000_000;

/// The unit in which a block writes a filter's level, one part in 2^42.
const LEVEL_PARTS: f64 = 4_398_046_511_104.0;

/// What becomes of a state with one field changed when a row is offered.
#[derive(Clone, Copy, PartialEq, Eq, Debug)]
pub enum Offered {
    /// No refusal but what the row itself may get.
    Taken,
    Refused(Refusal),
}

impl std::fmt::Display for Offered {
    fn fmt(&self, to: &mut std::fmt::Formatter) -> std::fmt::Result {
        match self {
            Offered::Taken => write!(to, "taken"),
            Offered::Refused(Refusal { number, place }) => {
                write!(to, "refused {number} at {place}")
            }
        }
    }
}

/// What the page says of a block.
#[derive(Clone, PartialEq, Eq, Debug)]
pub struct Said {
    /// The line, without its line feed.
    pub line: String,
    /// The refusal of the run with a lent buffer, which the line has only in
    /// a digest; number 0 if there is none.
    pub lent: Option<Refusal>,
    /// What became of the state with a field changed.
    pub state: Option<Offered>,
    /// The most ids that have opened one slot, among the rows listed.
    pub most_ids: u32,
}

/// The answer of a block.
pub fn said(block: &Block) -> Said {
    let text = listing(&block.job);
    let last = text[..text.len() - 1]
        .split(|&byte| byte == b'\n')
        .next_back();
    let last = String::from_utf8_lossy(last.unwrap_or_default());
    let mut said = Said {
        line: format!("{last}, {} {}", text.len(), Digest::of(&text)),
        lent: None,
        state: None,
        most_ids: most_ids(&text),
    };
    if block.head.is_marked(STEPS) {
        said.line += &format!(", steps {}", steps(&block.job));
    }
    if block.head.is_marked(LENT) {
        let (refusal, digest) = lent(&block.job, block.head.lent as usize);
        said.line += &format!(", lent {digest}");
        said.lent = Some(refusal);
    }
    if block.head.is_marked(STATE) {
        let offered = state(block);
        said.line += &format!(", state {offered}");
        said.state = Some(offered);
    }
    said
}

impl Subject for Block {
    type Tally = Tally;

    fn drawn(seed: u64, number: u64, scope: Scope) -> Block {
        block(seed, number, scope)
    }

    fn kind(seed: u64, number: u64) -> String {
        format!("{:?}", kind_of(seed, number))
    }

    fn write(&self, to: &mut impl Write) -> io::Result<()> {
        Block::write(self, to)
    }

    fn line(&self, tally: &mut Tally) -> String {
        let said = said(self);
        tally.count(self, &said);
        said.line
    }

    fn shown(&self) -> Vec<(&'static str, Vec<u8>)> {
        vec![
            ("head", self.head_bytes().to_vec()),
            ("job", self.job.clone()),
        ]
    }
}

/// The most ids in the last column of a listing's rows. A row's line begins
/// with its number, the header and the last line do not.
fn most_ids(text: &[u8]) -> u32 {
    let rows = text
        .split(|&byte| byte == b'\n')
        .filter(|line| line.first().is_some_and(u8::is_ascii_digit));
    rows.filter_map(|line| line.rsplit(|&byte| byte == b' ').next())
        .filter(|&by| by != b"-")
        .map(|by| by.split(|&byte| byte == b',').count() as u32)
        .max()
        .unwrap_or(0)
}

/// The digest of all answers, and of all refusals, where each row of the file
/// is offered by itself.
fn steps(file: &[u8]) -> Digest {
    let mut digest = Digest::default();
    let pair = |refusal: Refusal| [refusal.number as i32, refusal.place as i32];
    match load(file) {
        Err(refusal) => digest.add_numbers(&pair(refusal)),
        Ok(job) => {
            let mut history = job.history();
            for row in job.rows() {
                match history.offer(row[0], row[1]) {
                    Ok(answer) => digest.add_numbers(&answer.numbers()),
                    Err(refusal) => digest.add_numbers(&pair(refusal)),
                }
            }
        }
    }
    digest
}

/// The refusal of a run over lent numbers, and the digest of how it ends and
/// of every lent number after it.
fn lent(file: &[u8], count: usize) -> (Refusal, Digest) {
    let mut buffer: Vec<i32> = (LENT_FROM..).take(count).collect();
    let ran = run(file, &mut buffer);
    let (refusal, after) = match ran {
        Ran::Done(after) => (Refusal::new(0, 0), Some(after)),
        Ran::Stopped(after, refusal) => (refusal, Some(after)),
        Ran::Refused(refusal) => (refusal, None),
    };
    let mut digest = Digest::default();
    digest.add_numbers(&[refusal.number as i32, refusal.place as i32]);
    if let Some(after) = after {
        digest.add_numbers(&[after.rows as i32, after.power, after.held]);
    }
    digest.add_numbers(&buffer);
    (refusal, digest)
}

/// A row offered to a state with one field changed: 7 goes before 11.
fn state(block: &Block) -> Offered {
    let job = match load(&block.job) {
        Ok(job) => job,
        Err(refusal) => return Offered::Refused(refusal),
    };
    let mut state = state_after(&job, usize::from(block.head.rows_before));
    change_field(&mut state, &block.head);
    if state.row as usize >= MOST_ROWS {
        Offered::Refused(Refusal::new(7, MOST_ROWS as u32))
    } else if !state.in_range(job.settings()) {
        Offered::Refused(Refusal::new(11, 0))
    } else {
        Offered::Taken
    }
}

/// The state after the first so many rows of the file have been offered.
pub fn state_after(job: &Job, rows: usize) -> State {
    let mut history = job.history();
    for row in job.rows().iter().take(rows) {
        // A refused row is passed over.
        let _ = history.offer(row[0], row[1]);
    }
    history.state()
}

fn change_field(state: &mut State, head: &Head) {
    let flag = head.value != 0;
    let byte = head.value as u8;
    match head.field {
        0 => state.row = head.value,
        1 => state.sent = flag,
        2 => state.power = head.value as i32,
        3 => state.held = head.value as i32,
        4 => state.pilots = byte,
        5 => state.limited = flag,
        6 => state.run_length = byte,
        7 => state.run_left = byte,
        8 => state.opening_seen = flag,
        9 => state.opening_command = byte as i8,
        10..=13 => state.set[usize::from(head.field) - 10] = byte,
        14 => state.set_spoilt = flag,
        15 => state.filter_level = level_of(head.level),
        16 => state.filter_count = head.value,
        17 => state.filter_level = f64::NAN,
        18 => state.filter_level = f64::INFINITY,
        _ => {}
    }
}

/// A level written as a sign, the top bit, and a magnitude in parts of 2^42.
fn level_of(written: u64) -> f64 {
    let size = (written & !(1 << 63)) as f64 / LEVEL_PARTS;
    if written >> 63 == 1 {
        -size
    } else {
        size
    }
}
