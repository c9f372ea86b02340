//! The proved reference, for a bench set written in Rust. Each function here calls one function of
//! the archive that the Rattle crate `exports` makes; what that answers, for every input, is stated
//! and proved there. The only unsafe code is the calls: the archive asks nothing of a caller but
//! slices that are there.
//!
//! ```
//! let job = include_bytes!("../../../jobs/four-rows.job");
//! let mut numbers = vec![0; uplink::numbers_needed(job)?];
//! let rows = match uplink::run(job, &mut numbers) {
//!     Ok(rows) => rows,
//!     // 8 and 9 come at a row; the answers of the rows before it stand
//!     Err(refusal) => refusal.rows_before(),
//! };
//! for answer in uplink::answers(&numbers, rows) {
//!     println!("{:?}: control power {}/64 dBm", answer.sent, answer.dpcch);
//! }
//! assert_eq!(rows, 4);
//! # Ok::<(), uplink::Refusal>(())
//! ```
//!
//! Each answer also tells which gap sequences opened the gap that its slot is in:
//!
//! ```
//! let job = include_bytes!("../../../jobs/lift.job");
//! let mut numbers = vec![0; uplink::numbers_needed(job)?];
//! let rows = uplink::run(job, &mut numbers)?;
//! let answers: Vec<_> = uplink::answers(&numbers, rows).collect();
//! for (slot, answer) in answers.iter().enumerate() {
//!     for id in answer.by().iter() {
//!         println!("sequence {id} put slot {slot} into a gap");
//!     }
//! }
//! // sequence 1 opens its gap in both directions, sequence 2 in the downlink alone
//! assert_eq!((answers[12].uplink, answers[12].downlink), (answers[12].by(), answers[12].by()));
//! assert_eq!(answers[12].by().to_string(), "1");
//! assert!(answers[35].uplink.is_empty() && answers[35].downlink.contains(2));
//! assert_eq!(answers[19].by().to_string(), "-");
//! # Ok::<(), uplink::Refusal>(())
//! ```
//!
//! A [`JobBuilder`] makes a job from its numbers, and [`write()`] from the bytes of its parts.

mod builder;
mod call;
mod ids;
mod write;

pub use builder::{Direction, Gain, Gap, JobBuilder, Settings};
pub use call::{load, numbers_needed, run, run_rows, slot};
pub use ids::Ids;
pub use write::{bytes_needed, record_bytes, settings_bytes, write, RECORD_BYTES, SETTINGS_BYTES};

/// Why a job or a row is refused: the number that the page gives, and its place.
#[derive(Clone, Copy, Debug, PartialEq, Eq)]
pub struct Refusal {
    pub number: u8,
    pub place: usize,
}

impl Refusal {
    /// How many rows were answered before: the place of 8 and 9 is the row that they refuse, and any
    /// other refusal leaves the whole buffer as it was.
    pub fn rows_before(&self) -> usize {
        match self.number {
            8 | 9 => self.place,
            _ => 0,
        }
    }
}

impl std::fmt::Display for Refusal {
    fn fmt(&self, f: &mut std::fmt::Formatter<'_>) -> std::fmt::Result {
        write!(f, "refused {} at {}", self.number, self.place)
    }
}

impl std::error::Error for Refusal {}

/// The form of [`State`]: a state of another version is refused with 11 and never misread.
pub const STATE_VERSION: i64 = 1;

/// How many numbers a [`State`] has before its level, its version among them.
pub const STATE_NUMBERS: usize = 17;

/// The state of a job between two rows, field by field as `docs/STATE.md` has it. Truths are 0 and 1.
#[repr(C)]
#[derive(Clone, Copy, Debug, PartialEq)]
pub struct State {
    pub version: i64,
    pub row: i64,
    pub sent: i64,
    pub power: i64,
    pub held: i64,
    pub pilots: i64,
    pub limited: i64,
    pub run_length: i64,
    pub run_left: i64,
    pub opening_seen: i64,
    pub opening_command: i64,
    pub set_a: i64,
    pub set_b: i64,
    pub set_c: i64,
    pub set_d: i64,
    pub set_spoilt: i64,
    pub filter_count: i64,
    pub filter_level: f64,
}

// the numbers lie one after the other, and the level after them
const _: () = assert!(std::mem::offset_of!(State, version) == 0);
const _: () = assert!(std::mem::offset_of!(State, filter_level) == 8 * STATE_NUMBERS);
const _: () = assert!(std::mem::size_of::<State>() == 8 * (STATE_NUMBERS + 1));

impl State {
    /// All fields 0: memory to lend, and no state.
    const BLANK: State = State {
        version: 0,
        row: 0,
        sent: 0,
        power: 0,
        held: 0,
        pilots: 0,
        limited: 0,
        run_length: 0,
        run_left: 0,
        opening_seen: 0,
        opening_command: 0,
        set_a: 0,
        set_b: 0,
        set_c: 0,
        set_d: 0,
        set_spoilt: 0,
        filter_count: 0,
        filter_level: 0.0,
    };
}

/// A live test: a job, and its state between two rows.
#[derive(Clone, Debug)]
pub struct Live<'a> {
    job: &'a [u8],
    state: State,
}

/// Which gap sequences put a slot into a gap, in each direction. It is a gap slot of a direction exactly if there is one.
#[derive(Clone, Copy, Debug, PartialEq, Eq)]
pub struct Slot {
    pub uplink: Ids,
    pub downlink: Ids,
}

impl Slot {
    pub fn uplink_gap(&self) -> bool {
        !self.uplink.is_empty()
    }

    pub fn downlink_gap(&self) -> bool {
        !self.downlink.is_empty()
    }

    /// The ids of either direction, each once.
    pub fn by(&self) -> Ids {
        self.uplink | self.downlink
    }
}

/// How many numbers each row has.
pub const NUMBERS_A_ROW: usize = 8;

/// What a row was, by the first of its numbers.
#[derive(Clone, Copy, Debug, PartialEq, Eq)]
pub enum Sent {
    Gap,
    Unlimited,
    Limited,
}

/// One row's answer. Powers are units of 1/64 dB above 0 dBm, and 0 where there is none: in a gap,
/// and data power where the job sends no data. The last two are the ids of the gap sequences that put
/// its slot into a gap of each direction.
#[derive(Clone, Copy, Debug, PartialEq, Eq)]
pub struct Answer {
    pub sent: Sent,
    pub command: i32,
    pub dpcch: i32,
    pub dpdch: i32,
    pub total: i32,
    pub held: i32,
    pub uplink: Ids,
    pub downlink: Ids,
}

impl Answer {
    /// The ids of either direction, each once, as the column `by` of the listing has them.
    pub fn by(&self) -> Ids {
        self.uplink | self.downlink
    }
}

/// The answers of so many rows, as a run has left them in a buffer.
pub fn answers(numbers: &[i32], rows: usize) -> impl Iterator<Item = Answer> + '_ {
    numbers
        .chunks_exact(NUMBERS_A_ROW)
        .take(rows)
        .map(|row| Answer {
            sent: match row[0] {
                0 => Sent::Gap,
                1 => Sent::Unlimited,
                _ => Sent::Limited,
            },
            command: row[1],
            dpcch: row[2],
            dpdch: row[3],
            total: row[4],
            held: row[5],
            uplink: Ids::of(row[6]),
            downlink: Ids::of(row[7]),
        })
}
