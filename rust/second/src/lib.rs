//! The uplink power reference, written down a second time.
//!
//! "The page" is the statement of what to build, with the change requests that
//! are built. This crate was made from it, from the decisions on how it is read
//! and from the table of a state's ranges, and not from the proved code. It goes
//! another way than a program that steps a small state from row to row: the
//! slots of a job are laid out from its gap pattern, each with the ids of the
//! sequences that opened it, and looked up there; the accepted rows are kept as
//! a list, and whatever a row needs of the rows before it is worked out from
//! that list. A job is written by making the file and asking the reader. Two
//! programs that agree on many jobs and were made in such different ways are
//! unlikely to share a mistake.

mod command;
mod contents;
mod filter;
mod gain;
mod history;
mod job;
mod layout;
mod levels;
mod listing;
mod refusal;
mod rules;
mod sequences;
mod settings;
mod state;
mod text;
mod write;

#[cfg(test)]
mod tests;

pub use command::{algorithm_1, algorithm_2, temporary, vote};
pub use contents::Bodies;
pub use filter::Filter;
pub use gain::Gain;
pub use history::{Answer, History};
pub use job::{load, parts, run, After, Job, Ran};
pub use layout::{sum_of_ids, Layout, Place, Run};
pub use levels::level;
pub use listing::listing;
pub use refusal::Refusal;
pub use sequences::Sequence;
pub use settings::Settings;
pub use state::State;
pub use text::{compose, ranges_of, Composed, Reason, MOST_TEXT};
pub use write::{file_of, write};

/// The most rows that a job may have, or a history may accept.
pub const MOST_ROWS: usize = 30_000;

/// The most bytes of a job file.
pub const MOST_BYTES: usize = 65_536;

/// The most gap records of a job.
pub const MOST_RECORDS: usize = 6;

/// Numbers of a row's answer.
pub const ANSWER_NUMBERS: usize = 8;

/// The lowest control power, in units.
pub const LOWEST_POWER: i32 = -9_600;

/// The highest start power, in units.
pub const HIGHEST_START: i32 = 2_112;

/// Slots of a frame.
pub const FRAME: usize = 15;
