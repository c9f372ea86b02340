//! What a comparison is about: blocks of one kind, each answered by one line.

use std::fmt::Display;
use std::io::{self, Write};

/// How large drawn blocks may be.
#[derive(Clone, Copy, PartialEq, Eq, Debug)]
pub enum Scope {
    /// Blocks of any size, long ones seldom.
    Any,
    /// For files that are kept: none is long but for a few at the begin.
    Kept,
}

/// A block: what is drawn, handed to a program and answered.
pub trait Subject: Sized + Sync {
    /// What kinds of answers were met.
    type Tally: Default + Display;

    /// The block with this number of a seed.
    fn drawn(seed: u64, number: u64, scope: Scope) -> Self;

    /// The kind of block that is drawn, where it may have any size.
    fn kind(seed: u64, number: u64) -> String;

    fn write(&self, to: &mut impl Write) -> io::Result<()>;

    /// The page's answer, without a line feed. It is counted.
    fn line(&self, tally: &mut Self::Tally) -> String;

    /// What a report shows of a block, each with its name.
    fn shown(&self) -> Vec<(&'static str, Vec<u8>)>;
}

/// The line after the answers of so many blocks.
pub fn ending(blocks: u64) -> String {
    format!("jobs {blocks}")
}
