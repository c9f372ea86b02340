//! What kinds of answers a comparison has met.

use std::collections::BTreeMap;
use std::fmt;

use crate::answer::{Offered, Said};
use crate::block::{Block, STEPS};

/// Counts over all jobs of a comparison.
#[derive(Clone, Default, Debug)]
pub struct Tally {
    /// Rows that were listed.
    pub rows: u64,
    /// Jobs that were listed whole.
    pub whole: u64,
    /// Jobs by the most ids that have opened one of the slots listed.
    pub most_ids: BTreeMap<u32, u64>,
    /// Jobs by the number of their refusal.
    pub refused: BTreeMap<u32, u64>,
    pub marked_steps: u64,
    /// Runs with a lent buffer, by the number of their refusal; 0 is none.
    pub lent: BTreeMap<u32, u64>,
    /// States with a field changed, likewise; 0 is taken.
    pub states: BTreeMap<u32, u64>,
}

impl Tally {
    /// Counts a block by what the page says of it.
    pub fn count(&mut self, block: &Block, said: &Said) {
        let last = said.line.split(", ").next().unwrap_or_default();
        match refusal_number(last) {
            Some(number) => *self.refused.entry(number).or_default() += 1,
            None => self.whole += 1,
        }
        self.rows += rows_listed(last);
        *self.most_ids.entry(said.most_ids).or_default() += 1;
        self.marked_steps += u64::from(block.head.is_marked(STEPS));
        if let Some(refusal) = said.lent {
            *self.lent.entry(refusal.number).or_default() += 1;
        }
        match said.state {
            Some(Offered::Taken) => *self.states.entry(0).or_default() += 1,
            Some(Offered::Refused(refusal)) => {
                *self.states.entry(refusal.number).or_default() += 1;
            }
            None => {}
        }
    }

    /// Jobs in which two or more ids have opened one of the slots listed.
    pub fn several_ids(&self) -> u64 {
        self.most_ids.range(2..).map(|entry| entry.1).sum()
    }
}

/// The number in `refused NUMBER at PLACE`.
fn refusal_number(words: &str) -> Option<u32> {
    let rest = words.strip_prefix("refused ")?;
    rest.split(' ').next()?.parse().ok()
}

/// How many rows a listing with this last line has.
fn rows_listed(last: &str) -> u64 {
    let words: Vec<&str> = last.split(' ').collect();
    match words.as_slice() {
        ["rows", rows, ..] => rows.parse().unwrap_or(0),
        ["refused", "8" | "9", "at", row] => row.parse().unwrap_or(0),
        _ => 0,
    }
}

impl fmt::Display for Tally {
    fn fmt(&self, to: &mut fmt::Formatter) -> fmt::Result {
        writeln!(to, "{} rows listed", self.rows)?;
        writeln!(
            to,
            "  listed whole {}, refused {}",
            self.whole,
            table(&self.refused)
        )?;
        writeln!(
            to,
            "  two or more ids in one slot: {}; the most ids in a slot: {}",
            self.several_ids(),
            table(&self.most_ids)
        )?;
        writeln!(to, "  run by single steps: {}", self.marked_steps)?;
        writeln!(
            to,
            "  run with a lent buffer, by refusal: {}",
            table(&self.lent)
        )?;
        writeln!(to, "  states changed, by refusal: {}", table(&self.states))
    }
}

/// Counts by a number, of a refusal or of ids, 0 standing for none.
fn table(counts: &BTreeMap<u32, u64>) -> String {
    let parts: Vec<String> = counts
        .iter()
        .map(|(number, count)| match number {
            0 => format!("none {count}"),
            _ => format!("[{number}] {count}"),
        })
        .collect();
    parts.join(", ")
}
