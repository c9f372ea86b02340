//! What kinds of answers a comparison of written jobs has met.

use std::collections::BTreeMap;
use std::fmt;

use second::{Composed, Reason, Refusal};

use super::block::{Block, Given};

/// Jobs from parts, or jobs from text.
#[derive(Clone, Default, Debug)]
pub struct Outcomes {
    pub written: u64,
    /// By number and place.
    pub refused: BTreeMap<(u32, u32), u64>,
}

impl Outcomes {
    /// How many were refused with this number, and at how many places.
    pub fn refused_with(&self, number: u32) -> (u64, usize) {
        let places = self.refused.range((number, 0)..=(number, u32::MAX));
        places.fold((0, 0), |(count, places), (_, more)| {
            (count + more, places + 1)
        })
    }
}

/// Counts over all blocks of a comparison.
#[derive(Clone, Default, Debug)]
pub struct Tally {
    pub parts: Outcomes,
    pub text: Outcomes,
    /// Texts that cannot be read, by the reason and by whether it is in the
    /// first line.
    pub unreadable: BTreeMap<(Reason, bool), u64>,
    /// Jobs written to exactly as many bytes as they need.
    pub exactly: u64,
    /// Jobs refused with 12 where one byte more would have been enough.
    pub one_too_few: u64,
}

impl Tally {
    /// Counts a block by what became of it.
    pub fn count(&mut self, block: &Block, composed: Composed) {
        let outcomes = match block.given {
            Given::Parts(_) => &mut self.parts,
            Given::Text(_) => &mut self.text,
        };
        match composed {
            Composed::Written(size) => {
                outcomes.written += 1;
                self.exactly += u64::from(size == block.lent as usize);
            }
            Composed::Refused(Refusal { number, place }) => {
                *outcomes.refused.entry((number, place)).or_default() += 1;
                self.one_too_few += u64::from(number == 12 && place == block.lent + 1);
            }
            Composed::Unreadable(line, reason) => {
                *self.unreadable.entry((reason, line == 1)).or_default() += 1;
            }
            // No block has so many bytes.
            Composed::TooLong => {}
        }
    }

    /// Texts that cannot be read for this reason.
    pub fn unreadable_for(&self, reason: Reason) -> u64 {
        let counts = self.unreadable.range((reason, false)..=(reason, true));
        counts.map(|entry| entry.1).sum()
    }
}

impl fmt::Display for Tally {
    fn fmt(&self, to: &mut fmt::Formatter) -> fmt::Result {
        let written = self.parts.written + self.text.written;
        writeln!(to, "{written} written")?;
        writeln!(to, "  from parts: {}", self.parts)?;
        writeln!(to, "  from text: {}", self.text)?;
        let mut unreadable = Vec::new();
        for ((reason, first), count) in &self.unreadable {
            let line = if *first { " in line 1" } else { "" };
            unreadable.push(format!("{reason:?}{line} {count}"));
        }
        writeln!(to, "  unreadable: {}", unreadable.join(", "))?;
        writeln!(
            to,
            "  lent exactly what is needed: {}, one byte too few: {}",
            self.exactly, self.one_too_few
        )
    }
}

/// Refusals 2 and 3 by their places, the others by their number.
impl fmt::Display for Outcomes {
    fn fmt(&self, to: &mut fmt::Formatter) -> fmt::Result {
        write!(to, "written {}, refused", self.written)?;
        for number in 1..=12 {
            let (count, places) = self.refused_with(number);
            match (number, places) {
                (_, 0) => {}
                (2 | 3, _) => {
                    let at = self.refused.range((number, 0)..=(number, u32::MAX));
                    for ((number, place), count) in at {
                        write!(to, " [{number} at {place}] {count}")?;
                    }
                }
                (_, 1) => write!(to, " [{number}] {count}")?,
                _ => write!(to, " [{number}] {count} at {places} places")?,
            }
        }
        Ok(())
    }
}
