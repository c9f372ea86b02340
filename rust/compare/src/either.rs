//! A block of either kind, told by its mark, and answering many of them.

use std::io::{self, BufRead, Read, Write};

use crate::block::{Block, PARTS, TEXT};
use crate::input::next_head;
use crate::subject::{ending, Subject};
use crate::{tally, written};

/// A job to be listed or one to be written.
#[derive(Clone, PartialEq, Eq, Debug)]
pub enum Either {
    Listed(Block),
    Written(written::Block),
}

/// Counts of each kind.
#[derive(Clone, Default, Debug)]
pub struct Tally {
    pub listed: tally::Tally,
    pub written: written::tally::Tally,
}

impl Either {
    /// The next block, or none where the input ends between two blocks.
    pub fn read(from: &mut impl Read) -> io::Result<Option<Either>> {
        let Some(head) = next_head(from)? else {
            return Ok(None);
        };
        Ok(Some(match head[4] {
            PARTS | TEXT => Either::Written(written::Block::read_after(&head, from)?),
            _ => Either::Listed(Block::read_after(&head, from)?),
        }))
    }

    pub fn write(&self, to: &mut impl Write) -> io::Result<()> {
        match self {
            Either::Listed(block) => block.write(to),
            Either::Written(block) => block.write(to),
        }
    }

    /// The page's answer, without a line feed. It is counted.
    pub fn line(&self, tally: &mut Tally) -> String {
        match self {
            Either::Listed(block) => block.line(&mut tally.listed),
            Either::Written(block) => block.line(&mut tally.written),
        }
    }
}

/// Answers block after block until the input ends.
pub fn answer_all(from: &mut impl BufRead, to: &mut impl Write) -> io::Result<()> {
    let mut tally = Tally::default();
    let mut blocks = 0;
    while let Some(block) = Either::read(from)? {
        writeln!(to, "{}", block.line(&mut tally))?;
        blocks += 1;
    }
    writeln!(to, "{}", ending(blocks))?;
    to.flush()
}
