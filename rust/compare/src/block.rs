//! The block format: a head of 24 bytes, then as many bytes as its first number
//! says. They are a job to be listed, or what a job is to be written from: three
//! parts one after the other, or a text. Byte 4 tells which. Numbers are
//! little-endian.
//!
//! | Bytes | A job to be listed | Parts | A text |
//! |---|---|---|---|
//! | 0-3 | its length | their length together | its length |
//! | 4 | marks, in any mix: 1 single steps, 2 a lent buffer, 4 a state with a field changed | 8 | 16 |
//! | 5 | the field changed, 0 to 18 | kind of the job | 0 |
//! | 6-7 | rows of the file that are offered before the field is changed | 0 | 0 |
//! | 8-11 | how many numbers are lent | how many bytes are lent | the same |
//! | 12-15 | the field's new value | length of the settings | 0 |
//! | 16-19 | where the field is the filter's level, the lower half of its new value | length of the records | 0 |
//! | 20-23 | the upper half | 0 | 0 |
//!
//! The rows are what is left of the parts. The marks of a job to be listed are
//! below 8, so no block is of two kinds. A job to be listed has at most 65,600
//! bytes, and at most 240,064 numbers are lent; parts or a text have at most
//! 262,144 bytes, and at most 65,600 are lent.
//!
//! Here are the blocks of jobs to be listed; `written::block` has the others.

use std::io::{self, Read, Write};

use crate::input::{four, invalid, take};

/// Mark: run by single steps.
pub const STEPS: u8 = 1;
/// Mark: run with a lent buffer.
pub const LENT: u8 = 2;
/// Mark: a state with one field changed.
pub const STATE: u8 = 4;
/// Mark: parts to be written.
pub const PARTS: u8 = 8;
/// Mark: a text to be written.
pub const TEXT: u8 = 16;

/// The longest job of a block.
pub const LONGEST_JOB: usize = 65_600;
/// The most numbers that are lent.
pub const MOST_LENT: usize = second::ANSWER_NUMBERS * second::MOST_ROWS + 64;
/// How many bytes a head has.
pub const HEAD_LENGTH: usize = 24;

/// What a head says beside the length of the job.
#[derive(Clone, Copy, Default, PartialEq, Eq, Debug)]
pub struct Head {
    pub marks: u8,
    pub field: u8,
    pub rows_before: u16,
    pub lent: u32,
    pub value: u32,
    pub level: u64,
}

impl Head {
    pub fn is_marked(&self, mark: u8) -> bool {
        self.marks & mark != 0
    }
}

/// A block: one job and what is to be done with it.
#[derive(Clone, Default, PartialEq, Eq, Debug)]
pub struct Block {
    pub head: Head,
    pub job: Vec<u8>,
}

impl Block {
    /// The bytes of the head.
    pub fn head_bytes(&self) -> [u8; HEAD_LENGTH] {
        let mut bytes = [0; HEAD_LENGTH];
        bytes[0..4].copy_from_slice(&(self.job.len() as u32).to_le_bytes());
        bytes[4] = self.head.marks;
        bytes[5] = self.head.field;
        bytes[6..8].copy_from_slice(&self.head.rows_before.to_le_bytes());
        bytes[8..12].copy_from_slice(&self.head.lent.to_le_bytes());
        bytes[12..16].copy_from_slice(&self.head.value.to_le_bytes());
        bytes[16..24].copy_from_slice(&self.head.level.to_le_bytes());
        bytes
    }

    pub fn write(&self, to: &mut impl Write) -> io::Result<()> {
        to.write_all(&self.head_bytes())?;
        to.write_all(&self.job)
    }

    /// The block with this head, the input going on after it.
    pub fn read_after(bytes: &[u8; HEAD_LENGTH], from: &mut impl Read) -> io::Result<Block> {
        let length = four(bytes, 0) as usize;
        let head = head_of(bytes);
        if head.marks > STEPS + LENT + STATE {
            return Err(invalid("marks that the format does not have"));
        }
        if length > LONGEST_JOB || head.lent as usize > MOST_LENT {
            return Err(invalid("a head beyond the limits of the format"));
        }
        let job = take(from, length)?;
        Ok(Block { head, job })
    }
}

fn head_of(bytes: &[u8; HEAD_LENGTH]) -> Head {
    let low = u64::from(four(bytes, 16));
    let high = u64::from(four(bytes, 20));
    Head {
        marks: bytes[4],
        field: bytes[5],
        rows_before: u16::from_le_bytes([bytes[6], bytes[7]]),
        lent: four(bytes, 8),
        value: four(bytes, 12),
        level: high << 32 | low,
    }
}
