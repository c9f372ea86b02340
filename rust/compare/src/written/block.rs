//! Blocks of jobs to be written. Their format is in the table of `crate::block`.

use std::io::{self, Read, Write};

use crate::block::{HEAD_LENGTH, PARTS, TEXT};
use crate::input::{four, invalid, take};

/// The most bytes of parts or text.
pub const MOST_GIVEN: usize = 262_144;
/// The most bytes that are lent.
pub const MOST_LENT: usize = 65_600;

/// The parts of a job to be written.
#[derive(Clone, Default, PartialEq, Eq, Debug)]
pub struct Parts {
    pub kind: u8,
    pub settings: Vec<u8>,
    pub records: Vec<u8>,
    pub rows: Vec<u8>,
}

/// What a job is to be written from.
#[derive(Clone, PartialEq, Eq, Debug)]
pub enum Given {
    Parts(Parts),
    Text(Vec<u8>),
}

impl Given {
    /// The three parts, or the text.
    pub fn bytes(&self) -> Vec<&[u8]> {
        match self {
            Given::Parts(parts) => vec![&parts.settings, &parts.records, &parts.rows],
            Given::Text(text) => vec![text],
        }
    }
}

/// A block: one job to be written, and how many bytes are lent for it.
#[derive(Clone, PartialEq, Eq, Debug)]
pub struct Block {
    pub given: Given,
    pub lent: u32,
}

impl Block {
    /// The bytes of the head.
    pub fn head_bytes(&self) -> [u8; HEAD_LENGTH] {
        let (mark, kind, settings, records) = match &self.given {
            Given::Parts(parts) => (PARTS, parts.kind, parts.settings.len(), parts.records.len()),
            Given::Text(_) => (TEXT, 0, 0, 0),
        };
        let length: usize = self.given.bytes().iter().map(|part| part.len()).sum();
        let mut bytes = [0; HEAD_LENGTH];
        bytes[0..4].copy_from_slice(&(length as u32).to_le_bytes());
        bytes[4] = mark;
        bytes[5] = kind;
        bytes[8..12].copy_from_slice(&self.lent.to_le_bytes());
        bytes[12..16].copy_from_slice(&(settings as u32).to_le_bytes());
        bytes[16..20].copy_from_slice(&(records as u32).to_le_bytes());
        bytes
    }

    pub fn write(&self, to: &mut impl Write) -> io::Result<()> {
        to.write_all(&self.head_bytes())?;
        for part in self.given.bytes() {
            to.write_all(part)?;
        }
        Ok(())
    }

    /// The block with this head, the input going on after it.
    pub fn read_after(head: &[u8; HEAD_LENGTH], from: &mut impl Read) -> io::Result<Block> {
        let length = four(head, 0) as usize;
        let lent = four(head, 8);
        if length > MOST_GIVEN || lent as usize > MOST_LENT {
            return Err(invalid("a head beyond the limits of the format"));
        }
        let lengths = [12, 16, 20].map(|at| four(head, at) as usize);
        let bytes = take(from, length)?;
        let given = match (&head[4..8], lengths) {
            (&[PARTS, kind, 0, 0], [settings, records, 0]) => {
                cut(kind, settings, records, &bytes).map(Given::Parts)
            }
            ([TEXT, 0, 0, 0], [0, 0, 0]) => Some(Given::Text(bytes)),
            _ => None,
        };
        match given {
            Some(given) => Ok(Block { given, lent }),
            None => Err(invalid("a head of neither parts nor a text")),
        }
    }
}

/// The parts that have these bytes, unless settings and records are longer.
fn cut(kind: u8, settings: usize, records: usize, bytes: &[u8]) -> Option<Parts> {
    let (settings, rest) = bytes.split_at_checked(settings)?;
    let (records, rows) = rest.split_at_checked(records)?;
    Some(Parts {
        kind,
        settings: settings.to_vec(),
        records: records.to_vec(),
        rows: rows.to_vec(),
    })
}
