//! Writing a job file from its three parts (W-202).
//!
//! No part is tested by itself. The file that the parts make is put together,
//! right or wrong, and the reader says whether it is taken.

use crate::contents::TABLE_LENGTH;
use crate::{load, Refusal, MOST_BYTES};

/// The file of these parts with its table of contents, whatever the parts are.
/// They have fewer than 2^32 bytes.
pub fn file_of(kind: u8, settings: &[u8], records: &[u8], rows: &[u8]) -> Vec<u8> {
    let bodies = [settings, records, rows];
    let mut file = vec![kind, bodies.len() as u8];
    let mut offset = TABLE_LENGTH;
    for (number, body) in (1..).zip(bodies) {
        file.push(number);
        file.extend((offset as u32).to_le_bytes());
        file.extend((body.len() as u32).to_le_bytes());
        offset += body.len();
    }
    file.extend(bodies.concat());
    file
}

/// Writes the file of these parts to the front of the lent bytes and gives its
/// size; or the reader's refusal of that file; or 12, at its size, where fewer
/// bytes are lent. A refusal leaves the lent bytes as they were.
pub fn write(
    kind: u8,
    settings: &[u8],
    records: &[u8],
    rows: &[u8],
    lent: &mut [u8],
) -> Result<usize, Refusal> {
    let file = file_of(kind, cut(settings), cut(records), cut(rows));
    load(&file)?;
    let Some(room) = lent.get_mut(..file.len()) else {
        return Err(Refusal::new(12, file.len() as u32));
    };
    room.copy_from_slice(&file);
    Ok(file.len())
}

/// A part of more bytes than a file may have makes a file that is refused with
/// 1, and its first bytes show that as well as all of them.
fn cut(part: &[u8]) -> &[u8] {
    &part[..part.len().min(MOST_BYTES + 1)]
}
