//! Reading the heads of blocks.

use std::io::{self, Read};

use crate::block::HEAD_LENGTH;

/// The next head, or none where the input ends between two blocks.
pub fn next_head(from: &mut impl Read) -> io::Result<Option<[u8; HEAD_LENGTH]>> {
    let mut head = [0; HEAD_LENGTH];
    let mut filled = 0;
    while filled < HEAD_LENGTH {
        match from.read(&mut head[filled..]) {
            Ok(0) if filled == 0 => return Ok(None),
            Ok(0) => return Err(invalid("the input ends within a head")),
            Ok(count) => filled += count,
            Err(error) if error.kind() == io::ErrorKind::Interrupted => {}
            Err(error) => return Err(error),
        }
    }
    Ok(Some(head))
}

/// So many bytes.
pub fn take(from: &mut impl Read, length: usize) -> io::Result<Vec<u8>> {
    let mut bytes = vec![0; length];
    from.read_exact(&mut bytes)?;
    Ok(bytes)
}

/// The number of four bytes at this place of a head.
pub fn four(head: &[u8], at: usize) -> u32 {
    u32::from_le_bytes([head[at], head[at + 1], head[at + 2], head[at + 3]])
}

pub fn invalid(what: &str) -> io::Error {
    io::Error::new(io::ErrorKind::InvalidData, what)
}
