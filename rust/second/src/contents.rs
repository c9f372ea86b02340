//! The job file: the table of contents and the three bodies.

use crate::{Refusal, MOST_BYTES};

/// Where the first body begins, and how long the table of contents is.
pub const TABLE_LENGTH: usize = 29;

/// The three bodies, as parts of the file.
#[derive(Clone, Copy, PartialEq, Eq, Debug)]
pub struct Bodies<'a> {
    pub settings: &'a [u8],
    pub records: &'a [u8],
    pub rows: &'a [u8],
}

/// One entry of the table of contents. Offset and length are 32-bit numbers
/// in the file; they are held wider so that their sum cannot wrap around.
struct Entry {
    kind: u8,
    offset: u64,
    length: u64,
}

impl Entry {
    /// Entry 1, 2 or 3 of a file that has a whole table of contents.
    fn of(file: &[u8], number: usize) -> Entry {
        let at = 2 + 9 * (number - 1);
        let four = |from: usize| {
            let bytes = [file[from], file[from + 1], file[from + 2], file[from + 3]];
            u64::from(u32::from_le_bytes(bytes))
        };
        Entry {
            kind: file[at],
            offset: four(at + 1),
            length: four(at + 5),
        }
    }

    fn end(&self) -> u64 {
        self.offset + self.length
    }

    /// Everything that refusal 2 asks of an entry; `begin` is where the body
    /// before ends.
    fn is_right(&self, number: usize, begin: u64, file_length: u64) -> bool {
        let length_is_right = match number {
            1 => self.length == 12,
            2 => self.length.is_multiple_of(12),
            _ => self.length.is_multiple_of(2) && self.end() == file_length,
        };
        usize::from(self.kind) == number
            && self.offset == begin
            && length_is_right
            && self.end() <= file_length
    }
}

/// The bodies of a file, or refusal 1 or 2.
pub fn bodies(file: &[u8]) -> Result<Bodies<'_>, Refusal> {
    if file.len() > MOST_BYTES {
        return Err(Refusal::new(1, 0));
    }
    if file.len() < TABLE_LENGTH || file[0] != 1 || file[1] != 3 {
        return Err(Refusal::new(2, 0));
    }
    let mut ends = [TABLE_LENGTH; 4];
    for number in 1..=3 {
        let entry = Entry::of(file, number);
        if !entry.is_right(number, ends[number - 1] as u64, file.len() as u64) {
            return Err(Refusal::new(2, number as u32));
        }
        // A right entry ends within the file, so its end fits.
        ends[number] = entry.end() as usize;
    }
    Ok(Bodies {
        settings: &file[ends[0]..ends[1]],
        records: &file[ends[1]..ends[2]],
        rows: &file[ends[2]..ends[3]],
    })
}
