//! What the page says of a block: one line of text.

use second::{compose, parts, write, Composed, Refusal};

use super::block::{Block, Given};
use crate::digest::Digest;

/// The lent bytes before anything is written. Each differs from its
/// neighbours, so that one that is written, moved or left is seen.
pub fn before(lent: usize) -> Vec<u8> {
    (0..lent).map(|at| (7 + 31 * at) as u8).collect()
}

/// What becomes of what is given, by way of lent bytes.
pub fn composed(given: &Given, lent: &mut [u8]) -> Composed {
    match given {
        Given::Text(text) => compose(text, lent),
        Given::Parts(parts) => {
            let written = write(
                parts.kind,
                &parts.settings,
                &parts.records,
                &parts.rows,
                lent,
            );
            written.map_or_else(Composed::Refused, Composed::Written)
        }
    }
}

/// The line of a block, and what became of it.
pub fn said(block: &Block) -> (String, Composed) {
    let mut lent = before(block.lent as usize);
    let composed = composed(&block.given, &mut lent);
    let digest = Digest::of(&lent);
    let line = match composed {
        Composed::Written(size) => {
            let back = back(&lent[..size], lent.len());
            format!("file {size} {digest} {back}")
        }
        Composed::Refused(Refusal { number, place }) => {
            format!("refused {number} at {place} {digest}")
        }
        Composed::Unreadable(line, _) => format!("line {line} unreadable {digest}"),
        // No block comes to this: it has `MOST_GIVEN` bytes at most, a fourth of what a text may have.
        Composed::TooLong => format!("input too long {digest}"),
    };
    (line, composed)
}

/// The parts that the reader finds in a file, and as many lent bytes again
/// after these parts are written to them.
fn back(file: &[u8], lent: usize) -> String {
    let found = parts(file).expect("what is written is taken");
    let mut again = before(lent);
    write(
        file[0],
        found.settings,
        found.records,
        found.rows,
        &mut again,
    )
    .expect("what was written once can be written again");
    let [settings, records, rows] = [found.settings, found.records, found.rows].map(Digest::of);
    format!(
        "back {settings} {records} {rows} again {}",
        Digest::of(&again)
    )
}
