//! Blocks of parts and of text.

use crate::block::HEAD_LENGTH;
use crate::written::block::{MOST_GIVEN, MOST_LENT};
use crate::written::{Block, Given, Parts};

pub fn of_parts() -> Block {
    Block {
        given: Given::Parts(Parts {
            kind: 255,
            settings: vec![5; 12],
            records: vec![6; 258],
            rows: vec![7; 3],
        }),
        lent: 0xf001,
    }
}

pub fn of_text() -> Block {
    Block {
        given: Given::Text(b"row".repeat(200)),
        lent: 1,
    }
}

#[test]
fn heads_byte_by_byte() {
    let head: [u8; HEAD_LENGTH] = [
        17, 1, 0, 0, 8, 255, 0, 0, 1, 0xf0, 0, 0, 12, 0, 0, 0, 2, 1, 0, 0, 0, 0, 0, 0,
    ];
    assert_eq!(of_parts().head_bytes(), head);
    let head: [u8; HEAD_LENGTH] = [
        88, 2, 0, 0, 16, 0, 0, 0, 1, 0, 0, 0, 0, 0, 0, 0, 0, 0, 0, 0, 0, 0, 0, 0,
    ];
    assert_eq!(of_text().head_bytes(), head);
}

/// A head with one number of four bytes changed, and as many bytes after it as
/// any block has.
fn is_read(block: &Block, at: usize, number: u32) -> bool {
    let mut head = block.head_bytes();
    head[at..at + 4].copy_from_slice(&number.to_le_bytes());
    Block::read_after(&head, &mut [0; MOST_GIVEN].as_slice()).is_ok()
}

#[test]
fn heads_beyond_the_limits_are_errors() {
    for block in [of_parts(), of_text()] {
        for (at, most) in [(0, MOST_GIVEN as u32), (8, MOST_LENT as u32)] {
            assert!(is_read(&block, at, most) && !is_read(&block, at, most + 1));
        }
    }
}

/// Settings and records are no longer than all parts.
#[test]
fn parts_that_are_too_long_are_errors() {
    let parts = of_parts();
    assert!(is_read(&parts, 0, 270) && !is_read(&parts, 0, 269));
    assert!(is_read(&parts, 12, 15) && !is_read(&parts, 12, 16));
    assert!(is_read(&parts, 16, 261) && !is_read(&parts, 16, 262));
    assert!(!is_read(&parts, 12, u32::MAX) && !is_read(&parts, 16, u32::MAX));
}

#[test]
fn heads_of_neither_parts_nor_a_text_are_errors() {
    let (parts, text) = (of_parts(), of_text());
    assert!([12, 16, 20].iter().all(|&at| !is_read(&text, at, 1)));
    assert!(!is_read(&parts, 20, 1));
    assert!(is_read(&parts, 4, 0x0000_0108));
    for second in [0, 1, 9, 24, 32, 0x0000_0110, 0x0001_0008, 0x0100_0010] {
        assert!(!is_read(&text, 4, second) && !is_read(&parts, 4, second));
    }
}
