//! Blocks and digests.

use crate::block::{Block, Head, HEAD_LENGTH, LONGEST_JOB, MOST_LENT};
use crate::digest::Digest;

#[test]
fn digests_that_are_published() {
    for (text, digest) in [
        ("", "cbf29ce484222325"),
        ("a", "af63dc4c8601ec8c"),
        ("foobar", "85944171f73967e8"),
    ] {
        assert_eq!(Digest::of(text.as_bytes()).to_string(), digest);
    }
}

#[test]
fn numbers_are_little_endian() {
    let mut digest = Digest::default();
    digest.add_numbers(&[-2, 256]);
    let bytes = [254, 255, 255, 255, 0, 1, 0, 0];
    assert_eq!(digest.to_string(), Digest::of(&bytes).to_string());
}

#[test]
fn a_head_byte_by_byte() {
    let head = Head {
        marks: 5,
        field: 15,
        rows_before: 0x0102,
        lent: 0x0002_0304,
        value: 0x0506_0708,
        level: 0x8182_8384_8586_8788,
    };
    let block = Block {
        head,
        job: vec![9; 258],
    };
    let bytes: [u8; HEAD_LENGTH] = [
        2, 1, 0, 0, 5, 15, 2, 1, 4, 3, 2, 0, 8, 7, 6, 5, 0x88, 0x87, 0x86, 0x85, 0x84, 0x83, 0x82,
        0x81,
    ];
    assert_eq!(block.head_bytes(), bytes);
}

/// A head with one byte or one number of four bytes changed, and as many bytes
/// after it as any job has.
fn is_read(at: usize, changed: &[u8]) -> bool {
    let mut head = Block::default().head_bytes();
    head[at..at + changed.len()].copy_from_slice(changed);
    Block::read_after(&head, &mut [0; LONGEST_JOB].as_slice()).is_ok()
}

#[test]
fn heads_outside_the_format_are_errors() {
    for (at, most) in [(0, LONGEST_JOB as u32), (8, MOST_LENT as u32)] {
        assert!(is_read(at, &most.to_le_bytes()));
        assert!(!is_read(at, &(most + 1).to_le_bytes()));
    }
    assert!((0..8).all(|marks| is_read(4, &[marks])));
    assert!((8..=255).all(|marks| !is_read(4, &[marks])));
}
