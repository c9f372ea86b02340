//! Blocks of both kinds, one after the other.

use crate::block::{HEAD_LENGTH, PARTS, TEXT};
use crate::either::{answer_all, Either, Tally};
use crate::subject::{Scope, Subject};

use super::written::format::{of_parts, of_text};

/// Blocks of both kinds in turn, with those whose heads are written down.
fn blocks() -> Vec<Either> {
    let mut blocks = vec![Either::Written(of_parts()), Either::Written(of_text())];
    for number in 0..400 {
        blocks.push(Either::Listed(Subject::drawn(3, number, Scope::Any)));
        blocks.push(Either::Written(Subject::drawn(3, number, Scope::Any)));
    }
    blocks
}

fn bytes_of(blocks: &[Either]) -> Vec<u8> {
    let mut bytes = Vec::new();
    for block in blocks {
        block.write(&mut bytes).unwrap();
    }
    bytes
}

#[test]
fn blocks_are_read_as_they_were_written() {
    let blocks = blocks();
    let bytes = bytes_of(&blocks);
    let mut from = bytes.as_slice();
    for block in &blocks {
        assert_eq!(Either::read(&mut from).unwrap().as_ref(), Some(block));
    }
    assert_eq!(Either::read(&mut from).unwrap(), None);
}

#[test]
fn input_that_ends_within_a_block_is_an_error() {
    for block in &blocks()[..4] {
        let bytes = bytes_of(std::slice::from_ref(block));
        for length in [1, HEAD_LENGTH - 1, HEAD_LENGTH, bytes.len() - 1] {
            assert!(Either::read(&mut &bytes[..length]).is_err());
        }
    }
}

/// Eight for parts, sixteen for a text, and less for a job to be listed.
#[test]
fn the_mark_tells_the_kind() {
    for mark in 0..=255 {
        let mut head = [0; HEAD_LENGTH];
        head[4] = mark;
        match Either::read(&mut head.as_slice()) {
            Ok(Some(Either::Written(_))) => assert!([PARTS, TEXT].contains(&mark)),
            Ok(Some(Either::Listed(_))) => assert!(mark < PARTS),
            Ok(None) => panic!("the input has not ended"),
            Err(_) => assert!(mark > PARTS && mark != TEXT),
        }
    }
}

#[test]
fn each_kind_is_counted_by_itself() {
    let blocks = &blocks()[..102];
    let mut tally = Tally::default();
    let mut lines: Vec<String> = blocks.iter().map(|block| block.line(&mut tally)).collect();
    lines.push("jobs 102\n".to_string());
    let mut output = Vec::new();
    answer_all(&mut bytes_of(blocks).as_slice(), &mut output).unwrap();
    assert_eq!(String::from_utf8(output).unwrap(), lines.join("\n"));
    assert_eq!(tally.listed.most_ids.values().sum::<u64>(), 50);
    let [parts, text] = [&tally.written.parts, &tally.written.text];
    let refused: u64 = parts.refused.values().chain(text.refused.values()).sum();
    let unreadable: u64 = tally.written.unreadable.values().sum();
    assert_eq!(parts.written + text.written + refused + unreadable, 52);
}
