//! The lines of blocks, by digests of bytes that are written down here.

use crate::digest::Digest;
use crate::either::answer_all;
use crate::written::answer::{before, said};
use crate::written::{Block, Given, Parts};

/// The job of 49 bytes on the page.
const FOUR_ROWS: &[u8] = include_bytes!("../../../../../jobs/four-rows.job");

const TEXT: &str = "settings 1 1 0 0 1 24 1280\ngain 15 15 1\nrows 3 1 6\nrow 0 6\n";

fn page(lent: u32) -> Block {
    let given = Given::Parts(Parts {
        kind: FOUR_ROWS[0],
        settings: FOUR_ROWS[29..41].to_vec(),
        records: Vec::new(),
        rows: FOUR_ROWS[41..].to_vec(),
    });
    Block { given, lent }
}

fn text(text: &str, lent: u32) -> Block {
    let given = Given::Text(text.as_bytes().to_vec());
    Block { given, lent }
}

#[test]
fn lent_bytes_before() {
    let bytes = before(300);
    assert_eq!(bytes[..10], [7, 38, 69, 100, 131, 162, 193, 224, 255, 30]);
    assert_eq!(bytes[256..], bytes[..44]);
}

/// The line of the page's job, written from parts or from text.
#[test]
fn a_job_that_is_written() {
    for lent in [49, 50, 60] {
        let mut bytes = before(lent as usize);
        bytes[..49].copy_from_slice(FOUR_ROWS);
        let lent_digest = Digest::of(&bytes);
        let line = format!(
            "file 49 {lent_digest} back {} {} {} again {lent_digest}",
            Digest::of(&FOUR_ROWS[29..41]),
            Digest::of(&[]),
            Digest::of(&FOUR_ROWS[41..])
        );
        assert_eq!(said(&page(lent)).0, line);
        assert_eq!(said(&text(TEXT, lent)).0, line);
    }
}

#[test]
fn what_is_not_written_leaves_the_lent_bytes() {
    let digest = Digest::of(&before(48));
    let line = format!("refused 12 at 49 {digest}");
    assert_eq!(said(&page(48)).0, line);
    assert_eq!(said(&text(TEXT, 48)).0, line);
    let second = text("settings 1 1 0 0 1 24 1280\n", 48);
    assert_eq!(said(&second).0, format!("line 2 unreadable {digest}"));
    let none = text("", 0);
    assert_eq!(said(&none).0, "line 1 unreadable cbf29ce484222325");
    let mut other = page(48);
    if let Given::Parts(parts) = &mut other.given {
        parts.kind = 2;
    }
    assert_eq!(said(&other).0, format!("refused 2 at 0 {digest}"));
}

#[test]
fn the_last_line_counts_the_jobs() {
    let mut input = Vec::new();
    page(0).write(&mut input).unwrap();
    text("", 0).write(&mut input).unwrap();
    let mut output = Vec::new();
    answer_all(&mut input.as_slice(), &mut output).unwrap();
    let text = b"refused 12 at 49 cbf29ce484222325\nline 1 unreadable cbf29ce484222325\njobs 2\n";
    assert_eq!(output, text);
}
