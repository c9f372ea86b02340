//! The lines of blocks, worked out by hand where a digest allows it.

use crate::answer::{said, Offered};
use crate::block::{Block, Head, LENT, STATE, STEPS};
use crate::digest::Digest;
use crate::either::answer_all;
use second::Refusal;

/// The job of 49 bytes on the page.
const FOUR_ROWS: &[u8] = include_bytes!("../../../../jobs/four-rows.job");

/// The answers of its rows.
const ANSWERS: [i32; 32] = [
    1, 1, 1280, 1280, 1473, 0, 0, 0, 2, 1, 1343, 1343, 1536, 1, 0, 0, 2, 1, 1343, 1343, 1536, 65,
    0, 0, 1, -1, 1279, 1279, 1472, 65, 0, 0,
];

fn four_rows(head: Head) -> Block {
    Block {
        head,
        job: FOUR_ROWS.to_vec(),
    }
}

fn digest_of(numbers: &[i32]) -> String {
    let mut digest = Digest::default();
    digest.add_numbers(numbers);
    digest.to_string()
}

#[test]
fn a_listing_alone() {
    let line = said(&four_rows(Head::default())).line;
    assert_eq!(line, "rows 4 held 65, 158 5a0bec45a52e3e41");
}

#[test]
fn steps_and_a_lent_buffer() {
    let head = Head {
        marks: STEPS | LENT,
        lent: 33,
        ..Head::default()
    };
    let line = said(&four_rows(head)).line;
    let mut lent = vec![0, 0, 4, 1279, 65];
    lent.extend(ANSWERS);
    lent.push(1_000_032);
    let ending = format!(", steps {}, lent {}", digest_of(&ANSWERS), digest_of(&lent));
    assert!(line.ends_with(&ending), "{line}");
}

#[test]
fn a_refused_row_is_passed_over() {
    let mut block = four_rows(Head {
        marks: STEPS | LENT,
        lent: 32,
        ..Head::default()
    });
    block.job[43] = 2;
    let line = said(&block).line;
    assert!(line.starts_with("refused 8 at 1, "));
    let mut steps = ANSWERS[..8].to_vec();
    steps.extend([8, 1]);
    steps.extend([2, 1, 1343, 1343, 1536, 1, 0, 0]);
    steps.extend([1, -1, 1279, 1279, 1472, 1, 0, 0]);
    let mut lent = vec![8, 1, 1, 1280, 0];
    lent.extend(&ANSWERS[..8]);
    lent.extend(1_000_008..1_000_032);
    let ending = format!(", steps {}, lent {}", digest_of(&steps), digest_of(&lent));
    assert!(line.ends_with(&ending), "{line}");
}

#[test]
fn a_buffer_that_is_too_short() {
    // One number too few, and as many as six a row would be.
    for count in [31, 24] {
        let head = Head {
            marks: LENT,
            lent: count,
            ..Head::default()
        };
        let said = said(&four_rows(head));
        let mut lent = vec![10, 32];
        lent.extend(1_000_000..1_000_000 + count as i32);
        assert_eq!(said.lent, Some(Refusal::new(10, 32)));
        assert!(said.line.ends_with(&format!(", lent {}", digest_of(&lent))));
    }
}

#[test]
fn states_with_a_field_changed() {
    let edge = 1_984 << 42;
    let refused = |number, place| Offered::Refused(Refusal::new(number, place));
    for (field, value, level, offered) in [
        (0, 29_999, 0, Offered::Taken),
        (0, 30_000, 0, refused(7, 30_000)),
        (0, 30_001, 0, refused(7, 30_000)),
        (1, 0, 0, refused(11, 0)),
        (2, 1_343, 0, Offered::Taken),
        (2, 1_344, 0, refused(11, 0)),
        (2, -9_601i32 as u32, 0, refused(11, 0)),
        (3, u32::MAX, 0, refused(11, 0)),
        (4, 0x0103, 0, Offered::Taken),
        (9, u32::MAX, 0, Offered::Taken),
        (9, 2, 0, refused(11, 0)),
        (13, 2, 0, refused(11, 0)),
        (15, 0, edge | 1 << 63, Offered::Taken),
        (15, 0, (edge + 1) | 1 << 63, refused(11, 0)),
        (15, 0, 1 << 63, Offered::Taken),
        (16, 2, 0, Offered::Taken),
        (16, 3, 0, refused(11, 0)),
        (17, 0, 0, refused(11, 0)),
        (18, 0, 0, refused(11, 0)),
    ] {
        let head = Head {
            marks: STATE,
            field,
            rows_before: 2,
            value,
            level,
            ..Head::default()
        };
        let said = said(&four_rows(head));
        assert_eq!(said.state, Some(offered), "field {field}: {value} {level}");
        assert!(said.line.ends_with(&format!(", state {offered}")));
    }
}

#[test]
fn the_last_line_counts_the_jobs() {
    let mut input = Vec::new();
    four_rows(Head::default()).write(&mut input).unwrap();
    let mut output = Vec::new();
    answer_all(&mut input.as_slice(), &mut output).unwrap();
    let text = b"rows 4 held 65, 158 5a0bec45a52e3e41\njobs 1\n";
    assert_eq!(output, text);
}
