//! Which ids opened a gap: the last two numbers of a row and the column `by`.
//! Each test is named by a rule that some wrong program breaks.

use crate::tests::{file_of, once, PLAIN};
use crate::{listing, load, run, Layout, Ran, ANSWER_NUMBERS};

/// Rows that keep their rules under these records: what a gap forbids is 0.
fn job_of(records: &[[u8; 12]], count: usize) -> Vec<u8> {
    let file = file_of(PLAIN, records, &[]);
    let layout = Layout::of(load(&file).unwrap().sequences(), count);
    let rows: Vec<[u8; 2]> = (0..count)
        .map(|slot| {
            let commands = if layout.is_downlink_gap(slot) { 0 } else { 1 };
            let pilots = if layout.is_uplink_gap(slot) { 0 } else { 6 };
            [commands, pilots]
        })
        .collect();
    file_of(PLAIN, records, &rows)
}

/// The uplink set, the downlink set and the column `by` of one row.
fn opened(records: &[[u8; 12]], row: usize) -> (i32, i32, String) {
    let file = job_of(records, 15);
    let mut answers = [0; 15 * ANSWER_NUMBERS];
    assert!(matches!(run(&file, &mut answers), Ran::Done(_)));
    let numbers = &answers[row * ANSWER_NUMBERS..][..ANSWER_NUMBERS];
    let text = String::from_utf8(listing(&file)).unwrap();
    let line = text.lines().nth(row + 1).unwrap();
    let (_, by) = line.rsplit_once(' ').unwrap();
    (numbers[6], numbers[7], by.to_string())
}

fn told(uplink: i32, downlink: i32, by: &str) -> (i32, i32, String) {
    (uplink, downlink, by.to_string())
}

#[test]
fn an_id_is_not_the_place_of_its_record() {
    let records = [once(5, 1, 3, 1), once(2, 1, 6, 1)];
    assert_eq!(opened(&records, 3), told(16, 0, "5"));
    assert_eq!(opened(&records, 6), told(2, 0, "2"));
}

#[test]
fn id_1_is_1_in_a_sum_and_id_6_is_32() {
    for id in 1..=6 {
        let sum = [1, 2, 4, 8, 16, 32][usize::from(id) - 1];
        assert_eq!(
            opened(&[once(id, 1, 3, 1)], 3),
            told(sum, 0, &id.to_string())
        );
    }
}

#[test]
fn uplink_stands_before_downlink() {
    let records = [once(1, 1, 3, 2), once(2, 2, 4, 2)];
    assert_eq!(opened(&records, 3), told(1, 0, "1"));
    assert_eq!(opened(&records, 4), told(1, 2, "1,2"));
    assert_eq!(opened(&records, 5), told(0, 2, "2"));
}

#[test]
fn the_sixth_record_counts() {
    let mut records: Vec<[u8; 12]> = (1..=5).map(|id| once(id, 1, 3, 1)).collect();
    records.push(once(6, 1, 3, 2));
    assert_eq!(opened(&records, 3), told(63, 0, "1,2,3,4,5,6"));
    assert_eq!(opened(&records, 4), told(32, 0, "6"));
}

#[test]
fn an_id_of_both_directions_is_printed_once() {
    assert_eq!(opened(&[once(3, 3, 3, 1)], 3), told(4, 4, "3"));
    let records = [once(3, 3, 3, 1), once(1, 2, 3, 1), once(6, 1, 3, 1)];
    assert_eq!(opened(&records, 3), told(36, 5, "1,3,6"));
}

#[test]
fn ids_rise_whatever_the_order_of_the_records() {
    let records = [once(5, 1, 3, 1), once(2, 1, 3, 1)];
    assert_eq!(opened(&records, 3), told(18, 0, "2,5"));
    // A downlink id below an uplink id stands before it.
    let records = [once(4, 1, 3, 1), once(1, 2, 3, 1), once(6, 3, 3, 1)];
    assert_eq!(opened(&records, 3), told(40, 33, "1,4,6"));
    let falling: Vec<[u8; 12]> = (1..=6).rev().map(|id| once(id, 3, 3, 1)).collect();
    assert_eq!(opened(&falling, 3), told(63, 63, "1,2,3,4,5,6"));
}

#[test]
fn no_id_but_in_a_gap() {
    // A gap in slots 3 and 4, the resume slot 5, recovery slots 6 and 7.
    for row in [0, 2, 5, 6, 7, 8] {
        assert_eq!(opened(&[once(6, 3, 3, 2)], row), told(0, 0, "-"));
    }
}

#[test]
fn a_sequence_opens_what_is_its_own() {
    // Id 4 opens slot 0 and, by its second gap, slots 15 and 16; id 2 opens slot 1 of each frame.
    let records = [
        [4, 2, 0, 1, 2, 2, 1, 0, 15, 0, 0, 0],
        [2, 2, 1, 1, 0, 1, 0, 0, 0, 0, 0, 0],
    ];
    let job = load(&job_of(&records, 0)).unwrap();
    let layout = Layout::of(job.sequences(), 60);
    let ids = |slot: usize| layout.ids(slot).into_iter().collect::<Vec<u8>>();
    assert_eq!((ids(0), ids(1)), (vec![4], vec![2]));
    assert_eq!((ids(15), ids(16)), (vec![4], vec![2, 4]));
    // The pattern of id 4 comes once.
    assert_eq!((ids(30), ids(31), ids(46)), (vec![], vec![2], vec![2]));
}

/// Rows beyond those of the file have the ids of their slots too.
#[test]
fn rows_that_are_offered_after_the_file_have_ids() {
    let file = file_of(PLAIN, &[once(2, 3, 4, 1)], &[]);
    let job = load(&file).unwrap();
    let mut history = job.history();
    for _ in 0..4 {
        let answer = history.offer(1, 6).unwrap();
        assert_eq!((answer.uplink, answer.downlink), (0, 0));
    }
    let answer = history.offer(0, 0).unwrap();
    assert_eq!((answer.uplink, answer.downlink), (2, 2));
}
