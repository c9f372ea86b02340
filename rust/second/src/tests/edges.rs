//! Both sides of the edges of files, records and rows.

use crate::tests::{file_of, last_line, once, PLAIN};
use crate::{listing, load, run, Ran, Refusal};

fn refusal_of(file: &[u8]) -> (u32, u32) {
    let refusal = load(file).expect_err("refused");
    (refusal.number, refusal.place)
}

#[test]
fn six_records_are_taken() {
    let records: Vec<[u8; 12]> = (1..=6).map(|id| once(id, 1, 2 * id, 1)).collect();
    assert!(load(&file_of(PLAIN, &records, &[])).is_ok());
}

#[test]
fn a_gap_that_just_fits() {
    assert!(load(&file_of(PLAIN, &[once(1, 1, 14, 1)], &[])).is_ok());
    assert_eq!(
        refusal_of(&file_of(PLAIN, &[once(1, 1, 14, 2)], &[])),
        (5, 5)
    );
    let second = |distance: u8| [1, 1, 3, 2, 4, 2, 0, 0, distance, 0, 0, 0];
    assert!(load(&file_of(PLAIN, &[second(23)], &[])).is_ok());
    assert_eq!(refusal_of(&file_of(PLAIN, &[second(24)], &[])), (5, 5));
}

#[test]
fn no_rows() {
    let text = b"row state cmd dpcch dpdch total held by\nrows 0 held 0\n";
    assert_eq!(listing(&file_of(PLAIN, &[], &[])), text);
}

#[test]
fn record_rules_in_byte_order() {
    let good = [1, 3, 2, 3, 4, 20, 5, 0, 30, 0, 0, 0];
    for (byte, value, place) in [
        (0, 0, 0),
        (0, 7, 0),
        (1, 0, 1),
        (1, 4, 1),
        (2, 15, 2),
        (3, 0, 3),
        (3, 15, 3),
        (4, 15, 4),
        (4, 0, 8),
        (5, 0, 5),
        (5, 145, 5),
        (7, 2, 6),
        (8, 14, 8),
        (9, 2, 8),
    ] {
        let mut record = good;
        record[byte] = value;
        let file = file_of(PLAIN, &[once(2, 1, 0, 1), record], &[]);
        assert_eq!(refusal_of(&file), (5, 12 + place), "byte {byte} is {value}");
    }
    assert!(load(&file_of(PLAIN, &[good], &[])).is_ok());
}

#[test]
fn a_doubled_id_comes_before_the_next_record() {
    let mut bad = once(3, 1, 0, 1);
    bad[1] = 0;
    let records = [once(1, 1, 0, 1), once(1, 1, 3, 1), bad];
    assert_eq!(refusal_of(&file_of(PLAIN, &records, &[])), (6, 1));
}

#[test]
fn settings_rules_in_byte_order() {
    for (byte, value, place) in [
        (0, 0, 0),
        (0, 3, 0),
        (1, 0, 1),
        (1, 3, 1),
        (2, 2, 2),
        (3, 2, 3),
        (4, 0, 4),
        (4, 7, 4),
        (5, 0, 5),
        (5, 16, 5),
        (6, 16, 6),
        (7, 0, 7),
        (7, 7, 7),
        (8, 34, 8),
        (8, (-51i8) as u8, 8),
        (9, 1, 9),
        (11, 9, 10),
        (11, 0xda, 10),
    ] {
        let mut settings = PLAIN;
        settings[byte] = value;
        let file = file_of(settings, &[], &[]);
        assert_eq!(refusal_of(&file), (3, place), "byte {byte} is {value}");
    }
    let mut settings = PLAIN;
    (settings[5], settings[6]) = (14, 14);
    assert_eq!(refusal_of(&file_of(settings, &[], &[])), (3, 6));
    let mut settings = PLAIN;
    (settings[0], settings[1]) = (2, 2);
    assert_eq!(refusal_of(&file_of(settings, &[], &[])), (3, 1));
}

#[test]
fn rows_up_to_thirty_thousand() {
    let mut rows = [[0, 6], [1, 6]].repeat(15_000);
    assert_eq!(last_line(&file_of(PLAIN, &[], &rows)), "rows 30000 held 1");
    rows.push([1, 6]);
    assert_eq!(refusal_of(&file_of(PLAIN, &[], &rows)), (7, 30_000));
    let file = file_of(PLAIN, &[], &rows[..30_000]);
    let job = load(&file).unwrap();
    let mut history = job.history();
    for row in job.rows() {
        history.offer(row[0], row[1]).unwrap();
    }
    assert_eq!(history.offer(1, 6), Err(Refusal::new(7, 30_000)));
}

#[test]
fn row_bytes_on_both_sides() {
    let records = [once(1, 1, 1, 1), once(2, 2, 2, 1)];
    let right = [[1, 6], [1, 0], [0, 6], [1, 8]];
    assert_eq!(
        last_line(&file_of(PLAIN, &records, &right)),
        "rows 4 held 0"
    );
    for (row, bytes) in [
        (0, [2, 6]),
        (0, [1, 2]),
        (0, [1, 9]),
        (1, [1, 6]),
        (2, [1, 6]),
        (2, [0, 0]),
    ] {
        let mut rows = right;
        rows[row] = bytes;
        let line = last_line(&file_of(PLAIN, &records, &rows));
        assert_eq!(line, format!("refused 8 at {row}"));
    }
}

#[test]
fn the_lowest_power_and_one_step_below() {
    let mut settings = PLAIN;
    settings[10..].copy_from_slice(&(-9_536i16).to_le_bytes());
    let file = file_of(settings, &[], &[[0, 6], [0, 6], [0, 6]]);
    let text = String::from_utf8(listing(&file)).unwrap();
    assert!(text.ends_with("1 1 -1 -9600 -9600 -9407 0 -\nrefused 9 at 2\n"));
    let job = load(&file).unwrap();
    let mut history = job.history();
    history.offer(0, 6).unwrap();
    history.offer(0, 6).unwrap();
    assert_eq!(history.offer(0, 6), Err(Refusal::new(9, 2)));
    assert_eq!(history.offer(1, 6).unwrap().dpcch, -9_536);
}

#[test]
fn a_short_buffer_is_left_alone() {
    let file = file_of(PLAIN, &[], &[[9, 9], [1, 6]]);
    // One number too few, and as many as six a row would be.
    for length in [15, 12] {
        let mut answers = vec![5; length];
        let refused = Ran::Refused(Refusal::new(10, 16));
        assert_eq!(run(&file, &mut answers), refused);
        assert_eq!(answers, vec![5; length]);
    }
}
