//! What a history says of the state between two rows.

use crate::tests::{file_of, once, PLAIN};
use crate::{load, State};

fn after(records: &[[u8; 12]], rows: &[[u8; 2]]) -> State {
    let mut settings = PLAIN;
    settings[3] = 1;
    let file = file_of(settings, records, rows);
    let job = load(&file).unwrap();
    let mut history = job.history();
    for row in rows {
        history.offer(row[0], row[1]).unwrap();
        assert!(history.state().in_range(job.settings()));
    }
    history.state()
}

#[test]
fn before_row_0() {
    let state = after(&[], &[]);
    assert_eq!((state.row, state.sent, state.power), (0, false, 1280));
    assert_eq!((state.held, state.pilots, state.filter_count), (0, 0, 0));
}

#[test]
fn through_a_run_and_its_recovery() {
    let gap = once(1, 1, 1, 2);
    let rows = [[1, 6], [1, 0], [0, 0], [0, 7], [1, 7], [1, 7], [1, 7]];
    let told = |n: usize| {
        let state = after(&[gap], &rows[..n]);
        (
            state.run_length,
            state.run_left,
            state.opening_seen,
            state.opening_command,
        )
    };
    assert_eq!(told(1), (0, 0, false, 0));
    assert_eq!(told(2), (1, 0, true, 1));
    assert_eq!(told(3), (2, 0, true, 1));
    assert_eq!(told(4), (0, 2, false, 0));
    assert_eq!(told(5), (0, 1, false, 0));
    assert_eq!(told(6), (0, 0, false, 0));
    let state = after(&[gap], &rows[..5]);
    assert_eq!(state.set, [1, 0, 0, 1]);
    assert!(!state.set_spoilt);
    assert!(after(&[gap], &rows[..6]).set_spoilt);
    assert_eq!((state.filter_count, state.filter_level), (1, -62.0));
}

/// A change to a state that is in its ranges, and whether it stays there.
type Change = (fn(&mut State), bool);

const CHANGES: [Change; 20] = [
    (|state| state.row = 30_000, true),
    (|state| state.row = 30_001, false),
    (|state| state.power = 1_343, true),
    (|state| state.power = 1_344, false),
    (|state| state.power = -9_600, true),
    (|state| state.power = -9_601, false),
    (|state| state.held = 7_316 + 2 * 2_257, true),
    (|state| state.held = 7_317 + 2 * 2_257, false),
    (|state| state.held = -1, false),
    (|state| state.pilots = 2, false),
    (|state| state.sent = false, false),
    (|state| state.run_left = 8, false),
    (|state| state.opening_command = -2, false),
    (|state| state.set[2] = 2, false),
    (|state| state.filter_level = -1_984.0, true),
    (
        |state| state.filter_level = 1_984.0 + 1.0 / 4_398_046_511_104.0,
        false,
    ),
    (|state| state.filter_level = f64::NAN, false),
    (|state| state.filter_level = f64::INFINITY, false),
    (|state| state.filter_count = 2, true),
    (|state| state.filter_count = 3, false),
];

#[test]
fn ranges_end_where_the_table_says() {
    let file = file_of(PLAIN, &[], &[]);
    let job = load(&file).unwrap();
    let good = after(&[], &[[1, 6], [1, 6]]);
    for (number, (change, stays)) in CHANGES.iter().enumerate() {
        let mut state = good;
        change(&mut state);
        assert_eq!(state.in_range(job.settings()), *stays, "change {number}");
    }
}
