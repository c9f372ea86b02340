//! The cases that the page marks with a star, but for the four rows, which
//! stand among the samples.

use crate::tests::{file_of, once, PLAIN};
use crate::{load, vote, Filter, Gain, Place, Settings};

fn settings_with(changes: &[(usize, u8)]) -> [u8; 12] {
    let mut bytes = PLAIN;
    for &(at, value) in changes {
        bytes[at] = value;
    }
    bytes
}

fn gain_with(control: u8, data: u8) -> Gain {
    let bytes = settings_with(&[(5, control), (6, data)]);
    Gain::of(&Settings::read(&bytes).unwrap())
}

#[test]
fn brackets_and_offsets() {
    assert_eq!(gain_with(15, 15).bracket, 193);
    assert_eq!(gain_with(8, 15).bracket, 419);
    assert_eq!(gain_with(8, 15).data, Some(349));
    let control_alone = gain_with(15, 0);
    assert_eq!((control_alone.bracket, control_alone.data), (0, None));
    assert_eq!(control_alone.ceiling, 64 * 24);
}

#[test]
fn votes_of_temporaries() {
    assert_eq!(vote(&[1, 1, 0]), 1);
    assert_eq!(vote(&[1, 0]), 0);
    assert_eq!(vote(&[1, 1, -1]), -1);
}

#[test]
fn pilot_changes() {
    let settings = settings_with(&[(10, 0), (11, 0)]);
    for (first, second, change) in [(8, 4, 193), (4, 8, -193)] {
        let file = file_of(settings, &[], &[[1, first], [1, second]]);
        let job = load(&file).unwrap();
        let mut history = job.history();
        history.offer(1, first).unwrap();
        let answer = history.offer(1, second).unwrap();
        assert_eq!(answer.dpcch, 64 + change);
    }
}

#[test]
fn recovery_steps() {
    let step = |pca, db| {
        Settings::read(&settings_with(&[(0, pca), (1, db)]))
            .unwrap()
            .recovery_step()
    };
    assert_eq!((step(1, 1), step(1, 2), step(2, 1)), (128, 192, 64));
}

#[test]
fn a_gap_of_three_slots() {
    let file = file_of(PLAIN, &[once(1, 1, 7, 3)], &[]);
    let job = load(&file).unwrap();
    let layout = crate::Layout::of(job.sequences(), 30);
    assert!(matches!(layout.place(10), Place::Resume(_)));
    let recovery: Vec<usize> = (0..30)
        .filter(|&slot| matches!(layout.place(slot), Place::Recovery(_)))
        .collect();
    assert_eq!(recovery, [11, 12, 13]);
}

#[test]
fn the_filter_over_a_gap() {
    let settings = settings_with(&[(2, 1), (10, 0), (11, 0)]);
    let rows = [[1, 6], [1, 0], [0, 0], [0, 0], [1, 6]];
    let file = file_of(settings, &[once(1, 1, 1, 3)], &rows);
    let job = load(&file).unwrap();
    let mut history = job.history();
    history.offer(1, 6).unwrap();
    assert_eq!(history.filter().level, -62.0);
    for row in &rows[1..4] {
        history.offer(row[0], row[1]).unwrap();
    }
    assert_eq!(
        history.filter(),
        Filter {
            level: -120.125,
            count: 2
        }
    );
    assert_eq!(history.offer(1, 6).unwrap().dpcch, -120);
    assert_eq!(history.filter(), Filter::ZERO);
}

#[test]
fn halves_go_away_from_zero_by_comparison() {
    let nearest = |level| Filter { level, count: 0 }.nearest_unit();
    assert_eq!([nearest(0.5), nearest(-0.5)], [1, -1]);
    assert_eq!([nearest(2.5), nearest(-2.5)], [3, -3]);
    assert_eq!(nearest(0.49999999999999994), 0);
    assert_eq!(nearest(-0.49999999999999994), 0);
    assert_eq!(nearest(1983.4999999999998), 1983);
    assert_eq!(nearest(-0.0), 0);
}
