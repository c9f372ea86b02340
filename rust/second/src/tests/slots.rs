//! The layout against the page's rule of a single slot, and what the rows of
//! runs do.

use crate::tests::{file_of, once, PLAIN};
use crate::{load, Layout, Place, Sequence};
use std::collections::BTreeSet;

/// The page's words: r, whether the sequence is active, q.
fn in_gap(sequence: &Sequence, slot: usize) -> bool {
    let pattern = 15 * sequence.frames;
    let Some(r) = slot.checked_sub(15 * sequence.start_frame) else {
        return false;
    };
    let active = sequence.repeats == 0 || r / pattern < sequence.repeats;
    let q = r % pattern;
    let second = sequence.begins + sequence.distance;
    let in_first = (sequence.begins..sequence.begins + sequence.first_length).contains(&q);
    let in_second =
        sequence.second_length > 0 && (second..second + sequence.second_length).contains(&q);
    active && (in_first || in_second)
}

#[test]
fn the_layout_is_the_rule_of_each_slot() {
    let records = [
        [1, 1, 14, 1, 0, 1, 3, 0, 0, 0, 0, 0],
        [2, 2, 3, 14, 14, 3, 0, 0, 28, 0, 2, 0],
        [3, 3, 0, 2, 3, 2, 2, 0, 15, 0, 9, 0],
        [4, 3, 5, 1, 0, 1, 0, 0, 0, 0, 255, 255],
    ];
    let sequences = Sequence::read_all(&records.concat()).unwrap();
    let layout = Layout::of(&sequences, 400);
    for slot in 0..400 {
        let opened_by = |bit: u8| -> BTreeSet<u8> {
            let opens = |s: &&Sequence| s.direction & bit != 0 && in_gap(s, slot);
            sequences.iter().filter(opens).map(|s| s.id).collect()
        };
        let (uplink, downlink) = (opened_by(1), opened_by(2));
        assert_eq!(layout.uplink_ids(slot), &uplink, "slot {slot}");
        assert_eq!(layout.downlink_ids(slot), &downlink, "slot {slot}");
        assert_eq!(layout.is_uplink_gap(slot), !uplink.is_empty());
        assert_eq!(layout.is_downlink_gap(slot), !downlink.is_empty());
    }
}

#[test]
fn a_run_merges_directions() {
    let records = [once(1, 1, 5, 1), once(2, 2, 6, 1)];
    let sequences = Sequence::read_all(&records.concat()).unwrap();
    let layout = Layout::of(&sequences, 30);
    assert!(matches!(layout.place(7), Place::Resume(run) if (run.begin, run.end) == (5, 7)));
    assert!(matches!(layout.place(9), Place::Recovery(_)));
    assert_eq!(layout.place(10), Place::Ordinary);
}

#[test]
fn the_next_run_ends_recovery() {
    // A gap of five slots, the resume slot 5, one recovery slot, a gap in 7.
    let records = [once(1, 1, 0, 5), once(2, 2, 7, 1)];
    let sequences = Sequence::read_all(&records.concat()).unwrap();
    let layout = Layout::of(&sequences, 30);
    let recovery: Vec<usize> = (0..30)
        .filter(|&slot| matches!(layout.place(slot), Place::Recovery(_)))
        .collect();
    assert_eq!(recovery, [6, 9]);
}

#[test]
fn no_compensation_in_a_downlink_gap() {
    let mut settings = PLAIN;
    settings[10..].copy_from_slice(&[0, 0]);
    let file = file_of(settings, &[once(1, 2, 1, 2)], &[]);
    let job = load(&file).unwrap();
    let mut history = job.history();
    for (pilots, power) in [(8, 0), (4, 0), (4, 0)] {
        assert_eq!(history.offer(0, pilots).unwrap().dpcch, power);
    }
}

#[test]
fn a_resume_before_anything_was_sent_but_in_the_downlink_gap() {
    let records = [once(1, 1, 0, 1), once(2, 2, 1, 1)];
    for (initial, power) in [(0, 64), (1, 0)] {
        let mut settings = PLAIN;
        settings[2] = initial;
        settings[10..].copy_from_slice(&[0, 0]);
        let file = file_of(settings, &records, &[]);
        let job = load(&file).unwrap();
        let mut history = job.history();
        history.offer(1, 0).unwrap();
        history.offer(0, 5).unwrap();
        assert_eq!(history.offer(0, 5).unwrap().dpcch, power);
    }
}

#[test]
fn algorithm_2_counts_uplink_gap_slots_and_resume_slots() {
    let mut settings = PLAIN;
    settings[0] = 2;
    let file = file_of(settings, &[once(1, 1, 2, 1)], &[]);
    let job = load(&file).unwrap();
    let mut history = job.history();
    let commands: Vec<i32> = (0..5)
        .map(|slot| {
            history
                .offer(1, if slot == 2 { 0 } else { 6 })
                .unwrap()
                .command
        })
        .collect();
    assert_eq!(commands, [0, 0, 0, 0, 1]);
}

#[test]
fn recovery_slots_spoil_their_set_only_under_rpp_1() {
    // Gap in slot 1, resume 2, recovery 3; the fifth slot is 4.
    for (recovery, command) in [(0, 1), (1, 0)] {
        let mut settings = PLAIN;
        settings[0] = 2;
        settings[3] = recovery;
        let file = file_of(settings, &[once(1, 1, 1, 1)], &[]);
        let job = load(&file).unwrap();
        let mut history = job.history();
        let last = (0..5)
            .map(|slot| {
                history
                    .offer(1, if slot == 1 { 0 } else { 6 })
                    .unwrap()
                    .command
            })
            .last();
        assert_eq!(last, Some(command));
    }
}
