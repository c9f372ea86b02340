//! Resume changes that are rounded from exactly one half.

use std::collections::BTreeSet;

use second::{load, Filter, Place};

use crate::generator::halves::HALVES;
use crate::generator::{block, kind_of, Kind};
use crate::subject::Scope;

fn update_by(step: u8, command: u8) -> i32 {
    let share = 62 * i32::from(step);
    if command == b'1' {
        share
    } else {
        -share
    }
}

#[test]
fn each_list_ends_at_its_half() {
    for half in &HALVES {
        let filter = half.commands.bytes().fold(Filter::ZERO, |filter, command| {
            filter.updated(update_by(half.step, command))
        });
        assert_eq!(filter.level, half.level);
        assert_eq!(filter.level.fract(), 0.5);
    }
}

/// The level before the resume slot of a drawn job, and the power that the
/// resume change and the pilots make.
fn resumed(number: u64) -> (f64, i32) {
    let block = block(1, number, Scope::Any);
    let job = load(&block.job).unwrap();
    let layout = second::Layout::of(job.sequences(), job.rows().len());
    let mut history = job.history();
    for (slot, row) in job.rows().iter().enumerate() {
        let before = history.power();
        let level = history.filter().level;
        let pilots = usize::from(history.pilots());
        let answer = history.offer(row[0], row[1]).unwrap();
        assert_ne!(answer.state, 2);
        if matches!(layout.place(slot), Place::Resume(_)) {
            let compensation = second::level(pilots) - second::level(usize::from(row[1]));
            return (level, answer.dpcch - before - compensation);
        }
    }
    panic!("no resume slot");
}

#[test]
fn drawn_jobs_have_halves_of_both_signs() {
    let mut kinds = BTreeSet::new();
    for number in (0..20_000).filter(|&number| kind_of(1, number) == Kind::Half) {
        let (level, change) = resumed(number);
        assert_eq!(level.fract().abs(), 0.5);
        let away = level.trunc() as i32 + if level > 0.0 { 1 } else { -1 };
        assert_eq!(change, away);
        kinds.insert((level > 0.0, away % 2 == 0));
    }
    assert_eq!(kinds.len(), 4);
}

/// To add a half and cut gives another answer only for the number just below
/// one half: any other number with a fraction below one half has a sum that
/// is exact, or is rounded to a number below the next whole one. No update
/// ends at that number. From a level at or near 16/15 of it plus the bracket
/// the neighbours are tried; further away the product is too far off.
#[test]
fn no_update_ends_just_below_one_half() {
    let below = 0.49999999999999994;
    assert_eq!(below + 0.5, 1.0);
    for bracket in [-124, -62, 0, 62, 124] {
        let near = (below + f64::from(bracket)) * 16.0 / 15.0;
        let bits = near.to_bits();
        for neighbour in bits - 16..=bits + 16 {
            let level = f64::from_bits(neighbour);
            let filter = Filter { level, count: 0 }.updated(bracket);
            assert_ne!(filter.level, below);
        }
    }
}
