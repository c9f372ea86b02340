//! What is to be done with a job beside listing it.

use second::{load, Gain, Job, State, ANSWER_NUMBERS, MOST_ROWS};

use crate::answer::state_after;
use crate::block::{Head, LENT, MOST_LENT, STATE, STEPS};
use crate::draw::Draw;

/// A job with more rows is run by single steps, and has its state changed,
/// less often: both take longer.
const FEW_ROWS: usize = 600;

/// One part of the unit in which a level is written.
const UNIT: u64 = 1 << 42;

/// The marks of a job, each about once in four times.
pub fn drawn(draw: &mut Draw, file: &[u8]) -> Head {
    let mut head = Head::default();
    let rows = file.len().saturating_sub(41) / 2;
    let few = rows <= FEW_ROWS;
    if draw.once_in(if few { 4 } else { 8 }) {
        head.marks |= STEPS;
    }
    if draw.once_in(4) {
        head.marks |= LENT;
        head.lent = lent(draw, file, rows);
    }
    if draw.once_in(if few { 4 } else { 8 }) {
        head.marks |= STATE;
        change(draw, file, &mut head);
    }
    head
}

/// Marks a job for single steps, and for a run with a few numbers more than
/// its rows need.
pub fn stepped_and_lent(head: &mut Head, file: &[u8]) {
    head.marks |= STEPS | LENT;
    head.lent = load(file).map_or(0, |job| (ANSWER_NUMBERS * job.rows().len()) as u32 + 9);
}

/// How many numbers are lent: about as many as are needed.
fn lent(draw: &mut Draw, file: &[u8], rows: usize) -> u32 {
    let needed = ANSWER_NUMBERS * load(file).map_or(rows, |job| job.rows().len());
    let count = match draw.below(40) {
        0 => MOST_LENT,
        1 | 2 => 0,
        3..=9 => needed.saturating_sub(1),
        10..=12 => needed.saturating_sub(draw.within(2, 9) as usize),
        13..=20 => needed + draw.within(1, 9) as usize,
        21 => draw.below(2 * needed + 2),
        // As many as a row would need without its two sets of ids.
        22 => needed / ANSWER_NUMBERS * (ANSWER_NUMBERS - 2),
        _ => needed,
    };
    count.min(MOST_LENT) as u32
}

/// Which field of the state is changed, after how many rows, and to what.
fn change(draw: &mut Draw, file: &[u8], head: &mut Head) {
    head.field = draw.below(19) as u8;
    let Ok(job) = load(file) else {
        head.value = draw.word();
        return;
    };
    let rows = job.rows().len();
    head.rows_before = match draw.below(8) {
        0 => 0,
        1 => 1,
        2 => rows as u16,
        3 => draw.below(rows + 70) as u16,
        _ => draw.below(rows + 1) as u16,
    };
    let state = state_after(&job, usize::from(head.rows_before));
    if head.field == 15 {
        head.level = level(draw);
    } else {
        head.value = value(draw, head.field, &job, &state);
    }
}

/// A level in parts of 2^42, its sign in the top bit: often at the edges of
/// its range and one part beyond.
fn level(draw: &mut Draw) -> u64 {
    let edge = 1_984 * UNIT;
    let part = u64::from(draw.word());
    let size = match draw.below(8) {
        0 | 1 => edge,
        2 | 3 => edge + 1,
        4 => edge - 1,
        5 => draw.one_of(&[0, 1, UNIT, UNIT / 2, 1 << 53, (1 << 53) - 1]),
        6 => part << 20,
        _ => part,
    };
    size | (draw.below(2) as u64) << 63
}

/// A new value of a field, on both sides of the edges of its range.
fn value(draw: &mut Draw, field: u8, job: &Job, state: &State) -> u32 {
    if draw.once_in(16) {
        return draw.word();
    }
    let row = state.row as i32;
    let most = MOST_ROWS as i32;
    match field {
        0 => {
            let updates = state.filter_count as i32;
            let edges = [most - 1, most, most + 1, row, updates, updates - 1, 0];
            draw.one_of(&edges) as u32
        }
        2 => {
            let ceiling = Gain::of(job.settings()).ceiling;
            let edges = [-9_601, -9_600, 2_112, 2_113, ceiling, ceiling + 1, i32::MIN];
            draw.one_of(&edges) as u32
        }
        3 => {
            let edge = 7_316 + 2_257 * row;
            draw.one_of(&[edge, edge + 1, edge - 1, -1, 0, 1, i32::MAX]) as u32
        }
        4 => draw.one_of(&[0, 2, 3, 8, 9, 255, 256]),
        6 | 7 => draw.one_of(&[0, 1, 6, 7, 8, 255]),
        9 => i32::from(draw.one_of(&[-2i8, -1, 0, 1, 2, 127, -128])) as u32,
        10..=13 => {
            let sets = job.settings().link_sets;
            draw.one_of(&[(1 << sets) - 1, 1 << sets, 0, 255, 1])
        }
        16 => draw.one_of(&[row - 1, row, row, row + 1, 0, -1]) as u32,
        _ => draw.one_of(&[0, 0, 1, 1, 256]),
    }
}
