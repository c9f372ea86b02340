//! Gap records: such that gaps happen within the job, at the edges of their
//! ranges, and just outside.

use crate::draw::Draw;

pub type Record = [u8; 12];

/// Up to six records that break no rule, for a job of so many rows.
pub fn drawn(draw: &mut Draw, rows: usize) -> Vec<Record> {
    let few = [(25, 0), (30, 1), (20, 2), (10, 3), (5, 4), (5, 5), (5, 6)];
    match draw.below(12) {
        0 => adjoining(draw, rows),
        1 | 2 => overlapping(draw),
        _ => some(draw, rows, few.as_slice()),
    }
}

/// The same, but never none.
pub fn at_least_one(draw: &mut Draw, rows: usize) -> Vec<Record> {
    some(
        draw,
        rows,
        &[(4, 1), (4, 2), (2, 3), (1, 4), (1, 5), (2, 6)],
    )
}

/// Copies of records that are there, until there are six or more of them.
pub fn add_copies(draw: &mut Draw, records: &mut Vec<Record>) {
    let many = draw.one_of(&[6, 7, 7, 8, 12, 50]);
    while records.len() < many {
        records.push(draw.one_of(&records.clone()));
    }
}

fn some(draw: &mut Draw, rows: usize, counts: &[(usize, usize)]) -> Vec<Record> {
    let count = draw.weighted(counts);
    shuffled_ids(draw)[..count]
        .iter()
        .map(|&id| record(draw, id, rows))
        .collect()
}

/// All ids, in any order.
fn shuffled_ids(draw: &mut Draw) -> [u8; 6] {
    let mut ids = [1, 2, 3, 4, 5, 6];
    for last in (1..6).rev() {
        ids.swap(last, draw.below(last + 1));
    }
    ids
}

/// Two to six records whose gaps have one slot in common: all their ids have
/// opened it. They are of one direction, of both, or each of another. The slot
/// comes early, so that short jobs reach it.
fn overlapping(draw: &mut Draw) -> Vec<Record> {
    let count = draw.one_of(&[2, 2, 2, 3, 3, 4, 5, 6, 6, 6]);
    let directions = draw.one_of(&[[1, 1, 1], [2, 2, 2], [3, 3, 3], [1, 2, 2], [1, 2, 3]]);
    let frame = draw.one_of(&[0, 0, 0, 1, 2]);
    let slot = draw.within(0, 14) as u8;
    shuffled_ids(draw)[..count]
        .iter()
        .map(|&id| {
            let direction = draw.one_of(&directions);
            over(draw, [id, direction], frame, slot)
        })
        .collect()
}

/// A record with a gap over this slot of this frame: its first gap, or its
/// second one, where a frame comes before.
fn over(draw: &mut Draw, [id, direction]: [u8; 2], frame: u8, slot: u8) -> Record {
    let begins = draw.within(i64::from(slot.saturating_sub(13)), slot.into()) as u8;
    let most = (15 - begins).min(14);
    let length = draw.within(i64::from(slot - begins + 1), most.into()) as u8;
    let repeats = draw.one_of(&[0, 0, 1, 2, 3]);
    if frame == 0 || !draw.once_in(3) {
        let frames = draw.within(1, 4) as u8;
        return [
            id, direction, begins, length, 0, frames, repeats, 0, 0, 0, frame, 0,
        ];
    }
    let first_begins = draw.within(0, begins.into()) as u8;
    let first_length = draw.within(1, 14) as u8;
    let frames = draw.within(2, 4) as u8;
    let distance = 15 + begins - first_begins;
    [
        id,
        direction,
        first_begins,
        first_length,
        length,
        frames,
        repeats,
        0,
        distance,
        0,
        frame - 1,
        0,
    ]
}

/// Three gaps, each beginning where the one before ends, often at slot 0:
/// runs of several directions, also before anything has been sent.
fn adjoining(draw: &mut Draw, rows: usize) -> Vec<Record> {
    let frames = draw.within(1, 4) as u8;
    let repeats = draw.one_of(&[0, 1, 2]);
    let first_frame = start_frame(draw, rows).to_le_bytes();
    let mut begins = draw.one_of(&[0, 0, 0, 1, 2, 5]);
    let mut records = Vec::new();
    for id in draw.one_of(&[[1, 2, 3], [6, 4, 5]]) {
        let length = draw.within(1, 3) as u8;
        let mut record = [0; 12];
        record[..7].copy_from_slice(&[id, 0, begins, length, 0, frames, repeats]);
        record[1] = draw.one_of(&[1, 1, 2, 2, 3]);
        record[10..].copy_from_slice(&first_frame);
        records.push(record);
        begins += length;
    }
    records
}

/// One record whose gaps fit into its pattern.
fn record(draw: &mut Draw, id: u8, rows: usize) -> Record {
    let frames = match draw.below(10) {
        0..=3 => 1,
        4 | 5 => 2,
        6 | 7 => draw.within(3, 6),
        8 => draw.within(1, 40),
        _ => draw.one_of(&[143, 144, 1, 2, 18, 19]),
    };
    let begins = match draw.below(4) {
        0 => draw.one_of(&[0, 14]),
        _ => draw.within(0, 14),
    };
    let room = (15 * frames - begins).min(14);
    let first = match draw.below(4) {
        0 => room,
        1 => 1,
        _ => draw.within(1, room),
    };
    let (second, distance) = second_gap(draw, frames, begins);
    let repeats: u16 = match draw.below(8) {
        0..=2 => 0,
        3 => draw.one_of(&[1, 510, 511]),
        4 => draw.within(0, 511) as u16,
        _ => draw.within(1, 4) as u16,
    };
    let mut bytes = [0; 12];
    bytes[0] = id;
    bytes[1] = draw.one_of(&[1, 1, 2, 2, 3, 3, 3]);
    bytes[2] = begins as u8;
    bytes[3] = first as u8;
    bytes[4] = second as u8;
    bytes[5] = frames as u8;
    bytes[6..8].copy_from_slice(&repeats.to_le_bytes());
    bytes[8..10].copy_from_slice(&(distance as u16).to_le_bytes());
    bytes[10..].copy_from_slice(&start_frame(draw, rows).to_le_bytes());
    bytes
}

/// Length and distance of a second gap, or 0 and 0.
fn second_gap(draw: &mut Draw, frames: i64, begins: i64) -> (i64, i64) {
    let length = match draw.below(5) {
        0 | 1 => 0,
        2 => draw.one_of(&[1, 14]),
        _ => draw.within(1, 14),
    };
    let farthest = (15 * frames - begins - length).min(269);
    if length == 0 || farthest < 15 {
        return (0, 0);
    }
    let distance = match draw.below(4) {
        0 => 15,
        1 => farthest,
        _ => draw.within(15, farthest),
    };
    (length, distance)
}

/// Mostly within the job.
fn start_frame(draw: &mut Draw, rows: usize) -> u16 {
    match draw.below(10) {
        0..=4 => 0,
        5 => draw.one_of(&[65_535, 4_369, 2_000, 1_999, 256]),
        6 | 7 => draw.within(0, 3) as u16,
        _ => draw.within(0, rows as i64 / 15 + 1) as u16,
    }
}

/// Puts one number of a record at an edge of its range or just outside. There
/// is at least one record.
pub fn damage(draw: &mut Draw, records: &mut [Record]) {
    let other = records[draw.below(records.len())][0];
    let record = draw.below(records.len());
    let record = &mut records[record];
    match draw.below(14) {
        0 => record[0] = draw.one_of(&[0, 1, 6, 7, 255]),
        1 | 2 => record[0] = other,
        3 => record[1] = draw.one_of(&[0, 1, 2, 3, 4, 255]),
        4 => record[2] = draw.one_of(&[0, 14, 15, 255]),
        5 => record[3] = draw.one_of(&[0, 1, 14, 15, 255]),
        6 => record[4] = draw.one_of(&[0, 1, 14, 15, 255]),
        7 => record[5] = draw.one_of(&[0, 1, 2, 144, 145, 255]),
        8 => set_two(record, 6, draw.one_of(&[0, 1, 511, 512, 513, 767, 65_535])),
        9 => set_two(
            record,
            8,
            draw.one_of(&[0, 1, 14, 15, 269, 270, 271, 525, 65_535]),
        ),
        10 | 11 => at_the_edge_of_fitting(draw, record),
        12 => set_two(record, 10, draw.word() as u16),
        _ => record[draw.below(12)] = draw.byte(),
    }
}

/// Gaps that end with the pattern, or one slot after it.
fn at_the_edge_of_fitting(draw: &mut Draw, record: &mut Record) {
    let beyond = draw.below(2) as u16;
    let begins = draw.within(0, 14) as u8;
    record[2] = begins;
    if draw.once_in(2) {
        record[5] = 1;
        record[3] = (15 - begins + beyond as u8).min(14);
        record[4] = 0;
        set_two(record, 8, 0);
    } else {
        let frames = draw.within(2, 19) as u16;
        let length = draw.within(1, 14) as u16;
        let distance = 15 * frames + beyond - u16::from(begins) - length;
        record[5] = frames as u8;
        record[4] = length as u8;
        set_two(record, 8, distance);
    }
    if draw.once_in(8) {
        // A distance out of its range goes before a gap that does not fit.
        set_two(record, 8, 270);
    }
}

fn set_two(record: &mut Record, at: usize, number: u16) {
    record[at..at + 2].copy_from_slice(&number.to_le_bytes());
}
