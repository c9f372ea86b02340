//! Parts of jobs: right ones, and ones with something wrong.

use super::block::Parts;
use crate::draw::Draw;
use crate::generator::records::{self, Record};
use crate::generator::settings;

/// What is wrong with parts, or nearly so.
#[derive(Clone, Copy, PartialEq, Eq, Debug)]
pub enum Damage {
    Kind,
    SettingsLength,
    RecordsLength,
    RowsLength,
    Settings,
    Records,
    TooManyRecords,
}

pub const DAMAGES: [Damage; 7] = [
    Damage::Kind,
    Damage::SettingsLength,
    Damage::RecordsLength,
    Damage::RowsLength,
    Damage::Settings,
    Damage::Records,
    Damage::TooManyRecords,
];

/// Settings and records with some things wrong with them.
pub fn opening(draw: &mut Draw, damages: &[Damage]) -> ([u8; 12], Vec<Record>) {
    let mut settings = settings::drawn(draw);
    let mut records = match damages {
        [] => records::drawn(draw, 60),
        _ => records::at_least_one(draw, 60),
    };
    for damage in damages {
        match damage {
            Damage::Settings => settings::damage(draw, &mut settings),
            Damage::Records => records::damage(draw, &mut records),
            Damage::TooManyRecords => records::add_copies(draw, &mut records),
            _ => {}
        }
    }
    (settings, records)
}

/// Parts of a few rows with some things wrong.
pub fn few(draw: &mut Draw, damages: &[Damage]) -> Parts {
    let count = match draw.below(10) {
        0 => 0,
        1 => draw.below(200),
        _ => draw.below(30),
    };
    let mut parts = with_rows(draw, damages, 2 * count);
    for damage in damages {
        damage_outside(draw, *damage, &mut parts);
    }
    parts
}

/// Parts whose third one has so many bytes.
fn with_rows(draw: &mut Draw, damages: &[Damage], bytes: usize) -> Parts {
    let (settings, records) = opening(draw, damages);
    Parts {
        kind: 1,
        settings: settings.to_vec(),
        records: records.concat(),
        rows: rows(draw, bytes),
    }
}

/// Rows are not judged, so these are any bytes, often rows as a job has them.
fn rows(draw: &mut Draw, bytes: usize) -> Vec<u8> {
    let row = [draw.one_of(&[0, 1, 63, 255]), draw.one_of(&[0, 6, 8, 9])];
    let same = draw.once_in(3);
    let mut rows = row.repeat(bytes.div_ceil(2));
    rows.truncate(bytes);
    if !same {
        rows.fill_with(|| draw.byte());
    }
    rows
}

/// Another kind, or a length that is not what it should be.
fn damage_outside(draw: &mut Draw, damage: Damage, parts: &mut Parts) {
    match damage {
        Damage::Kind => parts.kind = draw.one_of(&[0, 2, 2, 3, 128, 255, 255]),
        Damage::SettingsLength => {
            let length = draw.one_of(&[0, 1, 11, 11, 13, 13, 24, 60]);
            parts.settings.resize(length, 0);
        }
        Damage::RecordsLength => off(draw, &mut parts.records, &[1, 1, 2, 6, 11]),
        Damage::RowsLength => off(draw, &mut parts.rows, &[1]),
        _ => {}
    }
}

/// So many bytes more or fewer.
fn off(draw: &mut Draw, part: &mut Vec<u8>, by: &[usize]) {
    let by = draw.one_of(by);
    if draw.once_in(2) && part.len() >= by {
        part.truncate(part.len() - by);
    } else {
        part.resize(part.len() + by, draw.byte());
    }
}

/// Parts of so many rows, now and then with something wrong as well.
pub fn full(draw: &mut Draw, count: usize) -> Parts {
    let mut parts = with_rows(draw, &[], 2 * count);
    if draw.once_in(4) {
        let damage = draw.one_of(&DAMAGES[..4]);
        damage_outside(draw, damage, &mut parts);
    }
    parts
}

/// Parts that make a file of so many bytes, often of another kind.
pub fn large(draw: &mut Draw, file: usize) -> Parts {
    let mut parts = with_rows(draw, &[], 0);
    let (room, given) = (file - 41, parts.records.len());
    if draw.once_in(3) {
        // Records take all the room but for a few bytes.
        parts.records = parts.records.repeat(room / given.max(1));
        parts.records.resize(room / 12 * 12, 1);
    }
    parts.rows = rows(draw, room - parts.records.len());
    if draw.once_in(2) {
        damage_outside(draw, Damage::Kind, &mut parts);
    }
    parts
}

/// Parts of any bytes and any lengths.
pub fn noise(draw: &mut Draw) -> Parts {
    let mut any = |lengths: &[usize]| -> Vec<u8> {
        let length = draw.one_of(lengths);
        (0..length).map(|_| draw.byte()).collect()
    };
    Parts {
        settings: any(&[0, 12, 12, 12, 12, 5, 40]),
        records: any(&[0, 0, 12, 24, 84, 5]),
        rows: any(&[0, 2, 40, 41]),
        kind: draw.one_of(&[1, 1, 1, 0, 2]),
    }
}
