//! The job file: contents, settings, gap records, and the number of rows.
use crate::gaps::Sequence;
use crate::{refusal, Refusal};

/// The settings of a job, in units where they are powers or steps.
#[derive(Clone, Copy, Debug)]
pub struct Settings {
    pub second_algorithm: bool,
    pub step: i32,
    pub filtered_resume: bool,
    pub recovers: bool,
    pub links: u8,
    pub betac: u8,
    pub betad: u8,
    pub channels: u8,
    pub maximum: i32,
    pub start: i32,
}

/// A job that is taken; its rows are a part of the file.
pub struct Job<'a> {
    pub settings: Settings,
    pub sequences: Vec<Sequence>,
    pub rows: &'a [u8],
}

pub fn load(file: &[u8]) -> Result<Job<'_>, Refusal> {
    let [settings, records, rows] = contents(file)?;
    let settings = read_settings(settings)?;
    let sequences = read_records(records)?;
    if rows.len() > 60_000 {
        return Err(refusal(7, 30_000));
    }
    Ok(Job {
        settings,
        sequences,
        rows,
    })
}

fn number(bytes: &[u8]) -> usize {
    bytes.iter().rev().fold(0, |sum, &b| 256 * sum + b as usize)
}

/// Where the three bodies lie.
fn contents(file: &[u8]) -> Result<[&[u8]; 3], Refusal> {
    if file.len() > 65_536 {
        return Err(refusal(1, 0));
    }
    if file.len() < 29 || file[0] != 1 || file[1] != 3 {
        return Err(refusal(2, 0));
    }
    let mut bodies = [&file[..0]; 3];
    let mut at = 29;
    for (k, entry) in file[2..29].chunks_exact(9).enumerate() {
        let length = number(&entry[5..9]);
        let fits = match k {
            0 => length == 12,
            1 => length.is_multiple_of(12),
            _ => length.is_multiple_of(2) && at + length == file.len(),
        };
        if entry[0] as usize != k + 1
            || number(&entry[1..5]) != at
            || !fits
            || at + length > file.len()
        {
            return Err(refusal(2, k + 1));
        }
        bodies[k] = &file[at..at + length];
        at += length;
    }
    Ok(bodies)
}

fn read_settings(b: &[u8]) -> Result<Settings, Refusal> {
    let maximum = b[8] as i8 as i32;
    let start = i16::from_le_bytes([b[10], b[11]]) as i32;
    let rules = [
        (0, (1..=2).contains(&b[0])),
        (1, b[1] == 1 || b[1] == 2 && b[0] == 1),
        (2, b[2] < 2),
        (3, b[3] < 2),
        (4, (1..=6).contains(&b[4])),
        (5, (1..=15).contains(&b[5])),
        (6, b[6] == 15 || b[6] < 15 && b[5] == 15),
        (7, (1..=6).contains(&b[7])),
        (8, (-50..=33).contains(&maximum)),
        (9, b[9] == 0),
        (10, (-9_600..=2_112).contains(&start)),
    ];
    match rules.iter().find(|rule| !rule.1) {
        Some(&(place, _)) => Err(refusal(3, place)),
        None => Ok(Settings {
            second_algorithm: b[0] == 2,
            step: 64 * b[1] as i32,
            filtered_resume: b[2] == 1,
            recovers: b[3] == 1,
            links: b[4],
            betac: b[5],
            betad: b[6],
            channels: b[7],
            maximum: 64 * maximum,
            start,
        }),
    }
}

fn read_records(records: &[u8]) -> Result<Vec<Sequence>, Refusal> {
    let count = records.len() / 12;
    if count > 6 {
        return Err(refusal(4, count));
    }
    let mut sequences = Vec::with_capacity(count);
    for (k, r) in records.chunks_exact(12).enumerate() {
        if let Some(byte) = fault(r) {
            return Err(refusal(5, 12 * k + byte));
        }
        if records
            .chunks_exact(12)
            .take(k)
            .any(|earlier| earlier[0] == r[0])
        {
            return Err(refusal(6, k));
        }
        sequences.push(Sequence::new(r));
    }
    Ok(sequences)
}

/// The byte at which a record breaks its first rule.
fn fault(r: &[u8]) -> Option<usize> {
    let (prc, distance) = (number(&r[6..8]), number(&r[8..10]));
    let room = 15 * r[5] as usize;
    let first = r[2] as usize + r[3] as usize;
    let second = r[2] as usize + distance + r[4] as usize;
    let rules = [
        (0, (1..=6).contains(&r[0])),
        (1, (1..=3).contains(&r[1])),
        (2, r[2] <= 14),
        (3, (1..=14).contains(&r[3])),
        (4, r[4] <= 14),
        (5, (1..=144).contains(&r[5])),
        (6, prc <= 511),
        (
            8,
            if r[4] == 0 {
                distance == 0
            } else {
                (15..=269).contains(&distance)
            },
        ),
        (5, first <= room && (r[4] == 0 || second <= room)),
    ];
    rules.iter().find(|rule| !rule.1).map(|rule| rule.0)
}
