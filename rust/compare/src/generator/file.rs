//! A file of settings, records and rows, and damage to its bytes.

use super::records::Record;
use super::rows::Row;
use crate::draw::Draw;

/// The bytes of a file with a right table of contents.
pub fn bytes(settings: [u8; 12], records: &[Record], rows: &[Row]) -> Vec<u8> {
    second::file_of(1, &settings, &records.concat(), &rows.concat())
}

/// Where the numbers of entry 1, 2 or 3 stand.
fn offset_at(entry: usize) -> usize {
    9 * entry - 6
}

fn length_at(entry: usize) -> usize {
    9 * entry - 2
}

fn number(file: &[u8], at: usize) -> u32 {
    u32::from_le_bytes([file[at], file[at + 1], file[at + 2], file[at + 3]])
}

fn set_number(file: &mut [u8], at: usize, number: u32) {
    file[at..at + 4].copy_from_slice(&number.to_le_bytes());
}

/// Damage to the table of contents of a file that has one.
pub fn damage_contents(draw: &mut Draw, file: &mut [u8]) {
    let entry = draw.within(1, 3) as usize;
    let slight = [
        1,
        2,
        12,
        24,
        256,
        65_536,
        u32::MAX,
        u32::MAX - 1,
        u32::MAX - 11,
    ];
    match draw.below(9) {
        0 => file[0] = draw.one_of(&[0, 2, 3, 255]),
        1 => file[1] = draw.one_of(&[0, 2, 4, 255]),
        2 => file[9 * entry - 7] = draw.one_of(&[0, 1, 2, 3, 4, 255]),
        3 | 4 => {
            let at = draw.one_of(&[offset_at(entry), length_at(entry)]);
            set_number(
                file,
                at,
                number(file, at).wrapping_add(draw.one_of(&slight)),
            );
        }
        5 => {
            let huge = [u32::MAX, u32::MAX - 3, u32::MAX - 15, 1 << 31, 0, 65_536];
            let at = draw.one_of(&[offset_at(entry), length_at(entry)]);
            set_number(file, at, draw.one_of(&huge));
        }
        6 => wrap_around(draw, file),
        7 => move_boundary(draw, file),
        _ => set_number(file, length_at(entry), draw.word()),
    }
}

/// A second body so long that its end, modulo 2^32, lies before its begin,
/// and a third body that begins there.
fn wrap_around(draw: &mut Draw, file: &mut [u8]) {
    let back = 4 + 12 * draw.below(3) as u32;
    let length = file.len() as u32;
    set_number(file, length_at(2), 0u32.wrapping_sub(back));
    set_number(file, offset_at(3), 41 - back);
    set_number(file, length_at(3), length.wrapping_sub(41 - back));
}

/// The boundary between records and rows moved by a record, by a row or by a
/// byte, with both lengths to match.
fn move_boundary(draw: &mut Draw, file: &mut [u8]) {
    let by = draw.one_of(&[12, 12u32.wrapping_neg(), 2, 1, 84]);
    for at in [length_at(2), offset_at(3)] {
        set_number(file, at, number(file, at).wrapping_add(by));
    }
    let at = length_at(3);
    set_number(file, at, number(file, at).wrapping_sub(by));
}

/// Bytes taken off the end.
pub fn cut(draw: &mut Draw, file: &mut Vec<u8>) {
    let few = file.len().min(6);
    let length = match draw.below(4) {
        0 => file.len() - draw.below(few + 1),
        1 => draw.below(file.len().min(66) + 1),
        _ => draw.below(file.len() + 1),
    };
    file.truncate(length);
}

/// Bytes added at the end.
pub fn lengthen(draw: &mut Draw, file: &mut Vec<u8>) {
    let more = draw.one_of(&[1, 1, 2, 2, 3, 12, 13, 100]);
    for _ in 0..more {
        file.push(draw.byte() & draw.one_of(&[0, 1, 7, 255]));
    }
}

/// One to four bits turned over, half of the time near the begin.
pub fn flip_bits(draw: &mut Draw, file: &mut [u8]) {
    if file.is_empty() {
        return;
    }
    let end = if draw.once_in(2) {
        file.len().min(65)
    } else {
        file.len()
    };
    for _ in 0..draw.one_of(&[1, 1, 1, 2, 4]) {
        file[draw.below(end)] ^= 1 << draw.below(8);
    }
}

/// No job at all: nothing, or any bytes.
pub fn noise(draw: &mut Draw) -> Vec<u8> {
    let length = draw.one_of(&[0, 0, 1, 28, 29, 30, 40, 41, 49, 200]);
    let mut file: Vec<u8> = (0..length).map(|_| draw.byte()).collect();
    if length >= 29 && draw.once_in(2) {
        (file[0], file[1]) = (1, 3);
    }
    file
}
