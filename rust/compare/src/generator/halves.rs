//! Jobs whose filter has a fraction of exactly one half at a resume slot, so
//! that "halves away from zero" can be seen.
//!
//! The exact recursion never has such a fraction. After some updates it is
//! minus the sum of c·b·(15/16)^j, where j counts the updates since, b is 62
//! or 124 and c is -1, 0 or 1. Take the largest j with c other than 0. If it
//! is 0, the sum is whole. Else its term is an odd number over 2^(4·j-1), or
//! over 2^(4·j-2) for 124, and every other term needs a smaller power of two
//! below the line: the sum is an odd number over that power, which is 8, 128
//! and so on, or 4, 64 and so on, and never 2.
//!
//! So a half comes from the roundings alone, which begin with the twelfth
//! update, and it is rare: about one in 2^43 levels. The lists below come from
//! a search from both ends: all lists of 29 commands forward from 0, and from
//! the halves backward, until the two met in the very same number. A list
//! with all commands turned round gives the same half with the other sign.
//!
//! The other slip that rounding can have, to add a half and cut, cannot be
//! seen in any job: it errs only for the number just below one half, and no
//! update ends there (a test shows it).

use second::{Layout, Sequence};

use super::file;
use super::rows::{self, Row};
use super::settings;
use crate::draw::Draw;

/// A list of commands, 1 for up and 0 for down, after which the filter's
/// level has a fraction of one half; and the step in dB.
pub struct Half {
    pub step: u8,
    pub commands: &'static str,
    /// The level.
    pub level: f64,
}

const fn half(step: u8, level: f64, commands: &'static str) -> Half {
    Half {
        step,
        commands,
        level,
    }
}

/// All lists found. Of some the whole part is even, of others odd: to the
/// even neighbour is another rule.
pub const HALVES: [Half; 8] = [
    half(1, 69.5, "10110010100000001001000011011101100100111010001"),
    half(1, 193.5, "10110010100000001001000011011101100100111010000"),
    half(1, 166.5, "01100101010000010101010001111000110000001011001"),
    half(1, 290.5, "01100101010000010101010001111000110000001011000"),
    half(2, 75.5, "100010101100110011010110101001111111000100001"),
    half(2, 323.5, "100010101100110011010110101001111111000100000"),
    half(2, 348.5, "01100101010000010101010001111000110000001011010"),
    half(2, 360.5, "11010101010101111101110100001000010101001001100"),
];

/// A job with one of the lists and a gap after it.
pub fn job(draw: &mut Draw) -> Vec<u8> {
    let half = &HALVES[draw.below(HALVES.len())];
    let mut settings = settings::drawn(draw);
    let up_means = draw.one_of(b"01");
    settings[0] = 1;
    settings[1] = half.step;
    settings[2] = 1;
    // Far below the ceiling, since limited rows would count for nothing.
    settings[8] = 33;
    settings::set_start(&mut settings, draw.within(-5_000, -3_000) as i16);
    let all = (1u8 << settings[4]) - 1;
    let record = gap_after(draw, half.commands.len());
    let sequences = Sequence::read_all(&record).expect("the record is right");
    let count = half.commands.len() + 20 + draw.below(10);
    let layout = Layout::of(&sequences, count);
    let mut rows: Vec<Row> = rows::drawn(draw, &layout, settings[4], count, false);
    for (row, command) in rows.iter_mut().zip(half.commands.bytes()) {
        row[0] = if command == up_means { all } else { all >> 1 };
    }
    file::bytes(settings, &[record], &rows)
}

/// A gap that leaves so many updates before its resume slot. A gap of the
/// uplink alone begins one slot earlier, since its first slot is an update.
fn gap_after(draw: &mut Draw, updates: usize) -> [u8; 12] {
    let direction = draw.one_of(&[1, 2, 3]);
    let begin = updates - usize::from(direction == 1);
    let length = draw.within(1, 14) as u8;
    let (frame, slot) = (begin / 15, begin % 15);
    let id = draw.within(1, 6) as u8;
    [
        id,
        direction,
        slot as u8,
        length,
        0,
        2,
        1,
        0,
        0,
        0,
        frame as u8,
        0,
    ]
}
