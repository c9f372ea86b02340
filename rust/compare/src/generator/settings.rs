//! Settings: in range, at the edges of their ranges, and just outside.

use second::{Gain, Settings};

use crate::draw::Draw;

/// Twelve bytes that break no rule.
pub fn drawn(draw: &mut Draw) -> [u8; 12] {
    let algorithm = draw.one_of(&[1, 1, 1, 2, 2]);
    let step = if algorithm == 2 {
        1
    } else {
        draw.one_of(&[1, 2])
    };
    let (control, data) = gain_factors(draw);
    let maximum = match draw.below(8) {
        0 => draw.one_of(&[-50, -49, 32, 33]),
        1 | 2 => draw.within(-50, 33) as i8,
        _ => draw.one_of(&[24, 21, 10, 0, -1]),
    };
    let mut bytes = [0; 12];
    bytes[0] = algorithm;
    bytes[1] = step;
    bytes[2] = draw.one_of(&[0, 1]);
    bytes[3] = draw.one_of(&[0, 1]);
    bytes[4] = draw.one_of(&[1, 1, 1, 2, 2, 3, 4, 5, 6, 6]);
    bytes[5] = control;
    bytes[6] = data;
    bytes[7] = draw.one_of(&[1, 1, 2, 3, 4, 5, 6]);
    bytes[8] = maximum as u8;
    let ceiling = ceiling_of(&bytes);
    set_start(&mut bytes, start(draw, ceiling));
    bytes
}

/// Writes the start power.
pub fn set_start(bytes: &mut [u8; 12], start: i16) {
    bytes[10..].copy_from_slice(&start.to_le_bytes());
}

/// At least one of the two is 15.
fn gain_factors(draw: &mut Draw) -> (u8, u8) {
    match draw.below(6) {
        0 => (15, 15),
        1 => draw.one_of(&[(15, 0), (15, 1), (1, 15), (2, 15), (14, 15), (15, 14)]),
        2 | 3 => (draw.within(1, 15) as u8, 15),
        _ => (15, draw.within(0, 15) as u8),
    }
}

fn ceiling_of(bytes: &[u8; 12]) -> i64 {
    let settings = Settings::read(bytes).expect("a start power of 0 is in range");
    i64::from(Gain::of(&settings).ceiling)
}

/// Often near the ceiling, so that rows are limited; now and then at an edge
/// or anywhere.
fn start(draw: &mut Draw, ceiling: i64) -> i16 {
    let power = match draw.below(10) {
        0 => draw.one_of(&[-9_600, -9_599, 2_111, 2_112]),
        1 => draw.within(-9_600, 2_112),
        2 => ceiling + draw.one_of(&[-1, 0, 1]),
        3..=5 => ceiling - draw.within(0, 200),
        6 => ceiling + draw.within(0, 2_000),
        7 => draw.one_of(&[0, -1, 1, -64]),
        _ => ceiling - draw.within(200, 3_000),
    };
    power.clamp(-9_600, 2_112) as i16
}

/// Puts a byte, or a pair of bytes with a common rule, at an edge of its
/// range or just outside.
pub fn damage(draw: &mut Draw, bytes: &mut [u8; 12]) {
    match draw.below(15) {
        0 => bytes[0] = draw.one_of(&[0, 1, 2, 3, 255]),
        1 => bytes[1] = draw.one_of(&[0, 1, 2, 3, 129]),
        2 => (bytes[0], bytes[1]) = draw.one_of(&[(2, 2), (2, 1), (2, 0), (1, 2), (3, 2)]),
        3 => bytes[2] = draw.one_of(&[0, 1, 2, 255]),
        4 => bytes[3] = draw.one_of(&[0, 1, 2, 255]),
        5 => bytes[4] = draw.one_of(&[0, 1, 6, 7, 8, 255]),
        6 => bytes[5] = draw.one_of(&[0, 1, 14, 15, 16, 255]),
        7 => bytes[6] = draw.one_of(&[0, 14, 15, 16, 255]),
        8 => (bytes[5], bytes[6]) = draw.one_of(&[(14, 14), (0, 15), (1, 15), (15, 16), (1, 0)]),
        9 => bytes[7] = draw.one_of(&[0, 1, 6, 7, 255]),
        10 => bytes[8] = draw.one_of(&[-51i8, -50, 33, 34, 127, -128]) as u8,
        11 => bytes[9] = draw.one_of(&[0, 1, 128, 255]),
        12 | 13 => {
            let edges = [-9_601, -9_600, 2_112, 2_113, 32_767, -32_768, -9_857, 2_368];
            set_start(bytes, draw.one_of(&edges));
        }
        _ => bytes[draw.below(12)] = draw.byte(),
    }
}
