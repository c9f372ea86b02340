//! L(x) to the nearest unit. The logarithm of binary64 is near enough: no x up to 1,575 has a tie.
pub(crate) fn level(x: i32) -> i32 {
    (640.0 * f64::from(x).log10()).round() as i32
}

/// L of pilot bits, 3 to 8; the mask lets the table be asked without a test of the index.
pub(crate) fn pilot_level(bits: u8) -> i32 {
    const LEVELS: [i32; 16] = [0, 0, 0, 305, 385, 447, 498, 541, 578, 0, 0, 0, 0, 0, 0, 0];
    LEVELS[(bits & 15) as usize]
}
