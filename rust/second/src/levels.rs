//! The level table: 640·log10 x to the nearest, for x from 1 to 1,575.

use std::sync::OnceLock;

/// The largest x that any sum or gain in range asks for: 15² + 6·15².
pub const LARGEST: usize = 1_575;

/// L(x). A test holds every entry against the page's two inequalities with
/// whole numbers of any size, so that the logarithm of the machine need not
/// be trusted.
///
/// # Panics
///
/// If x is not from 1 to 1,575.
pub fn level(x: usize) -> i32 {
    static TABLE: OnceLock<Vec<i32>> = OnceLock::new();
    assert!((1..=LARGEST).contains(&x), "no level of {x}");
    let table = TABLE.get_or_init(|| {
        (1..=LARGEST)
            .map(|x| (640.0 * (x as f64).log10()).round() as i32)
            .collect()
    });
    table[x - 1]
}
