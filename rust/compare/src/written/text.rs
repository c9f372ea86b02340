//! Texts of jobs: lines of words, laid out in many ways that say the same.

use super::parts::{opening, Damage};
use crate::draw::Draw;
use crate::generator::records::Record;

/// The words of a line.
pub type Line = Vec<String>;

/// The lines of a job of a few rows, with some things wrong that the writer
/// refuses.
pub fn lines(draw: &mut Draw, damages: &[Damage]) -> Vec<Line> {
    let (settings, records) = opening(draw, damages);
    let mut lines = opening_lines(draw, &settings, &records);
    for _ in 0..draw.one_of(&[0, 1, 2, 3, 5, 9]) {
        let count = draw.one_of(&[0, 1, 1, 2, 3, 17, 100]);
        let row = rows_line(draw, count);
        lines.push(row);
    }
    lines
}

/// The lines of a job of so many rows.
pub fn full(draw: &mut Draw, mut rows: i64) -> Vec<Line> {
    let (settings, records) = opening(draw, &[]);
    let mut lines = opening_lines(draw, &settings, &records);
    for _ in 0..draw.below(4) {
        let count = draw.one_of(&[0, 1, 1, 1, 2, 747]);
        lines.push(rows_line(draw, count));
        rows -= count;
    }
    let at = lines.len() - draw.below(lines.len() - 1 - records.len());
    lines.insert(at, rows_line(draw, rows));
    lines
}

/// The lines of settings, gain and gaps.
fn opening_lines(draw: &mut Draw, settings: &[u8; 12], records: &[Record]) -> Vec<Line> {
    let byte = |at: usize| i64::from(settings[at]);
    let start = i64::from(i16::from_le_bytes([settings[10], settings[11]]));
    let maximum = i64::from(settings[8] as i8);
    let numbers = [byte(0), byte(1), byte(2), byte(3), byte(4), maximum, start];
    let mut lines = vec![
        line(draw, "settings", &numbers),
        line(draw, "gain", &[byte(5), byte(6), byte(7)]),
    ];
    for record in records {
        let (bytes, pairs) = record.split_at(6);
        let pairs = pairs
            .chunks(2)
            .map(|two| i64::from(two[0]) + 256 * i64::from(two[1]));
        let numbers: Vec<i64> = bytes.iter().map(|&byte| byte.into()).chain(pairs).collect();
        lines.push(line(draw, "gap", &numbers));
    }
    lines
}

/// A line of so many rows; one row may be either word.
fn rows_line(draw: &mut Draw, count: i64) -> Line {
    let row = [i64::from(draw.byte()), draw.one_of(&[0, 3, 6, 8, 9, 255])];
    if count == 1 && !draw.once_in(4) {
        line(draw, "row", &row)
    } else {
        line(draw, "rows", &[count, row[0], row[1]])
    }
}

fn line(draw: &mut Draw, word: &str, numbers: &[i64]) -> Line {
    let numbers = numbers.iter().map(|&number| number_word(draw, number));
    let mut words = vec![word.to_string()];
    words.extend(numbers);
    words
}

/// A number, now and then with leading zeros or as `-0`.
pub fn number_word(draw: &mut Draw, number: i64) -> String {
    let sign = if number < 0 || number == 0 && draw.once_in(12) {
        "-"
    } else {
        ""
    };
    let digits = number.abs().to_string();
    let most = 9usize.saturating_sub(digits.len());
    let zeros = if draw.once_in(16) {
        draw.below(most + 1)
    } else {
        0
    };
    format!("{sign}{}{digits}", "0".repeat(zeros))
}

/// How lines are laid out.
struct Layout {
    endings: &'static [&'static str],
    spaces: &'static [&'static str],
    /// A comment, a line without a word, spaces at either end: once in so many.
    extra: usize,
    last_feed: bool,
}

/// The bytes of lines in one of many layouts.
pub fn laid_out(draw: &mut Draw, lines: &[Line]) -> Vec<u8> {
    let endings: [&[&str]; 4] = [&["\n"], &["\n"], &["\r\n"], &["\n", "\r\n"]];
    let spaces: [&[&str]; 4] = [&[" "], &[" "], &["\t"], &[" ", "\t", "   ", " \t "]];
    let layout = Layout {
        endings: draw.one_of(&endings),
        spaces: draw.one_of(&spaces),
        extra: draw.one_of(&[1_000, 1_000, 3, 6]),
        last_feed: !draw.once_in(4),
    };
    let mut text = Vec::new();
    for (at, words) in lines.iter().enumerate() {
        while draw.once_in(layout.extra) {
            add_line(draw, &layout, &[], &mut text);
            text.extend(draw.one_of(layout.endings).bytes());
        }
        add_line(draw, &layout, words, &mut text);
        if at + 1 < lines.len() || layout.last_feed {
            text.extend(draw.one_of(layout.endings).bytes());
        }
    }
    if layout.last_feed && draw.once_in(layout.extra) {
        add_line(draw, &layout, &[], &mut text);
    }
    text
}

fn add_line(draw: &mut Draw, layout: &Layout, words: &[String], text: &mut Vec<u8>) {
    if draw.once_in(layout.extra) {
        text.extend(draw.one_of(layout.spaces).bytes());
    }
    for (at, word) in words.iter().enumerate() {
        if at > 0 {
            text.extend(draw.one_of(layout.spaces).bytes());
        }
        text.extend(word.bytes());
    }
    if draw.once_in(layout.extra) {
        text.extend(draw.one_of(layout.spaces).bytes());
    }
    if draw.once_in(layout.extra) {
        add_comment(draw, text);
    }
}

/// A comment may have any bytes but those that end a line.
fn add_comment(draw: &mut Draw, text: &mut Vec<u8>) {
    let words: [&[u8]; 5] = [b"#", b"# PCA", b"#row 1 6", b"# \xce\xb2c #", b"##\t-1"];
    text.extend(draw.one_of(&words));
    if draw.once_in(3) {
        let more = (0..draw.below(6)).map(|_| draw.byte());
        text.extend(more.filter(|byte| !b"\r\n".contains(byte)));
    }
}
