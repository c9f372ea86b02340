//! Rows: command bytes in stretches, pilot bits, zeros where gaps ask for
//! them, and rows that break a rule.

use second::{Layout, MOST_ROWS};

use crate::draw::Draw;

pub type Row = [u8; 2];

/// How the commands of a stretch of rows are drawn.
#[derive(Clone, Copy)]
enum Style {
    Ones,
    Zeros,
    Any,
    /// The same byte all along: link sets that agree with themselves.
    Constant(u8),
    /// Ones for some link sets, anything for the others: votes of algorithm 2
    /// that are no majority, just one, or a large one.
    PartlyOnes(u8),
    /// Up and down in turn.
    Alternating,
}

/// How many rows a job that is not long has.
pub fn few(draw: &mut Draw) -> usize {
    match draw.below(10) {
        0 => draw.below(8),
        1..=6 => draw.below(61),
        _ => draw.within(60, 600) as usize,
    }
}

/// How many rows a long job has.
pub fn many(draw: &mut Draw) -> usize {
    draw.within(600, MOST_ROWS as i64) as usize
}

/// Rows that keep their rules for a layout that covers at least so many
/// slots of the job.
pub fn drawn(
    draw: &mut Draw,
    layout: &Layout,
    link_sets: u8,
    count: usize,
    down: bool,
) -> Vec<Row> {
    let mut rows = Vec::with_capacity(count);
    let all = (1u8 << link_sets) - 1;
    let mut pilots = draw.within(3, 8) as u8;
    let pilots_change = draw.one_of(&[1, 2, 15, 30, usize::MAX]);
    while rows.len() < count {
        let style = style(draw, all, down);
        let length = draw.one_of(&[1, 2, 5, 10, 15, 40]).min(count - rows.len());
        for _ in 0..length {
            let slot = rows.len();
            if slot % pilots_change == 0 {
                pilots = draw.within(3, 8) as u8;
            }
            rows.push([command(draw, style, all, slot), pilots]);
        }
    }
    clear_gaps(&mut rows, layout);
    rows
}

fn style(draw: &mut Draw, all: u8, down: bool) -> Style {
    let byte = draw.byte() & all;
    let choices = [
        (6, Style::Ones),
        (if down { 12 } else { 3 }, Style::Zeros),
        (2, Style::Any),
        (2, Style::Constant(byte)),
        (3, Style::PartlyOnes(byte)),
        (1, Style::Alternating),
    ];
    let skip = usize::from(down);
    draw.weighted(&choices[skip..])
}

fn command(draw: &mut Draw, style: Style, all: u8, slot: usize) -> u8 {
    match style {
        Style::Ones => all,
        Style::Zeros => 0,
        Style::Any => draw.byte() & all,
        Style::Constant(byte) => byte,
        Style::PartlyOnes(byte) => (byte | draw.byte()) & all,
        Style::Alternating => all * (slot % 2) as u8,
    }
}

/// No commands in downlink gaps, no pilots in uplink gaps.
pub fn clear_gaps(rows: &mut [Row], layout: &Layout) {
    for (slot, row) in rows.iter_mut().enumerate().take(layout.length()) {
        if layout.is_downlink_gap(slot) {
            row[0] = 0;
        }
        if layout.is_uplink_gap(slot) {
            row[1] = 0;
        }
    }
}

/// Breaks the rule of one row, or nearly so, where there is a row. Gap rows
/// are looked for half of the time.
pub fn damage(draw: &mut Draw, rows: &mut [Row], layout: &Layout, link_sets: u8) {
    let count = rows.len().min(layout.length());
    if count == 0 {
        return;
    }
    let in_gap = |slot: &usize| layout.is_downlink_gap(*slot) || layout.is_uplink_gap(*slot);
    let gaps: Vec<usize> = (0..count).filter(in_gap).collect();
    let slot = if gaps.is_empty() || draw.once_in(2) {
        draw.below(count)
    } else {
        draw.one_of(&gaps)
    };
    let row = &mut rows[slot];
    match draw.below(8) {
        0 => row[0] |= 1 << link_sets,
        1 => row[0] |= 1 << draw.within(i64::from(link_sets), 7),
        2 | 3 => row[0] = draw.one_of(&[1, (1 << link_sets) - 1]),
        4 | 5 => row[1] = draw.one_of(&[0, 2, 3, 8, 9, 255]),
        6 => *row = [0, 0],
        _ => *row = [draw.byte(), draw.byte()],
    }
}
