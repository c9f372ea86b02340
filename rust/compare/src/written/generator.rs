//! Blocks drawn from a seed: named cases first, then parts and texts of many
//! kinds.

use second::{Composed, Refusal, MOST_ROWS};

use super::answer::composed;
use super::block::{Block, Given, MOST_GIVEN, MOST_LENT};
use super::cases::cases;
use super::damage::{self, Harm, HARMS};
use super::parts::{self, Damage, DAMAGES};
use super::text;
use crate::draw::Draw;
use crate::subject::Scope;

/// The kinds of blocks.
#[derive(Clone, Copy, PartialEq, Eq, Debug)]
pub enum Kind {
    /// One of the named cases.
    Case(&'static str),
    Parts,
    /// One thing is wrong, or nearly so.
    DamagedParts(Damage),
    /// Two or three things at once: which is refused first?
    SeveralParts,
    /// As many rows as a job may have, or more: so many.
    FullParts(usize),
    /// Parts that make a file of about as many bytes as it may have: so many.
    LargeParts(usize),
    NoiseParts,
    Text,
    /// A text that can be read, of a job that is refused, or nearly so.
    RefusedText(Damage),
    /// A short text of very many rows: so many.
    FullText(i64),
    /// A text of very many bytes.
    LongText,
    HarmedText(Harm),
    NoiseText,
}

/// The block with this number of a seed. The first ones are the named cases,
/// whatever the seed. Of those that are kept, no other is long.
pub fn block(seed: u64, number: u64, scope: Scope) -> Block {
    if let Some((_, block)) = cases().get(number as usize) {
        return block.clone();
    }
    let draw = &mut Draw::new(seed, number);
    let kind = kind(draw, scope);
    let given = given(draw, kind);
    let needed = needed(&given);
    let lent = lent(draw, needed, scope);
    Block { given, lent }
}

/// The kind of the block with this number of a seed, as `block` draws it.
pub fn kind_of(seed: u64, number: u64) -> Kind {
    match cases().get(number as usize) {
        Some((name, _)) => Kind::Case(name),
        None => kind(&mut Draw::new(seed, number), Scope::Any),
    }
}

fn kind(draw: &mut Draw, scope: Scope) -> Kind {
    let seldom = if scope == Scope::Any { 1 } else { 0 };
    let rows = draw.one_of(&[MOST_ROWS - 1, MOST_ROWS, MOST_ROWS + 1, 32_000]);
    let bytes = draw.one_of(&[65_535, 65_536, 65_537, 65_600, 29 + MOST_GIVEN]);
    let text_rows = draw.one_of(&[
        29_999,
        30_000,
        30_001,
        30_001,
        32_747,
        32_748,
        40_000,
        999_999_999,
    ]);
    let damage = draw.one_of(&DAMAGES);
    let opening = draw.one_of(&[
        Damage::Settings,
        Damage::Settings,
        Damage::Records,
        Damage::Records,
        Damage::TooManyRecords,
    ]);
    let harm = draw.one_of(&HARMS);
    draw.weighted(&[
        (150, Kind::Parts),
        (170, Kind::DamagedParts(damage)),
        (45, Kind::DamagedParts(Damage::Settings)),
        (45, Kind::DamagedParts(Damage::Records)),
        (45, Kind::SeveralParts),
        (20, Kind::NoiseParts),
        (5 * seldom, Kind::FullParts(rows)),
        (5 * seldom, Kind::LargeParts(bytes)),
        (140, Kind::Text),
        (100, Kind::RefusedText(opening)),
        (25, Kind::FullText(text_rows)),
        (2 * seldom, Kind::LongText),
        (240, Kind::HarmedText(harm)),
        (12, Kind::NoiseText),
    ])
}

fn given(draw: &mut Draw, kind: Kind) -> Given {
    match kind {
        Kind::Case(_) | Kind::Parts => Given::Parts(parts::few(draw, &[])),
        Kind::DamagedParts(damage) => Given::Parts(parts::few(draw, &[damage])),
        Kind::SeveralParts => {
            let damages: Vec<Damage> = (0..draw.within(2, 3))
                .map(|_| draw.one_of(&DAMAGES))
                .collect();
            Given::Parts(parts::few(draw, &damages))
        }
        Kind::FullParts(rows) => Given::Parts(parts::full(draw, rows)),
        Kind::LargeParts(bytes) => Given::Parts(parts::large(draw, bytes)),
        Kind::NoiseParts => Given::Parts(parts::noise(draw)),
        Kind::Text => text_of(draw, &[], None),
        Kind::RefusedText(damage) => text_of(draw, &[damage], None),
        Kind::FullText(rows) => {
            let lines = text::full(draw, rows);
            Given::Text(text::laid_out(draw, &lines))
        }
        Kind::LongText => Given::Text(long_text(draw)),
        Kind::HarmedText(harm) => text_of(draw, &[], Some(harm)),
        Kind::NoiseText => Given::Text(damage::noise(draw)),
    }
}

fn text_of(draw: &mut Draw, damages: &[Damage], harm: Option<Harm>) -> Given {
    let mut lines = text::lines(draw, damages);
    if let Some(harm) = harm {
        damage::to_lines(draw, harm, &mut lines);
    }
    let mut text = text::laid_out(draw, &lines);
    if let Some(harm) = harm {
        damage::to_bytes(draw, harm, &mut text);
    }
    Given::Text(text)
}

/// One line of a text repeated many times, or a very long comment.
fn long_text(draw: &mut Draw) -> Vec<u8> {
    let mut text = b"settings 1 1 0 0 1 24 1280\ngain 15 15 1\n".to_vec();
    let gap = b"gap 1 1 0 1 0 1 0 0 0\n".as_slice();
    let row = b"row 1 6\n".as_slice();
    let (line, count) = draw.one_of(&[
        (row, MOST_ROWS),
        (row, MOST_ROWS + 1),
        (row, 32_000),
        (gap, 5_457),
        (gap, 5_458),
        (b"#".as_slice(), MOST_GIVEN),
        (b"\n".as_slice(), MOST_GIVEN),
    ]);
    text.extend(line.repeat(count));
    text.truncate(MOST_GIVEN);
    if draw.once_in(3) {
        // What cannot be read stands in the last line.
        text.truncate(MOST_GIVEN - 2);
        text.extend(b"\nx");
    }
    text
}

/// The size that 12 names where nothing is lent. What is refused otherwise
/// needs none, and some bytes are lent that must stay.
fn needed(given: &Given) -> usize {
    match composed(given, &mut []) {
        Composed::Refused(Refusal { number: 12, place }) => place as usize,
        _ => 60,
    }
}

/// How many bytes are lent: about as many as are needed.
fn lent(draw: &mut Draw, needed: usize, scope: Scope) -> u32 {
    let most = if scope == Scope::Any && draw.once_in(8) {
        MOST_LENT
    } else {
        needed + 300
    };
    let count = match draw.below(40) {
        0 => most,
        1 => 0,
        2..=7 => needed - 1,
        8..=10 => needed - draw.within(2, 9) as usize,
        11 => draw.below(needed),
        12..=18 => needed + draw.within(1, 9) as usize,
        19 => needed + 1,
        20 => 29,
        _ => needed,
    };
    count.min(MOST_LENT) as u32
}
