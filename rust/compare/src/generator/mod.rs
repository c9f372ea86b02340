//! Blocks drawn from a seed: jobs of many kinds with what is to be done with
//! them.

mod file;
pub mod halves;
mod marks;
pub mod records;
mod rows;
pub mod settings;

use second::{Layout, Sequence, MOST_ROWS};

use crate::block::{Block, LONGEST_JOB};
use crate::draw::Draw;
use crate::subject::Scope;

/// What is wrong with a job.
#[derive(Clone, Copy, PartialEq, Eq, Debug)]
pub enum Damage {
    Settings,
    Records,
    TooManyRecords,
    Rows,
    Contents,
    Cut,
    Lengthened,
    Flipped,
}

/// The kinds of jobs.
#[derive(Clone, Copy, PartialEq, Eq, Debug)]
pub enum Kind {
    /// Nothing is wrong, though a row may fall below the lowest power.
    Right,
    /// Near the lowest power, mostly told to go down.
    Low,
    /// A resume change that has to be rounded from exactly one half.
    Half,
    /// One thing is wrong, or nearly so.
    One(Damage),
    /// Two or three things at once: which is refused first?
    Several,
    /// As many rows as a job may have, or more: so many.
    Full(usize),
    /// About as many bytes as a file may have: so many.
    Large(usize),
    /// No job at all.
    Noise,
}

const DAMAGES: [Damage; 8] = [
    Damage::Settings,
    Damage::Records,
    Damage::TooManyRecords,
    Damage::Rows,
    Damage::Contents,
    Damage::Cut,
    Damage::Lengthened,
    Damage::Flipped,
];

/// The block with this number of a seed. Of those that are kept, the first
/// three are large, the first of them marked for single steps and a lent
/// buffer, eight have a half to round, and none of the others has more than
/// 600 rows.
pub fn block(seed: u64, number: u64, scope: Scope) -> Block {
    let draw = &mut Draw::new(seed, number);
    let kind = match (scope, number) {
        (Scope::Kept, 0) => Kind::Full(MOST_ROWS),
        (Scope::Kept, 1) => Kind::Full(MOST_ROWS + 1),
        (Scope::Kept, 2) => Kind::Large(65_537),
        (Scope::Kept, 3..=10) => Kind::Half,
        _ => kind(draw, scope),
    };
    let mut job = job(draw, kind, scope);
    job.truncate(LONGEST_JOB);
    let mut head = marks::drawn(draw, &job);
    if (scope, number) == (Scope::Kept, 0) {
        marks::stepped_and_lent(&mut head, &job);
    }
    Block { head, job }
}

/// The kind of the block with this number of a seed, as `block` draws it.
pub fn kind_of(seed: u64, number: u64) -> Kind {
    kind(&mut Draw::new(seed, number), Scope::Any)
}

fn kind(draw: &mut Draw, scope: Scope) -> Kind {
    let full = draw.one_of(&[MOST_ROWS - 1, MOST_ROWS, MOST_ROWS + 1, 32_000]);
    let large = draw.one_of(&[65_535, 65_536, 65_537, 65_600]);
    let seldom = if scope == Scope::Any { 1 } else { 0 };
    draw.weighted(&[
        (410, Kind::Right),
        (60, Kind::Low),
        (8, Kind::Half),
        (90, Kind::One(Damage::Settings)),
        (100, Kind::One(Damage::Records)),
        (25, Kind::One(Damage::TooManyRecords)),
        (90, Kind::One(Damage::Rows)),
        (70, Kind::One(Damage::Contents)),
        (30, Kind::One(Damage::Cut)),
        (20, Kind::One(Damage::Lengthened)),
        (50, Kind::One(Damage::Flipped)),
        (45, Kind::Several),
        (10, Kind::Noise),
        (3 * seldom, Kind::Full(full)),
        (3 * seldom, Kind::Large(large)),
    ])
}

fn job(draw: &mut Draw, kind: Kind, scope: Scope) -> Vec<u8> {
    let long = scope == Scope::Any && draw.once_in(400);
    let count = if long {
        rows::many(draw)
    } else {
        rows::few(draw)
    };
    match kind {
        Kind::Right => built(draw, &[], count, false),
        Kind::Low => built(draw, &[], count, true),
        Kind::Half => halves::job(draw),
        Kind::One(damage) => built(draw, &[damage], count, false),
        Kind::Several => {
            let damages: Vec<Damage> = (0..draw.within(2, 3))
                .map(|_| draw.one_of(&DAMAGES))
                .collect();
            let down = draw.once_in(4);
            built(draw, &damages, count, down)
        }
        Kind::Full(rows) => built(draw, &[], rows, false),
        Kind::Large(length) => large(draw, length),
        Kind::Noise => file::noise(draw),
    }
}

/// A job of so many rows, with some things wrong. Rows keep the rules of the
/// records as they are after damage, where these can be read.
fn built(draw: &mut Draw, damages: &[Damage], count: usize, down: bool) -> Vec<u8> {
    let has = |damage: Damage| damages.contains(&damage);
    let mut settings = settings::drawn(draw);
    if down {
        settings::set_start(&mut settings, draw.within(-9_600, -9_000) as i16);
    }
    let link_sets = settings[4];
    if has(Damage::Settings) {
        settings::damage(draw, &mut settings);
    }
    let records = damaged_records(draw, damages, count);
    let sequences = Sequence::read_all(&records.concat()).unwrap_or_default();
    let layout = Layout::of(&sequences, count);
    let mut rows = rows::drawn(draw, &layout, link_sets, count, down);
    if has(Damage::Rows) {
        rows::damage(draw, &mut rows, &layout, link_sets);
    }
    let mut file = file::bytes(settings, &records, &rows);
    for damage in damages {
        match damage {
            Damage::Contents if file.len() >= 29 => file::damage_contents(draw, &mut file),
            Damage::Cut => file::cut(draw, &mut file),
            Damage::Lengthened => file::lengthen(draw, &mut file),
            Damage::Flipped => file::flip_bits(draw, &mut file),
            _ => {}
        }
    }
    file
}

fn damaged_records(draw: &mut Draw, damages: &[Damage], count: usize) -> Vec<records::Record> {
    if !damages.contains(&Damage::Records) && !damages.contains(&Damage::TooManyRecords) {
        return records::drawn(draw, count);
    }
    let mut list = records::at_least_one(draw, count);
    if damages.contains(&Damage::Records) {
        records::damage(draw, &mut list);
    }
    if damages.contains(&Damage::TooManyRecords) {
        records::add_copies(draw, &mut list);
    }
    list
}

/// A file of so many bytes whose table of contents is right if it can be.
fn large(draw: &mut Draw, length: usize) -> Vec<u8> {
    let settings = settings::drawn(draw);
    let records = records::drawn(draw, MOST_ROWS);
    let count = (length - 41 - 12 * records.len()) / 2;
    let layout = Layout::of(&[], 0);
    let rows = rows::drawn(draw, &layout, settings[4], count, false);
    let mut file = file::bytes(settings, &records, &rows);
    file.resize(length, 0);
    file
}
