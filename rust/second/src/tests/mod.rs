//! The page's marked cases, its edges and the sample jobs.

mod bodies;
mod edges;
mod ids;
mod level_table;
mod marked;
mod samples;
mod slots;
mod states;
mod texts;
mod unreadable;
mod writing;

/// A job file of settings, gap records and rows, with its table of contents.
fn file_of(settings: [u8; 12], records: &[[u8; 12]], rows: &[[u8; 2]]) -> Vec<u8> {
    crate::file_of(1, &settings, &records.concat(), &rows.concat())
}

/// The settings of the page's own job: algorithm 1, 1 dB, one link set, both
/// gain factors 15, 24 dBm, start at 1,280 units.
const PLAIN: [u8; 12] = [1, 1, 0, 0, 1, 15, 15, 1, 24, 0, 0, 5];

/// A record of an uplink gap that comes once, from frame 0 on.
fn once(id: u8, direction: u8, begin: u8, length: u8) -> [u8; 12] {
    [id, direction, begin, length, 0, 1, 1, 0, 0, 0, 0, 0]
}

/// The last line of a file's listing.
fn last_line(file: &[u8]) -> String {
    let text = String::from_utf8(crate::listing(file)).unwrap();
    text.lines().last().unwrap().to_string()
}
