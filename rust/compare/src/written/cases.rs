//! Named cases, on both sides of the edges and for wrong programs.

use std::sync::OnceLock;

use super::block::{Block, Given, Parts};

/// The settings and the rows of the page's job of 49 bytes.
const SETTINGS: [u8; 12] = [1, 1, 0, 0, 1, 15, 15, 1, 24, 0, 0, 5];
const ROWS: [u8; 8] = [1, 6, 1, 6, 1, 6, 0, 6];

/// Each byte of the settings that breaks its rule: the byte and its value.
const BAD_SETTINGS: [(&str, usize, u8); 14] = [
    ("PCA 3", 0, 3),
    ("step 3", 1, 3),
    ("step 2 with PCA 2", 0, 2),
    ("ITP 2", 2, 2),
    ("RPP 2", 3, 2),
    ("no link set", 4, 0),
    ("seven link sets", 4, 7),
    ("\u{3b2}c 16", 5, 16),
    ("\u{3b2}d 16", 6, 16),
    ("no DPDCH", 7, 0),
    ("maximum 34 dBm", 8, 34),
    ("maximum -51 dBm", 8, 205),
    ("byte 9 not zero", 9, 1),
    ("start 2,304", 11, 9),
];

/// The same for a gap record, which has a second gap and fits its pattern exactly. It stands after another one.
const BAD_RECORD: [(&str, usize, u8); 15] = [
    ("a record that just fits", 2, 2),
    ("a gap that does not fit", 2, 3),
    ("id 0", 0, 0),
    ("id 7", 0, 7),
    ("the id of the record before", 0, 1),
    ("direction 0", 1, 0),
    ("direction 4", 1, 4),
    ("TGSN 15", 2, 15),
    ("TGL1 0", 3, 0),
    ("TGL1 15", 3, 15),
    ("TGL2 15", 4, 15),
    ("no second gap with a TGD", 4, 0),
    ("TGPL 145", 5, 145),
    ("TGPRC 513", 7, 2),
    ("TGD 14", 8, 14),
];

/// Enough for the job of any text here that is short.
const ROOM: u32 = 200;

/// Enough for every job.
const FULL: u32 = 65_600;

/// The settings and the gain of that job as text.
const OPENING: &str = "settings 1 1 0 0 1 24 1280\ngain 15 15 1\n";

/// What follows `OPENING`, and how many bytes are lent.
const AFTER_OPENING: [(&str, &str, u32); 44] = [
    ("text: the page's job", "rows 3 1 6\nrow 0 6\n", 49),
    ("text: a byte too few", "rows 3 1 6\nrow 0 6\n", 48),
    ("text: a byte more", "rows 3 1 6\nrow 0 6\n", 50),
    ("text: nothing lent", "", 0),
    ("text: no rows", "", ROOM),
    ("row of 255", "row 255 255", ROOM),
    ("row of 256", "row 256 6", ROOM),
    ("row of 1 as 257", "row 257 6", ROOM),
    ("row of -1", "row -1 6", ROOM),
    ("row of -0", "row -0 6", ROOM),
    ("nine digits", "row 000000001 6", ROOM),
    ("ten digits", "row 0000000001 6", ROOM),
    ("a plus sign", "row +1 6", ROOM),
    ("a comment within a word", "row 1 6#x", ROOM),
    ("a comment within the first word", "ro#w 1 6", ROOM),
    ("upper case", "ROW 1 6", ROOM),
    ("a form feed is no space", "row\u{c}1 6", ROOM),
    ("tabs", "\t row\t1\t\t6\t\n", ROOM),
    ("carriage return and line feed", "row 1 6\r\n", ROOM),
    ("carriage return at the end", "row 1 6\r", ROOM),
    ("two carriage returns", "row 1 6\r\r\n", ROOM),
    (
        "carriage return in a comment",
        "row 1 6 # a\rb\nrow 1 6\n",
        ROOM,
    ),
    ("carriage return alone", "\r", ROOM),
    (
        "a gap after a row",
        "row 1 6\ngap 1 1 0 1 0 1 0 0 0\n",
        ROOM,
    ),
    (
        "a gap after no rows",
        "rows 0 1 6\ngap 1 1 0 1 0 1 0 0 0\n",
        ROOM,
    ),
    ("gain twice", "gain 15 15 1\n", ROOM),
    ("settings twice", "\nsettings 1 1 0 0 1 24 1280\n", ROOM),
    ("TGPRC 65,535", "gap 1 1 0 1 0 1 65535 0 0", ROOM),
    ("TGPRC 65,536", "gap 1 1 0 1 0 1 65536 0 0", ROOM),
    ("TGD 65,535", "gap 1 1 0 1 0 1 0 65535 0", ROOM),
    ("start frame 65,535", "gap 1 1 0 1 0 1 0 0 65535", ROOM),
    ("start frame 65,536", "gap 1 1 0 1 0 1 0 0 65536", ROOM),
    ("30,000 rows", "rows 29999 1 6\nrow 0 7", FULL),
    ("30,000 rows, a byte too few", "rows 30000 1 6", 60_040),
    ("30,001 rows", "rows 30000 1 6\nrow 1 6", FULL),
    ("30,001 rows, nothing lent", "rows 30001 1 6", 0),
    ("32,747 rows, 65,535 bytes", "rows 32747 1 6", FULL),
    ("32,748 rows, 65,537 bytes", "rows 32748 1 6", FULL),
    ("40,000 rows", "rows 40000 1 6", FULL),
    ("999,999,999 rows", "rows 999999999 1 6", ROOM),
    ("1,000,000,000 rows", "rows 1000000000 1 6", ROOM),
    (
        "more rows than 32 bits count",
        "rows 999999999 1 6\nrows 999999999 1 6\nrows 999999999 1 6\nrows 999999999 1 6\n\
         rows 294967300 1 6\n",
        ROOM,
    ),
    (
        "unreadable after too many rows",
        "rows 999999999 1 6\nrow 1\n",
        ROOM,
    ),
    ("any bytes after a job's end", "\u{0}", ROOM),
];

/// Whole texts.
const WHOLE: [(&str, &str); 17] = [
    ("no line", ""),
    ("an empty line", "\n"),
    ("comments alone", "# a\n\n# b"),
    ("settings alone", "settings 1 1 0 0 1 24 1280"),
    ("settings and a line feed", "settings 1 1 0 0 1 24 1280\n"),
    ("gain first", "gain 15 15 1\nsettings 1 1 0 0 1 24 1280\n"),
    (
        "a row for the gain",
        "settings 1 1 0 0 1 24 1280\nrow 1 6\n",
    ),
    ("maximum -128", "settings 1 1 0 0 1 -128 0\ngain 15 15 1\n"),
    ("maximum -129", "settings 1 1 0 0 1 -129 0\ngain 15 15 1\n"),
    ("maximum 127", "settings 1 1 0 0 1 127 0\ngain 15 15 1\n"),
    ("maximum 128", "settings 1 1 0 0 1 128 0\ngain 15 15 1\n"),
    (
        "start -32,768",
        "settings 1 1 0 0 1 24 -32768\ngain 15 15 1\n",
    ),
    (
        "start -32,769",
        "settings 1 1 0 0 1 24 -32769\ngain 15 15 1\n",
    ),
    (
        "start 32,767",
        "settings 1 1 0 0 1 24 32767\ngain 15 15 1\n",
    ),
    (
        "start 32,768",
        "settings 1 1 0 0 1 24 32768\ngain 15 15 1\n",
    ),
    (
        "start 1,280 as 66,816",
        "settings 1 1 0 0 1 24 66816\ngain 15 15 1\n",
    ),
    (
        "the example",
        "settings 1 1 0 0 1 24 1280     # PCA step ITP RPP N maximum start\n\
         gain 15 15 1                   # \u{3b2}c \u{3b2}d n\n\
         gap 1 3 7 3 0 4 0 0 0          # id direction TGSN TGL1 TGL2 TGPL TGPRC TGD start-frame\n\
         row 1 6                        # commands pilots\n\
         rows 100 1 6                   # a hundred such rows\n",
    ),
];

/// The texts of the sample jobs.
const FOUR_ROWS: &[u8] = include_bytes!("../../../../jobs/four-rows.txt");
const LIFT: &[u8] = include_bytes!("../../../../jobs/lift.txt");
const TWO_IDS: &[u8] = include_bytes!("../../../../jobs/two-ids.txt");
const REFUSED: &[u8] = include_bytes!("../../../../jobs/refused.txt");

/// Each with as many bytes lent as its file has, and with more. The file of the last one is refused.
const SAMPLES: [(&str, &[u8], u32); 8] = [
    ("four-rows.txt", FOUR_ROWS, 49),
    ("four-rows.txt, more lent", FOUR_ROWS, ROOM),
    ("lift.txt", LIFT, 173),
    ("lift.txt, more lent", LIFT, ROOM),
    ("two-ids.txt", TWO_IDS, 161),
    ("two-ids.txt, more lent", TWO_IDS, ROOM),
    ("refused.txt", REFUSED, 127),
    ("refused.txt, more lent", REFUSED, ROOM),
];

/// So many records, each with an id of its own as far as there are ids.
fn gaps(count: u8) -> Vec<u8> {
    let gap = |at: u8| [1 + at % 6, 1, 2 * (at % 6), 1, 0, 2, 0, 1, 0, 0, 0, 2];
    (0..count).flat_map(gap).collect()
}

/// The parts of the page's job.
fn page() -> Parts {
    Parts {
        kind: 1,
        settings: SETTINGS.to_vec(),
        records: Vec::new(),
        rows: ROWS.to_vec(),
    }
}

fn kind(kind: u8) -> Parts {
    Parts { kind, ..page() }
}

/// With so many bytes of settings.
fn settings(length: usize) -> Parts {
    Parts {
        settings: SETTINGS.repeat(2)[..length].to_vec(),
        ..page()
    }
}

fn records(records: Vec<u8>) -> Parts {
    Parts { records, ..page() }
}

fn rows(rows: Vec<u8>) -> Parts {
    Parts { rows, ..page() }
}

/// Parts, and how many bytes are lent.
fn of_parts() -> Vec<(&'static str, Parts, u32)> {
    let too_long = Parts {
        rows: vec![6; 65_496],
        ..kind(2)
    };
    vec![
        ("the page's job", page(), 49),
        ("a byte too few", page(), 48),
        ("a byte more", page(), 50),
        ("nothing lent", page(), 0),
        ("all lent", page(), FULL),
        ("kind 0", kind(0), ROOM),
        ("kind 2", kind(2), ROOM),
        ("kind 255", kind(255), ROOM),
        ("no settings", settings(0), ROOM),
        ("11 bytes of settings", settings(11), ROOM),
        ("13 bytes of settings", settings(13), ROOM),
        ("11 bytes of records", records(gaps(1)[..11].to_vec()), ROOM),
        ("13 bytes of records", records(gaps(2)[..13].to_vec()), ROOM),
        ("four records", records(gaps(4)), 97),
        ("five records", records(gaps(5)), 109),
        ("six records", records(gaps(6)), 121),
        ("six records, a byte too few", records(gaps(6)), 120),
        ("seven records", records(gaps(7)), ROOM),
        ("7 bytes of rows", rows(ROWS[..7].to_vec()), ROOM),
        ("9 bytes of rows", rows(vec![1; 9]), ROOM),
        ("9 pilot bits", rows(vec![1, 9]), ROOM),
        ("parts: no rows", rows(Vec::new()), 41),
        ("parts: 30,000 rows", rows([1, 6].repeat(30_000)), 60_041),
        ("65,536 bytes", rows(vec![6; 65_495]), FULL),
        ("65,537 bytes of kind 2", too_long, FULL),
    ]
}

/// One byte of settings or records that breaks a rule.
fn of_bytes() -> Vec<(&'static str, Parts, u32)> {
    let mut parts = Vec::new();
    for (name, at, value) in BAD_SETTINGS {
        let mut page = page();
        // A step of 2 dB is right with PCA 1 alone.
        page.settings[1] = 2;
        page.settings[at] = value;
        parts.push((name, page, ROOM));
    }
    for (name, at, value) in BAD_RECORD {
        let mut records = gaps(1);
        records.extend([2, 3, 2, 3, 4, 2, 1, 0, 24, 0, 0, 0]);
        records[12 + at] = value;
        parts.push((name, self::records(records), ROOM));
    }
    parts
}

/// Each named case with its block.
pub fn cases() -> &'static [(&'static str, Block)] {
    static CASES: OnceLock<Vec<(&str, Block)>> = OnceLock::new();
    CASES.get_or_init(|| {
        let parts = of_parts().into_iter().chain(of_bytes());
        let parts = parts.map(|(name, parts, lent)| (name, Given::Parts(parts), lent));
        let after = AFTER_OPENING.map(|(name, rest, lent)| {
            let text = format!("{OPENING}{rest}");
            (name, Given::Text(text.into()), lent)
        });
        let whole = WHOLE.map(|(name, text)| (name, Given::Text(text.into()), 300));
        let samples = SAMPLES.map(|(name, text, lent)| (name, Given::Text(text.into()), lent));
        parts
            .chain(after)
            .chain(whole)
            .chain(samples)
            .map(|(name, given, lent)| (name, Block { given, lent }))
            .collect()
    })
}
