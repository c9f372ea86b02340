//! Texts that can be read: the job that they make, or its refusal.

use std::fs;
use std::path::Path;

use crate::tests::PLAIN;
use crate::{compose, file_of, Composed, Refusal, MOST_TEXT};

/// The text of W-202's example.
const EXAMPLE: &str = "\
settings 1 1 0 0 1 24 1280     # PCA step ITP RPP N maximum start
gain 15 15 1                   # \u{3b2}c \u{3b2}d n
gap 1 3 7 3 0 4 0 0 0          # id direction TGSN TGL1 TGL2 TGPL TGPRC TGD start-frame
row 1 6                        # commands pilots
rows 100 1 6                   # a hundred such rows
";

/// Settings and gain of the page's job.
pub const OPENING: &str = "settings 1 1 0 0 1 24 1280\ngain 15 15 1\n";

/// The file that a text makes.
fn made(text: &[u8]) -> Vec<u8> {
    let mut lent = vec![0; 65_536];
    match compose(text, &mut lent) {
        Composed::Written(size) => lent.truncate(size),
        other => panic!("{other:?}"),
    }
    lent
}

/// The number and the place of the refusal of a text, the opening before it.
fn refusal(rest: &str) -> (u32, u32) {
    let text = format!("{OPENING}{rest}");
    let mut lent = vec![3; 65_536];
    let composed = compose(text.as_bytes(), &mut lent);
    assert_eq!(lent, vec![3; 65_536]);
    match composed {
        Composed::Refused(Refusal { number, place }) => (number, place),
        other => panic!("{other:?}"),
    }
}

/// The file of the page's settings, these records and these rows.
fn plain(records: &[u8], rows: &[u8]) -> Vec<u8> {
    file_of(1, &PLAIN, records, rows)
}

#[test]
fn the_example_is_written() {
    let record = [1, 3, 7, 3, 0, 4, 0, 0, 0, 0, 0, 0];
    assert_eq!(
        made(EXAMPLE.as_bytes()),
        plain(&record, &[1, 6].repeat(101))
    );
    assert_eq!(made(OPENING.as_bytes()), plain(&[], &[]));
    let four = format!("{OPENING}rows 3 1 6\nrow 0 6");
    let job = include_bytes!("../../../../jobs/four-rows.job");
    assert_eq!(made(four.as_bytes()), job);
}

/// The texts of the sample jobs make these jobs, but for the one that is refused.
#[test]
fn the_samples_are_written() {
    let folder = Path::new(env!("CARGO_MANIFEST_DIR")).join("../../jobs");
    let bytes = |name: &str| fs::read(folder.join(name)).unwrap();
    for name in ["four-rows", "lift", "two-ids"] {
        let text = bytes(&format!("{name}.txt"));
        assert!(made(&text) == bytes(&format!("{name}.job")), "{name}");
    }
    let mut lent = vec![3; 200];
    let refused = Composed::Refused(Refusal::new(4, 7));
    assert_eq!(compose(&bytes("refused.txt"), &mut lent), refused);
    assert_eq!(lent, vec![3; 200]);
}

#[test]
fn numbers_have_their_places_and_their_bytes() {
    let text = "settings 2 1 1 0 6 -50 -9600\ngain 8 15 4\n\
                gap 2 1 14 13 12 20 511 268 65534\ngap 3 2 1 2 0 144 258 0 772\n";
    let mut file = made(text.as_bytes());
    let bodies = file.split_off(29);
    assert_eq!(bodies[..12], [2, 1, 1, 0, 6, 8, 15, 4, 206, 0, 0x80, 0xda]);
    assert_eq!(
        bodies[12..24],
        [2, 1, 14, 13, 12, 20, 255, 1, 12, 1, 254, 255]
    );
    assert_eq!(bodies[24..], [3, 2, 1, 2, 0, 144, 2, 1, 0, 0, 4, 3]);
}

/// Layouts of one job, none of which changes a byte of it.
#[test]
fn layouts_that_say_the_same() {
    let file = plain(&[], &[1, 6, 0, 6, 0, 6]);
    for text in [
        "settings 1 1 0 0 1 24 1280\ngain 15 15 1\nrow 1 6\nrow 0 6\nrow 0 6\n",
        "settings 1 1 0 0 1 24 1280\ngain 15 15 1\nrow 1 6\nrows 2 0 6",
        "settings 1 1 0 0 1 24 1280\r\ngain 15 15 1\r\nrow 1 6\r\nrows 2 0 6\r\n",
        "settings 1 1 0 0 1 24 1280\r\ngain 15 15 1\nrow 1 6\r\nrows 2 0 6",
        "\tsettings\t1 1  0\t 0 1 24 1280 \n gain 15 15 1\t\n\trow 1 6\n rows 2 0 6 ",
        "\n\r\n# a comment\n \t\nsettings 1 1 0 0 1 24 1280\n\ngain 15 15 1#x\nrow 1 6#7\n#\nrows 2 0 6# #\n\n",
        "settings 001 1 -0 000000000 1 24 1280\ngain 15 15 1\nrow 1 000000006\nrows 2 -0 6",
        "settings 1 1 0 0 1 24 1280\ngain 15 15 1\nrows 0 9 9\nrow 1 6\nrows 00 1 1\nrows 2 0 6",
        "settings 1 1 0 0 1 24 1280 # \u{0} \u{7f} row 1 6 \u{3b2}\ngain 15 15 1\nrow 1 6\nrows 2 0 6#",
    ] {
        assert_eq!(made(text.as_bytes()), file, "{text:?}");
    }
}

/// Numbers that fit their bytes go to the writer, which refuses them.
#[test]
fn numbers_that_fit_but_break_a_rule() {
    let mut lent = [0; 100];
    for (settings, gain, place) in [
        ("0 1 0 0 1 24 1280", "15 15 1", 0),
        ("255 255 255 255 255 127 32767", "255 255 255", 0),
        ("2 2 0 0 1 24 1280", "15 15 1", 1),
        ("1 1 2 0 1 24 1280", "15 15 1", 2),
        ("1 1 0 2 1 24 1280", "15 15 1", 3),
        ("1 1 0 0 7 24 1280", "15 15 1", 4),
        ("1 1 0 0 1 24 1280", "16 15 1", 5),
        ("1 1 0 0 1 24 1280", "14 14 1", 6),
        ("1 1 0 0 1 24 1280", "15 15 7", 7),
        ("1 1 0 0 1 34 1280", "15 15 1", 8),
        ("1 1 0 0 1 -51 1280", "15 15 1", 8),
        ("1 1 0 0 1 -128 -32768", "15 15 1", 8),
        ("1 1 0 0 1 24 2113", "15 15 1", 10),
        ("1 1 0 0 1 24 -9601", "15 15 1", 10),
    ] {
        let text = format!("settings {settings}\ngain {gain}\n");
        let refused = Composed::Refused(Refusal::new(3, place));
        assert_eq!(compose(text.as_bytes(), &mut lent), refused, "{text}");
    }
    assert_eq!(refusal("gap 7 1 0 1 0 1 0 0 0"), (5, 0));
    assert_eq!(refusal("gap 1 1 0 1 0 1 512 0 0\nrow 1 6"), (5, 6));
    assert_eq!(
        refusal("gap 1 1 0 1 0 1 0 0 0\ngap 2 1 0 1 0 1 0 65535 0"),
        (5, 20)
    );
    assert_eq!(
        refusal("gap 1 1 0 1 0 1 0 0 0\ngap 1 1 0 1 0 1 0 0 0"),
        (6, 1)
    );
}

#[test]
fn any_number_of_gap_lines() {
    let gap = |id: usize| format!("gap {id} 1 0 1 0 1 0 0 0\n");
    let six: String = (1..=6).map(gap).collect();
    assert_eq!(made(format!("{OPENING}{six}").as_bytes()).len(), 113);
    assert_eq!(refusal(&format!("{six}{}", gap(7))), (4, 7));
    assert_eq!(refusal(&gap(0).repeat(5_457)), (4, 5_457));
    assert_eq!(
        refusal(&format!("{}rows 5 1 6", gap(0).repeat(5_457))),
        (4, 5_457)
    );
    assert_eq!(
        refusal(&format!("{}rows 6 1 6", gap(0).repeat(5_457))),
        (1, 0)
    );
    assert_eq!(refusal(&gap(0).repeat(5_458)), (1, 0));
    assert_eq!(refusal(&gap(0).repeat(40_000)), (1, 0));
}

#[test]
fn any_number_of_rows() {
    assert_eq!(
        made(format!("{OPENING}rows 30000 1 6").as_bytes()).len(),
        60_041
    );
    assert_eq!(refusal("rows 30001 1 6"), (7, 30_000));
    assert_eq!(refusal("rows 30000 1 6\nrow 1 6"), (7, 30_000));
    assert_eq!(refusal("rows 32747 1 6"), (7, 30_000));
    assert_eq!(refusal("rows 32748 1 6"), (1, 0));
    assert_eq!(refusal("rows 40000 1 6"), (1, 0));
    assert_eq!(refusal(&"rows 999999999 1 6\n".repeat(20_000)), (1, 0));
    let row = format!("{OPENING}row 255 255\nrows 2 0 255");
    assert_eq!(
        made(row.as_bytes()),
        plain(&[], &[255, 255, 0, 255, 0, 255])
    );
}

#[test]
fn too_few_bytes_are_lent() {
    let text = format!("{OPENING}rows 4 1 6\n");
    for lent in [48, 1, 0] {
        let mut lent = vec![8; lent];
        let refused = Composed::Refused(Refusal::new(12, 49));
        assert_eq!(compose(text.as_bytes(), &mut lent), refused);
        assert!(lent.iter().all(|&byte| byte == 8));
    }
    let mut lent = [8; 50];
    assert_eq!(compose(text.as_bytes(), &mut lent), Composed::Written(49));
    assert_eq!(lent[48..], [6, 8]);
}

#[test]
fn the_longest_text() {
    let mut text = OPENING.as_bytes().to_vec();
    text.push(b'#');
    text.resize(MOST_TEXT, b'x');
    assert_eq!(MOST_TEXT, 1_048_576);
    assert_eq!(made(&text).len(), 41);
    text.push(b'x');
    assert_eq!(compose(&text, &mut [0; 50]), Composed::TooLong);
    // Before anything else: neither line could be read.
    assert_eq!(
        compose(&vec![b'\r'; MOST_TEXT + 1], &mut []),
        Composed::TooLong
    );
}
