//! Writing parts, on both sides of the edges.

use std::fs;
use std::path::Path;

use crate::tests::{once, PLAIN};
use crate::{load, parts, write, Refusal};

/// The job of 49 bytes on the page, and its rows.
const FOUR_ROWS: &[u8] = include_bytes!("../../../../jobs/four-rows.job");
const ROWS: [u8; 8] = [1, 6, 1, 6, 1, 6, 0, 6];

/// What is lent holds this byte everywhere.
const BEFORE: u8 = 0xa5;

/// Writes to so many lent bytes, and tests that a refusal leaves them and that
/// those after the file stay.
fn written_to(
    lent: usize,
    (kind, settings, records, rows): (u8, &[u8], &[u8], &[u8]),
) -> Result<Vec<u8>, (u32, u32)> {
    let mut bytes = vec![BEFORE; lent];
    let written = write(kind, settings, records, rows, &mut bytes);
    let size = *written.as_ref().unwrap_or(&0);
    assert!(bytes[size..].iter().all(|&byte| byte == BEFORE));
    bytes.truncate(size);
    written
        .map(|_| bytes)
        .map_err(|refusal| (refusal.number, refusal.place))
}

/// With as many bytes lent as any job needs.
fn written(kind: u8, settings: &[u8], records: &[u8], rows: &[u8]) -> Result<usize, (u32, u32)> {
    written_to(65_600, (kind, settings, records, rows)).map(|file| file.len())
}

/// So many records, each with an id of its own as far as there are ids.
fn gaps(count: u8) -> Vec<u8> {
    let gap = |at: u8| once((at % 6) + 1, 1, 2 * (at % 6), 1);
    (0..count).flat_map(gap).collect()
}

#[test]
fn the_page_s_job_needs_all_its_bytes() {
    let parts: (u8, &[u8], &[u8], &[u8]) = (1, &PLAIN, &[], &ROWS);
    for lent in [49, 50, 65_600] {
        assert_eq!(written_to(lent, parts).unwrap(), FOUR_ROWS);
    }
    for lent in [48, 41, 1, 0] {
        assert_eq!(written_to(lent, parts), Err((12, 49)));
    }
}

#[test]
fn each_entry_has_its_place() {
    for kind in [0, 2, 3, 255] {
        assert_eq!(written(kind, &PLAIN, &[], &ROWS), Err((2, 0)));
        assert_eq!(written(kind, &[], &[1], &[1]), Err((2, 0)));
    }
    for length in [0, 1, 11, 13, 24] {
        assert_eq!(written(1, &[1; 24][..length], &[1], &[1]), Err((2, 1)));
    }
    for length in [1, 11, 13, 73, 83, 85] {
        assert_eq!(written(1, &[0; 12], &[1; 85][..length], &[1]), Err((2, 2)));
    }
    for length in [1, 7, 9] {
        assert_eq!(
            written(1, &[0; 12], &gaps(7), &[1; 9][..length]),
            Err((2, 3))
        );
    }
}

#[test]
fn the_reader_s_refusals_in_their_order() {
    let many = vec![1; 60_002];
    assert_eq!(written(1, &[0; 12], &gaps(7), &many[..5_000]), Err((3, 0)));
    assert_eq!(written(1, &PLAIN, &gaps(7), &many), Err((4, 7)));
    let mut records = gaps(6);
    records[18] = 0;
    records[19] = 2;
    assert_eq!(written(1, &PLAIN, &records, &many), Err((5, 18)));
    let mut records = gaps(6);
    records[60] = 1;
    assert_eq!(written(1, &PLAIN, &records, &many), Err((6, 5)));
    assert_eq!(written(1, &PLAIN, &gaps(6), &many), Err((7, 30_000)));
    assert_eq!(
        written_to(0, (1, &PLAIN, &gaps(6), &many)),
        Err((7, 30_000))
    );
}

#[test]
fn six_records_are_written() {
    assert_eq!(written(1, &PLAIN, &gaps(6), &ROWS), Ok(121));
    assert_eq!(written(1, &PLAIN, &gaps(7), &ROWS), Err((4, 7)));
    let six = gaps(6);
    assert_eq!(written_to(120, (1, &PLAIN, &six, &ROWS)), Err((12, 121)));
}

/// The reader's load judges no row, and neither does the writer.
#[test]
fn rows_are_not_judged() {
    let file = written_to(60, (1, &PLAIN, &[], &[255, 9])).unwrap();
    assert_eq!(crate::tests::last_line(&file), "refused 8 at 0");
    assert_eq!(written(1, &PLAIN, &[], &[]), Ok(41));
}

#[test]
fn rows_up_to_thirty_thousand() {
    let rows = [1, 6].repeat(40_000);
    assert_eq!(written(1, &PLAIN, &[], &rows[..60_000]), Ok(60_041));
    assert_eq!(written(1, &PLAIN, &gaps(6), &rows[..60_000]), Ok(60_113));
    assert_eq!(written(1, &PLAIN, &[], &rows[..60_002]), Err((7, 30_000)));
    assert_eq!(written(1, &PLAIN, &[], &rows), Err((1, 0)));
    let short = written_to(60_040, (1, &PLAIN, &[], &rows[..60_000]));
    assert_eq!(short, Err((12, 60_041)));
}

/// A file of 65,536 bytes is not too long, but its rows are odd.
#[test]
fn the_longest_file() {
    for (bytes, expected) in [(65_535, (7, 30_000)), (65_536, (2, 3)), (65_537, (1, 0))] {
        let rows = vec![1; bytes - 41];
        assert_eq!(written(1, &PLAIN, &[], &rows), Err(expected));
        let records = vec![1; 120];
        let expected = if bytes == 65_535 { (4, 10) } else { expected };
        assert_eq!(written(1, &PLAIN, &records, &rows[120..]), Err(expected));
    }
    let rows = vec![1; 65_496];
    assert_eq!(written(2, &PLAIN, &[], &rows), Err((1, 0)));
    assert_eq!(written(2, &PLAIN, &[], &rows[1..]), Err((2, 0)));
}

/// Each of them makes the file too long, whatever else is wrong.
#[test]
fn parts_longer_than_any_file() {
    let long = vec![0; 3_000_000];
    for length in [65_536, 65_537, 65_538, long.len()] {
        let long = &long[..length];
        assert_eq!(written(7, long, &[], &[]), Err((1, 0)));
        assert_eq!(written(1, &PLAIN, long, &[]), Err((1, 0)));
        assert_eq!(written(1, &PLAIN, &[], long), Err((1, 0)));
        assert_eq!(written(1, long, long, long), Err((1, 0)));
    }
}

/// Every job that the reader takes: its own parts make the same bytes, and these
/// read back as the same parts.
#[test]
fn the_samples_are_written_as_they_were_read() {
    let folder = Path::new(env!("CARGO_MANIFEST_DIR")).join("../../jobs");
    let mut taken = 0;
    for entry in fs::read_dir(folder).unwrap() {
        let path = entry.unwrap().path();
        if path.extension().is_none_or(|end| end != "job") {
            continue;
        }
        let job = fs::read(&path).unwrap();
        let Ok(read) = parts(&job) else {
            assert_eq!(load(&job).unwrap_err(), Refusal::new(4, 7));
            continue;
        };
        taken += 1;
        let again = (job[0], read.settings, read.records, read.rows);
        let file = written_to(job.len(), again).unwrap();
        assert_eq!(file, job, "{}", path.display());
        assert_eq!(parts(&file).unwrap(), read);
    }
    assert!(taken >= 3);
}
