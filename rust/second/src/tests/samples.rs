//! The sample jobs and their listings, and the page's own job among them.

use crate::tests::{file_of, once, PLAIN};
use crate::{listing, run, After, Ran};
use std::fs;
use std::path::Path;

/// The job of 49 bytes on the page.
const FOUR_ROWS: &[u8] = include_bytes!("../../../../jobs/four-rows.job");

#[test]
fn four_rows_are_listed_as_on_the_page() {
    let text = "row state cmd dpcch dpdch total held by\n\
                0 1 1 1280 1280 1473 0 -\n\
                1 2 1 1343 1343 1536 1 -\n\
                2 2 1 1343 1343 1536 65 -\n\
                3 1 -1 1279 1279 1472 65 -\n\
                rows 4 held 65\n";
    assert_eq!(listing(FOUR_ROWS), text.as_bytes());
    assert_eq!(
        FOUR_ROWS,
        file_of(PLAIN, &[], &[[1, 6], [1, 6], [1, 6], [0, 6]])
    );
}

#[test]
fn a_run_writes_its_answers_and_no_more() {
    let mut answers = [7; 34];
    let after = After {
        rows: 4,
        power: 1279,
        held: 65,
    };
    assert_eq!(run(FOUR_ROWS, &mut answers), Ran::Done(after));
    assert_eq!(answers[24..32], [1, -1, 1279, 1279, 1472, 65, 0, 0]);
    assert_eq!(answers[32..], [7, 7]);
}

/// A lift: gaps in both directions, resume and recovery slots, limited rows.
#[test]
fn the_lift_is_listed_as_its_sample() {
    let job = include_bytes!("../../../../jobs/lift.job");
    let text = include_bytes!("../../../../jobs/lift.listing");
    assert_eq!(listing(job), text);
}

/// Two ids in one slot: of one direction, of each direction, and one id of both.
#[test]
fn two_ids_are_listed_as_their_sample() {
    let job = include_bytes!("../../../../jobs/two-ids.job");
    let text = include_bytes!("../../../../jobs/two-ids.listing");
    assert_eq!(listing(job), text);
    let text = String::from_utf8_lossy(text);
    let by: Vec<&str> = text
        .lines()
        .filter_map(|line| line.rsplit(' ').next())
        .filter(|by| by.contains(','))
        .collect();
    assert_eq!(by, ["2,5", "2,4", "1,3"]);
}

#[test]
fn seven_records_are_refused_alone() {
    let job = include_bytes!("../../../../jobs/refused.job");
    let text = include_bytes!("../../../../jobs/refused.listing");
    assert_eq!(listing(job), text);
    let mut records: Vec<[u8; 12]> = (1..=6).map(|id| once(id, 1, 2 * id - 2, 1)).collect();
    records.push(once(6, 1, 12, 1));
    let file = file_of(PLAIN, &records, &[[1, 0]]);
    assert_eq!(listing(&file), b"refused 4 at 7\n");
}

/// As many bytes of a job as the reference reads.
const ROOM: usize = 65_537;

/// The jobs of the gate's `test_samples`, each after its number of bytes. After one for which there is no room it is read
/// as the reference reads: as many bytes as there is room for, or as are left.
fn gate_jobs() -> Vec<(u32, &'static [u8])> {
    let mut left = &include_bytes!("../../../../crates/test_samples/stdin")[..];
    let mut jobs = Vec::new();
    while let Some((size, rest)) = left.split_first_chunk::<4>() {
        let size = u32::from_le_bytes(*size);
        let read = match size as usize {
            n if n > ROOM => rest.len().min(ROOM),
            n => n,
        };
        let (job, rest) = rest.split_at(read);
        jobs.push((size, job));
        left = rest;
    }
    assert!(left.is_empty());
    jobs
}

const GATE_TEXT: &str = include_str!("../../../../crates/test_samples/stdout");

#[test]
fn the_samples_of_the_gate_are_listed_as_there() {
    let jobs = gate_jobs();
    let mut text = Vec::new();
    for (number, (_, job)) in jobs.iter().enumerate() {
        text.extend(format!("job {number}: {} bytes\n", job.len()).bytes());
        text.extend(listing(job));
    }
    text.extend(format!("jobs {}\n", jobs.len()).bytes());
    assert!(text == GATE_TEXT.as_bytes());
}

/// It begins with the samples of `jobs/`, every one, as they stand there with their listings.
#[test]
fn the_samples_of_the_gate_are_those_for_readers() {
    let folder = Path::new(env!("CARGO_MANIFEST_DIR")).join("../../jobs");
    let mut files: Vec<_> = fs::read_dir(folder)
        .unwrap()
        .map(|entry| entry.unwrap().path())
        .filter(|path| path.extension().is_some_and(|end| end == "job"))
        .collect();
    files.sort();
    assert!(files.len() >= 4);
    let jobs = gate_jobs();
    let mut text = String::new();
    for (number, path) in files.iter().enumerate() {
        let job = fs::read(path).unwrap();
        assert!(jobs[number].1 == job, "{}", path.display());
        text += &format!("job {number}: {} bytes\n", job.len());
        text += &fs::read_to_string(path.with_extension("listing")).unwrap();
    }
    assert!(GATE_TEXT.starts_with(&text));
}

/// The last two have no size: one fills the room, with input after it, and one is read to the end of the input.
#[test]
fn the_gate_reads_jobs_that_have_no_size() {
    let jobs = gate_jobs();
    let [sized @ .., (u32::MAX, full), (u32::MAX, last)] = &jobs[..] else {
        panic!("the last two jobs have a size");
    };
    assert!(sized.iter().all(|(size, job)| *size as usize == job.len()));
    assert_eq!(
        (full.len(), listing(full)),
        (ROOM, b"refused 1 at 0\n".to_vec())
    );
    assert!(listing(last).ends_with(b"\nrows 900 held 0\n"));
}
