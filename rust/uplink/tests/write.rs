//! Writing jobs: the builder against the samples, every refusal, and parts of drawn jobs against `second`.
use compare::generator;
use compare::subject::Scope;
use uplink::{Direction, Gain, Gap, JobBuilder, Refusal, Settings};

const FOUR_ROWS: &[u8] = include_bytes!("../../../jobs/four-rows.job");
const LIFT: &[u8] = include_bytes!("../../../jobs/lift.job");

/// What stands in lent bytes before a call.
const UNTOUCHED: u8 = 0xa5;

const SETTINGS: Settings = Settings {
    pca: 1,
    step: 1,
    itp: 0,
    rpp: 0,
    links: 1,
    maximum: 24,
    start: 1_280,
};

const GAIN: Gain = Gain {
    betac: 15,
    betad: 15,
    channels: 1,
};

const GAP: Gap = Gap {
    id: 1,
    direction: Direction::Both,
    tgsn: 12,
    tgl1: 7,
    tgl2: 0,
    tgpl: 4,
    tgprc: 1,
    tgd: 0,
    start_frame: 0,
};

/// The page's job without its rows.
fn page() -> JobBuilder {
    let mut job = JobBuilder::new(SETTINGS);
    job.gain(GAIN);
    job
}

fn said(answer: Result<Vec<u8>, Refusal>) -> String {
    match answer {
        Ok(job) => format!("{} bytes", job.len()),
        Err(refusal) => refusal.to_string(),
    }
}

/// Settings, records and rows of a job that is taken.
fn parts(job: &[u8]) -> [&[u8]; 3] {
    let records = u32::from_le_bytes(job[16..20].try_into().unwrap()) as usize;
    [&job[29..41], &job[41..41 + records], &job[41 + records..]]
}

/// The file that parts make, by the page.
fn file_of(kind: u8, parts: [&[u8]; 3]) -> Vec<u8> {
    let mut file = vec![kind, 3];
    let mut offset = 29;
    for (number, part) in (1..).zip(parts) {
        file.push(number);
        file.extend((offset as u32).to_le_bytes());
        file.extend((part.len() as u32).to_le_bytes());
        offset += part.len();
    }
    file.extend(parts.concat());
    file
}

/// Parts are written, or refused, as the page has it, into fewer bytes than needed, as many, and more.
fn holds(kind: u8, parts: [&[u8]; 3]) -> Result<usize, Refusal> {
    let [settings, records, rows] = parts;
    let file = file_of(kind, parts);
    let refused = second::load(&file).err().map(|refusal| Refusal {
        number: refusal.number as u8,
        place: refusal.place as usize,
    });
    let size = file.len();
    for lent in [0, size - 1, size, size + 3] {
        let mut bytes = vec![UNTOUCHED; lent];
        let answer = uplink::write(kind, settings, records, rows, &mut bytes);
        let mut after = vec![UNTOUCHED; lent];
        let expected = match refused {
            Some(refusal) => Err(refusal),
            None if lent < size => Err(Refusal {
                number: 12,
                place: size,
            }),
            None => Ok(size),
        };
        if expected.is_ok() {
            after[..size].copy_from_slice(&file);
        }
        assert_eq!(answer, expected, "{lent} bytes lent");
        assert!(bytes == after, "{lent} bytes lent");
    }
    let needed = uplink::bytes_needed(kind, settings, records, rows);
    assert_eq!(needed, refused.map_or(Ok(size), Err));
    needed
}

#[test]
fn the_page_s_job_is_built() {
    let job = page().rows(3, 1, 6).row(0, 6).build();
    assert_eq!(job.as_deref(), Ok(FOUR_ROWS));
}

#[test]
fn the_lift_is_built() {
    let mut job = JobBuilder::new(Settings {
        itp: 1,
        rpp: 1,
        links: 2,
        maximum: 21,
        start: 640,
        ..SETTINGS
    });
    let second = Gap {
        id: 2,
        direction: Direction::Downlink,
        tgsn: 5,
        tgl1: 3,
        start_frame: 2,
        ..GAP
    };
    job.gain(Gain { betac: 8, ..GAIN }).gap(GAP).gap(second);
    for row in parts(LIFT)[2].chunks_exact(2) {
        job.row(row[0], row[1]);
    }
    assert_eq!(job.build().as_deref(), Ok(LIFT));
}

const RECORD: &[u8] = &[1, 3, 12, 7, 0, 4, 1, 0, 0, 0, 0, 0];

fn changed(part: &[u8], at: usize, byte: u8) -> Vec<u8> {
    let mut part = part.to_vec();
    part[at] = byte;
    part
}

/// What is said of parts, none of which touches the lent bytes (`holds`).
fn refused(kind: u8, parts: [&[u8]; 3], expected: &str) {
    assert_eq!(holds(kind, parts).unwrap_err().to_string(), expected);
}

#[test]
fn files_of_a_wrong_size_or_kind() {
    let [settings, _, rows] = parts(FOUR_ROWS);
    let long = vec![0; 65_536];
    refused(1, [settings, &[], &long[40..]], "refused 1 at 0");
    refused(1, [settings, &[], &long[41..]], "refused 2 at 3");
    refused(0, [&long, &long, &long], "refused 1 at 0");
    refused(0, [settings, &[], rows], "refused 2 at 0");
    refused(2, [settings, &[], rows], "refused 2 at 0");
    refused(1, [&settings[1..], RECORD, rows], "refused 2 at 1");
    refused(1, [&[], &[], &[]], "refused 2 at 1");
    refused(1, [settings, &RECORD[1..], rows], "refused 2 at 2");
    refused(1, [settings, RECORD, &rows[1..]], "refused 2 at 3");
}

#[test]
fn bodies_that_break_a_rule() {
    let [settings, _, rows] = parts(FOUR_ROWS);
    let loud = changed(settings, 8, 34);
    let wide = changed(RECORD, 5, 145);
    let many = vec![0; 60_002];
    refused(1, [&loud, &RECORD.repeat(7), rows], "refused 3 at 8");
    refused(1, [settings, &RECORD.repeat(7), &many], "refused 4 at 7");
    refused(1, [settings, &wide, &many], "refused 5 at 5");
    refused(1, [settings, &RECORD.repeat(2), &many], "refused 6 at 1");
    refused(1, [settings, RECORD, &many], "refused 7 at 30000");
}

/// `holds` lends too few bytes too, which is refused with 12.
#[test]
fn files_that_are_written() {
    let [settings, _, rows] = parts(FOUR_ROWS);
    assert_eq!(holds(1, [settings, &[], &[]]), Ok(41));
    assert_eq!(holds(1, [settings, &[], rows]), Ok(49));
    assert_eq!(holds(1, [settings, RECORD, rows]), Ok(61));
    assert_eq!(holds(1, [settings, &[], &[0; 60_000]]), Ok(60_041));
}

/// A row that a run refuses is written all the same.
#[test]
fn rows_are_not_judged() {
    let job = page().row(1, 6).row(255, 9).build().unwrap();
    let refusal = uplink::run(&job, &mut [0; 16]).unwrap_err();
    assert_eq!(refusal.to_string(), "refused 8 at 1");
}

#[test]
fn the_builder_judges_nothing() {
    assert_eq!(said(JobBuilder::new(SETTINGS).build()), "refused 3 at 5");
    assert_eq!(said(page().gap(GAP).gap(GAP).build()), "refused 6 at 1");
    assert_eq!(
        said(page().gap(Gap { id: 7, ..GAP }).build()),
        "refused 5 at 0"
    );
    for start in [i32::MIN, -65_536, -9_601, 2_113, 65_536, i32::MAX] {
        let job = JobBuilder::new(Settings { start, ..SETTINGS })
            .gain(GAIN)
            .build();
        assert_eq!(said(job), "refused 3 at 10", "{start}");
    }
}

/// However many are asked for, no more is kept than makes the file too long.
#[test]
fn too_many_rows() {
    for (count, expected) in [
        (0, "41 bytes"),
        (30_000, "60041 bytes"),
        (30_001, "refused 7 at 30000"),
        (32_747, "refused 7 at 30000"),
        (32_748, "refused 1 at 0"),
        (40_000, "refused 1 at 0"),
        (usize::MAX, "refused 1 at 0"),
    ] {
        assert_eq!(said(page().rows(count, 1, 6).build()), expected);
        let twice = page()
            .rows(count / 2, 1, 6)
            .rows(count - count / 2, 1, 6)
            .build();
        assert_eq!(said(twice), expected);
    }
    let most = usize::MAX;
    let job = page().rows(most, 1, 6).rows(most, 1, 6).row(1, 6).build();
    assert_eq!(said(job), "refused 1 at 0");
}

#[test]
fn too_many_gaps() {
    for (count, expected) in [
        (7, "refused 4 at 7"),
        (5_457, "refused 4 at 5457"),
        (5_458, "refused 1 at 0"),
        (20_000, "refused 1 at 0"),
    ] {
        let mut job = page();
        for _ in 0..count {
            job.gap(GAP);
        }
        assert_eq!(said(job.build()), expected);
    }
}

/// What is taken, written again, is the same; and parts of it, cut at other places, are refused as their file would be.
#[test]
fn drawn_parts_agree() {
    let mut counts = [0; 8];
    for number in 0..1_000 {
        let job = generator::block(11, number, Scope::Kept).job;
        if second::load(&job).is_ok() {
            assert_eq!(holds(1, parts(&job)), Ok(job.len()));
            assert!(file_of(1, parts(&job)) == job);
        }
        let bodies = job.get(29..).unwrap_or_default();
        let (settings, rest) = bodies.split_at(bodies.len().min(12 - usize::from(number % 7 == 0)));
        let records = 12 * (number as usize % 9) + usize::from(number % 11 == 0);
        let (records, rows) = rest.split_at(rest.len().min(records));
        let kind = u8::from(number % 13 != 0);
        let answer = holds(kind, [settings, records, rows]);
        counts[answer.map_or_else(|refusal| usize::from(refusal.number), |_| 0)] += 1;
    }
    // by the number of the refusal, 0 for none; 1, 6 and 7 are rare here, and have cases above
    assert!(
        [0, 2, 3, 4, 5].iter().all(|&number| counts[number] > 20),
        "{counts:?}"
    );
}
