//! The archive against `second`, on the samples and on drawn jobs.
use compare::generator::block;
use compare::runs::{self, counting};
use compare::subject::Scope;
use uplink::NUMBERS_A_ROW;

fn told(refusal: second::Refusal) -> uplink::Refusal {
    uplink::Refusal {
        number: refusal.number as u8,
        place: refusal.place as usize,
    }
}

/// How many numbers so many bytes of rows need.
fn room(rows: &[u8]) -> usize {
    NUMBERS_A_ROW * (rows.len() / 2)
}

/// Rows of the caller's own, each offered to what `second` remembers, up to the first that is refused.
fn rows_by_second(job: &[u8], rows: &[u8], answers: &mut [i32]) -> Result<usize, uplink::Refusal> {
    let loaded = second::load(job).map_err(told)?;
    if answers.len() < room(rows) {
        return Err(uplink::Refusal {
            number: 10,
            place: room(rows),
        });
    }
    let mut history = loaded.history();
    for (row, places) in rows
        .chunks_exact(2)
        .zip(answers.chunks_exact_mut(NUMBERS_A_ROW))
    {
        places.copy_from_slice(&history.offer(row[0], row[1]).map_err(told)?.numbers());
    }
    Ok(rows.len() / 2)
}

fn rows_agree(job: &[u8], rows: &[u8]) {
    for lent in [room(rows) + 4, room(rows).saturating_sub(1)] {
        let (mut proved, mut declared) = (counting(lent), counting(lent));
        let answer = rows_by_second(job, rows, &mut declared);
        assert_eq!(uplink::run_rows(job, rows, &mut proved), answer);
        assert_eq!(proved, declared);
    }
}

/// The first slots of a job, and the last that a number of 32 bits can name.
fn slots_agree(job: &[u8]) {
    let loaded = second::load(job).map_err(told);
    let Ok(loaded) = loaded else {
        assert_eq!(uplink::slot(job, 0).err(), loaded.err());
        return;
    };
    let layout = second::Layout::of(loaded.sequences(), 700);
    for k in 0..700 {
        let slot = uplink::slot(job, k as u32).expect("the job is taken");
        let declared = (layout.is_uplink_gap(k), layout.is_downlink_gap(k));
        assert_eq!((slot.uplink_gap(), slot.downlink_gap()), declared);
    }
    assert!(uplink::slot(job, u32::MAX).is_ok());
}

/// The ids of the first slots of a job are the last two numbers of the rows that `second` accepts there: commands up and
/// 6 pilot bits, 0 where a gap wants it. Gives how many of these slots are gap slots.
fn ids_agree(job: &[u8]) -> usize {
    let Ok(loaded) = second::load(job) else {
        return 0;
    };
    let layout = second::Layout::of(loaded.sequences(), 300);
    let up = ((1u32 << loaded.settings().link_sets) - 1) as u8;
    let mut history = loaded.history();
    let mut gaps = 0;
    for k in 0..300 {
        let commands = if layout.is_downlink_gap(k) { 0 } else { up };
        let pilots = if layout.is_uplink_gap(k) { 0 } else { 6 };
        let Ok(answer) = history.offer(commands, pilots) else {
            break;
        };
        let slot = uplink::slot(job, k as u32).expect("the job is taken");
        let sets = [slot.uplink, slot.downlink].map(|ids| i32::from(ids.bits()));
        assert_eq!(sets[..], answer.numbers()[6..], "slot {k}");
        gaps += usize::from(!slot.by().is_empty());
    }
    gaps
}

#[test]
fn ids_of_slots_agree() {
    let jobs = (0..400).map(|number| block(10, number, Scope::Kept).job);
    let gaps: usize = jobs.map(|job| ids_agree(&job)).sum();
    assert!(gaps > 1_000, "only {gaps} gap slots");
}

#[test]
fn drawn_jobs_agree() {
    runs::hold(2_026, 3_000, |job, answers| {
        assert_eq!(
            uplink::load(job),
            second::load(job).map(|_| ()).map_err(told)
        );
        let ran = uplink::run(job, answers);
        if let Ok(rows) = ran {
            assert_eq!(uplink::numbers_needed(job), Ok(NUMBERS_A_ROW * rows));
        }
        ran.map(|_| ())
            .map_err(|refusal| (refusal.number as u32, refusal.place as u32))
    });
}

#[test]
fn rows_of_another_job_agree() {
    for number in 0..1_000 {
        let job = block(7, number, Scope::Kept).job;
        let other = block(8, number + 20, Scope::Kept).job;
        let rows = second::load(&other).map_or(Vec::new(), |other| other.rows().concat());
        rows_agree(&job, &rows);
        slots_agree(&job);
    }
}

#[test]
fn the_page_s_four_rows() {
    let job = include_bytes!("../../../jobs/four-rows.job");
    let mut numbers = counting(34);
    assert_eq!(uplink::run(job, &mut numbers), Ok(4));
    let answers: Vec<_> = uplink::answers(&numbers, 4).collect();
    assert_eq!(answers.len(), 4);
    assert_eq!(answers[1].sent, uplink::Sent::Limited);
    assert_eq!(
        (answers[1].dpcch, answers[1].total, answers[3].held),
        (1_343, 1_536, 65)
    );
    assert!(answers.iter().all(|answer| answer.by().is_empty()));
    assert_eq!(numbers[32..], [1_000_032, 1_000_033]);
}

#[test]
fn a_refused_row_leaves_those_before() {
    let mut job = *include_bytes!("../../../jobs/four-rows.job");
    job[43] = 9;
    let mut numbers = [0; 32];
    let refusal = uplink::run(&job, &mut numbers).unwrap_err();
    assert_eq!(
        (refusal.to_string(), refusal.rows_before()),
        ("refused 8 at 1".into(), 1)
    );
    assert_eq!(uplink::answers(&numbers, refusal.rows_before()).count(), 1);
    assert_eq!(numbers[8..], [0; 24]);
}

#[test]
fn refusals_say_their_number_and_place() {
    let job = include_bytes!("../../../jobs/four-rows.job");
    let said = |answer: Result<usize, uplink::Refusal>| answer.unwrap_err().to_string();
    assert_eq!(said(uplink::run(&[], &mut [])), "refused 2 at 0");
    assert_eq!(said(uplink::run(job, &mut [0; 31])), "refused 10 at 32");
    assert_eq!(
        said(uplink::run_rows(job, &[1, 6, 1], &mut [0; 16])),
        "refused 8 at 1"
    );
    assert_eq!(
        said(uplink::run_rows(job, &[0; 60_002], &mut [])),
        "refused 7 at 30000"
    );
}

/// Row after row of a live test, refused rows passed over, as `second` takes them.
fn live_agrees(job: &[u8]) {
    let (Ok(mut live), Ok(loaded)) = (uplink::Live::start(job), second::load(job)) else {
        assert_eq!(
            uplink::Live::start(job).err(),
            second::load(job).map_err(told).err()
        );
        return;
    };
    let mut history = loaded.history();
    for row in loaded.rows() {
        let mut answer = [0; NUMBERS_A_ROW];
        let offered = live.offer(row, &mut answer);
        match history.offer(row[0], row[1]) {
            Ok(declared) => assert_eq!((offered, answer), (Ok(()), declared.numbers())),
            Err(refusal) => assert_eq!((offered, answer), (Err(told(refusal)), [0; NUMBERS_A_ROW])),
        }
        assert_eq!(live.rows(), history.rows());
    }
}

#[test]
fn live_tests_agree() {
    for number in 0..1_000 {
        live_agrees(&block(9, number, Scope::Kept).job);
    }
}

#[test]
fn many_rows_at_once_are_the_rows_one_by_one() {
    let job = include_bytes!("../../../jobs/lift.job");
    let rows = second::load(job)
        .expect("the sample is taken")
        .rows()
        .concat();
    let (mut whole, mut parts) = (counting(room(&rows)), counting(room(&rows)));
    let mut live = uplink::Live::start(job).expect("the sample is taken");
    assert_eq!(live.offer(&rows, &mut whole), Ok(()));
    let mut live = uplink::Live::start(job).expect("the sample is taken");
    for (seven, answers) in rows.chunks(14).zip(parts.chunks_mut(7 * NUMBERS_A_ROW)) {
        assert_eq!(live.offer(seven, answers), Ok(()));
    }
    assert_eq!(whole, parts);
    assert_eq!(live.rows(), rows.len() / 2);
}
