//! Which sequence opened a gap: a sample, and the same job with both gaps at one place.
use uplink::{Answer, Ids};

const LIFT: &[u8] = include_bytes!("../../../jobs/lift.job");

/// Where the gap records of the sample begin.
const RECORDS: usize = 41;

fn answers(job: &[u8]) -> Vec<Answer> {
    let mut numbers = vec![0; uplink::numbers_needed(job).expect("the job is taken")];
    let rows = uplink::run(job, &mut numbers).expect("every row is accepted");
    uplink::answers(&numbers, rows).collect()
}

/// The sample with id 5 first, and the downlink gap of id 2 over the gap of id 5.
fn overlapping() -> Vec<u8> {
    let mut job = LIFT.to_vec();
    let (first, second) = job[RECORDS..RECORDS + 24].split_at_mut(12);
    first[0] = 5;
    // TGSN, TGL1 and the start frame
    for byte in [2, 3, 10] {
        second[byte] = first[byte];
    }
    job
}

#[test]
fn the_sample_tells_its_ids() {
    let answers = answers(LIFT);
    assert_eq!(answers.len(), 54);
    for (slot, answer) in answers.iter().enumerate() {
        let (uplink, downlink) = match slot {
            12..=18 => ("1", "1"),
            35..=37 => ("-", "2"),
            _ => ("-", "-"),
        };
        let said = (answer.uplink.to_string(), answer.downlink.to_string());
        assert_eq!(said, (uplink.into(), downlink.into()), "slot {slot}");
    }
}

#[test]
fn ids_rise_whatever_the_order_of_records() {
    let answers = answers(&overlapping());
    for (slot, answer) in answers.iter().enumerate() {
        let bits = (answer.uplink.bits(), answer.downlink.bits());
        let (expected, by) = match slot {
            12..=18 => ((16, 18), "2,5"),
            _ => ((0, 0), "-"),
        };
        assert_eq!((bits, answer.by().to_string()), (expected, by.into()));
    }
    assert_eq!(answers[12].by().iter().collect::<Vec<_>>(), [2, 5]);
}

#[test]
fn slots_tell_what_answers_tell() {
    for job in [LIFT.to_vec(), overlapping()] {
        for (k, answer) in answers(&job).iter().enumerate() {
            let slot = uplink::slot(&job, k as u32).expect("the job is taken");
            assert_eq!(
                (slot.uplink, slot.downlink),
                (answer.uplink, answer.downlink)
            );
            assert_eq!(slot.uplink_gap(), answer.sent == uplink::Sent::Gap);
            assert_eq!(slot.downlink_gap(), answer.downlink != Ids::default());
            assert_eq!(slot.by(), answer.by());
        }
    }
}
