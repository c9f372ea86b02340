//! Holds another implementation of a run, one that can be called, against
//! what `second` says of drawn jobs.

use crate::generator::block;
use crate::subject::Scope;

/// A refusal as its number and its place.
pub type Refused = (u32, u32);

/// Panics at the first of so many jobs of a seed for which `run` answers
/// otherwise than `second`, or leaves another number in the lent buffer.
pub fn hold(seed: u64, jobs: u64, mut run: impl FnMut(&[u8], &mut [i32]) -> Result<(), Refused>) {
    for number in 0..jobs {
        let job = block(seed, number, Scope::Any).job;
        let needed = second::load(&job).map_or(0, |job| second::ANSWER_NUMBERS * job.rows().len());
        for lent in [needed + 5, needed, needed.saturating_sub(1)] {
            let (mut ours, mut theirs) = (counting(lent), counting(lent));
            let answer = by_second(&job, &mut ours);
            assert_eq!(
                run(&job, &mut theirs),
                answer,
                "job {number} of seed {seed}, {lent} numbers lent"
            );
            assert_eq!(
                theirs, ours,
                "job {number} of seed {seed}, {lent} numbers lent"
            );
        }
    }
}

/// So many numbers, each another, so that one that is written, moved or left
/// is seen.
pub fn counting(length: usize) -> Vec<i32> {
    (0..length).map(|k| 1_000_000 + k as i32).collect()
}

fn by_second(job: &[u8], answers: &mut [i32]) -> Result<(), Refused> {
    match second::run(job, answers) {
        second::Ran::Done(_) => Ok(()),
        second::Ran::Stopped(_, refusal) | second::Ran::Refused(refusal) => {
            Err((refusal.number, refusal.place))
        }
    }
}
