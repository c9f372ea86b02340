//! The calls into the archive. A slice is a pointer and a length there.
use crate::{Ids, Live, Refusal, Slot, State, STATE_NUMBERS};

extern "C" {
    fn uplink_refusal(job: *const u8, job_len: usize, place: *mut usize) -> u8;
    fn uplink_run(
        job: *const u8,
        job_len: usize,
        answers: *mut i32,
        answers_len: usize,
        place: *mut usize,
    ) -> u8;
    fn uplink_rows(
        job: *const u8,
        job_len: usize,
        rows: *const u8,
        rows_len: usize,
        answers: *mut i32,
        answers_len: usize,
        place: *mut usize,
    ) -> u8;
    fn uplink_start(
        job: *const u8,
        job_len: usize,
        numbers: *mut i64,
        numbers_len: usize,
        level: *mut f64,
        place: *mut usize,
    ) -> u8;
    fn uplink_next(
        job: *const u8,
        job_len: usize,
        numbers: *mut i64,
        numbers_len: usize,
        level: *mut f64,
        rows: *const u8,
        rows_len: usize,
        answers: *mut i32,
        answers_len: usize,
        place: *mut usize,
    ) -> u8;
    fn uplink_slot(
        job: *const u8,
        job_len: usize,
        slot: u32,
        uplink: *mut u8,
        downlink: *mut u8,
        place: *mut usize,
    ) -> u8;
}

/// No refusal has the number 0.
pub(crate) fn taken(number: u8, place: usize) -> Result<(), Refusal> {
    match number {
        0 => Ok(()),
        _ => Err(Refusal { number, place }),
    }
}

/// Whether a job is taken: refusals 1 to 7.
pub fn load(job: &[u8]) -> Result<(), Refusal> {
    let mut place = 0;
    // SAFETY: the pointer and the length are those of a slice, which is only read; `place` is a number of its own.
    let number = unsafe { uplink_refusal(job.as_ptr(), job.len(), &mut place) };
    taken(number, place)
}

/// How many numbers a run of a job writes at most, eight for each of its rows.
pub fn numbers_needed(job: &[u8]) -> Result<usize, Refusal> {
    match run(job, &mut []) {
        Ok(_) => Ok(0),
        Err(Refusal { number: 10, place }) => Ok(place),
        Err(refusal) => Err(refusal),
    }
}

/// Runs every row of a job, and gives how many they are. After 8 or 9 the answers of the rows before
/// stand in the buffer; after any other refusal it is as it was.
pub fn run(job: &[u8], answers: &mut [i32]) -> Result<usize, Refusal> {
    let mut place = 0;
    // SAFETY: as in `load`; the answers are lent for writing, and the job cannot overlap them.
    let number = unsafe {
        uplink_run(
            job.as_ptr(),
            job.len(),
            answers.as_mut_ptr(),
            answers.len(),
            &mut place,
        )
    };
    taken(number, place).map(|()| rows_of(job))
}

/// How many rows a job has that was taken: bytes 25 to 28 are the length of its third body.
fn rows_of(job: &[u8]) -> usize {
    u32::from_le_bytes([job[25], job[26], job[27], job[28]]) as usize / 2
}

/// Runs rows of the caller's own, two bytes each, from the start of a job, whose settings and gaps
/// hold, and gives how many they are. Refusals leave the buffer as in `run`.
pub fn run_rows(job: &[u8], rows: &[u8], answers: &mut [i32]) -> Result<usize, Refusal> {
    let mut place = 0;
    // SAFETY: as in `run`.
    let number = unsafe {
        uplink_rows(
            job.as_ptr(),
            job.len(),
            rows.as_ptr(),
            rows.len(),
            answers.as_mut_ptr(),
            answers.len(),
            &mut place,
        )
    };
    taken(number, place).map(|()| rows.len() / 2)
}

/// Rows after a state in so many numbers of its memory, all of them where a caller is of this form.
fn next(
    job: &[u8],
    state: &mut State,
    numbers: usize,
    rows: &[u8],
    answers: &mut [i32],
) -> Result<(), Refusal> {
    assert!(numbers <= STATE_NUMBERS);
    let mut place = 0;
    let level = &raw mut state.filter_level;
    // SAFETY: as in `run`; the numbers are the state's first fields, which lie one after the other before its level
    // (asserted where `State` stands), and the state is the only one to name its memory.
    let number = unsafe {
        uplink_next(
            job.as_ptr(),
            job.len(),
            (&raw mut *state).cast(),
            numbers,
            level,
            rows.as_ptr(),
            rows.len(),
            answers.as_mut_ptr(),
            answers.len(),
            &mut place,
        )
    };
    taken(number, place)
}

impl Live<'_> {
    /// The state before row 0 of a job.
    pub fn start(job: &[u8]) -> Result<Live<'_>, Refusal> {
        let mut state = State::BLANK;
        let mut place = 0;
        let level = &raw mut state.filter_level;
        // SAFETY: as in `next`.
        let number = unsafe {
            uplink_start(
                job.as_ptr(),
                job.len(),
                (&raw mut state).cast(),
                STATE_NUMBERS,
                level,
                &mut place,
            )
        };
        taken(number, place).map(|()| Live { job, state })
    }

    /// A test that goes on from a state that was kept. What is no state of this job is refused with 11 when rows are
    /// offered.
    pub fn resume(job: &[u8], state: State) -> Live<'_> {
        Live { job, state }
    }

    /// Offers rows, two bytes each, after those accepted so far; their answers go into the buffer
    /// from its beginning. After 8 or 9 the rows before the refused one are accepted, and another
    /// may be offered in its place; any other refusal changes nothing.
    pub fn offer(&mut self, rows: &[u8], answers: &mut [i32]) -> Result<(), Refusal> {
        next(self.job, &mut self.state, STATE_NUMBERS, rows, answers)
    }

    /// The state after the rows accepted so far, to be kept.
    pub fn state(&self) -> State {
        self.state
    }

    /// How many rows have been accepted.
    pub fn rows(&self) -> usize {
        self.state.row as usize
    }
}

/// Which gap sequences of a job put a slot into a gap, in each direction.
pub fn slot(job: &[u8], slot: u32) -> Result<Slot, Refusal> {
    let (mut uplink, mut downlink, mut place) = (0, 0, 0);
    // SAFETY: as in `load`; the two sets are numbers of their own too.
    let number = unsafe {
        uplink_slot(
            job.as_ptr(),
            job.len(),
            slot,
            &mut uplink,
            &mut downlink,
            &mut place,
        )
    };
    taken(number, place)?;
    Ok(Slot {
        uplink: Ids::of(uplink.into()),
        downlink: Ids::of(downlink.into()),
    })
}

#[cfg(test)]
mod tests {
    use super::*;
    use crate::NUMBERS_A_ROW;

    const JOB: &[u8] = include_bytes!("../../../jobs/four-rows.job");

    /// Offers one row to a state, with room for so many numbers: it is refused so, and all is left as it was.
    fn refused(state: State, numbers: usize, room: usize, said: &str) {
        let mut lent = state;
        let mut answers = vec![7; room];
        let refusal = next(JOB, &mut lent, numbers, &[1, 6], &mut answers).unwrap_err();
        assert_eq!(refusal.to_string(), said);
        assert_eq!(lent, state);
        assert_eq!(answers, vec![7; room]);
    }

    #[test]
    fn numbers_that_are_no_state_are_refused_in_order() {
        let start = Live::start(JOB).unwrap().state();
        // the row that they say, how many answers are lent, what is answered
        for (row, room, said) in [
            (30_000, 0, "refused 7 at 30000"),
            (i64::MAX, 8, "refused 7 at 30000"),
            (29_999, 7, "refused 10 at 8"),
            (29_999, 8, "refused 11 at 0"),
            (i64::MIN, 7, "refused 10 at 8"),
            (-1, 8, "refused 11 at 0"),
        ] {
            // pilot bits that no byte holds
            let pilots = 256;
            refused(
                State {
                    row,
                    pilots,
                    ..start
                },
                STATE_NUMBERS,
                room,
                said,
            );
        }
    }

    #[test]
    fn a_state_of_another_form_is_refused() {
        let start = Live::start(JOB).unwrap().state();
        assert_eq!(start.version, crate::STATE_VERSION);
        for version in [i64::MIN, -1, 0, 2, i64::MAX] {
            // whatever stands where this form has its row
            for row in [0, 30_000, i64::MAX] {
                let other = State {
                    version,
                    row,
                    ..start
                };
                refused(other, STATE_NUMBERS, 8, "refused 11 at 0");
            }
        }
        for numbers in [0, 1, 2, 16] {
            refused(start, numbers, 8, "refused 11 at 0");
        }
        // they say no row: 10 comes before 11 all the same
        refused(start, 0, 7, "refused 10 at 8");
    }

    #[test]
    fn a_start_leaves_lent_numbers_of_another_size() {
        for lent in [0, 16, 18] {
            let (mut numbers, mut level, mut place) = (vec![5; lent], 0.5, 9);
            // SAFETY: slices and numbers of their own.
            let number = unsafe {
                uplink_start(
                    JOB.as_ptr(),
                    JOB.len(),
                    numbers.as_mut_ptr(),
                    lent,
                    &mut level,
                    &mut place,
                )
            };
            assert_eq!((number, place), (11, 0));
            assert_eq!((numbers, level), (vec![5; lent], 0.5));
        }
    }

    #[test]
    fn a_kept_state_goes_on() {
        let mut live = Live::start(JOB).unwrap();
        let mut answers = [0; NUMBERS_A_ROW];
        live.offer(&[1, 6], &mut answers).unwrap();
        let mut other = Live::resume(JOB, live.state());
        let mut again = [0; NUMBERS_A_ROW];
        assert_eq!(
            live.offer(&[1, 6], &mut answers),
            other.offer(&[1, 6], &mut again)
        );
        assert_eq!((live.state(), answers), (other.state(), again));
    }
}
