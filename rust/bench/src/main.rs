//! Times the proved reference against plain Rust, all in one process and by turns, over jobs of
//! 30,000 rows. All write the same answers into lent buffers that are not cleared in between; the
//! job is loaded in every run. What counts is the ratio of the shortest runs.
mod jobs;

use std::hint::black_box;
use std::time::{Duration, Instant};

const TURNS: usize = 400;

/// A run of a job over a lent buffer: whether it took every row.
type Run = fn(&[u8], &mut [i32]) -> bool;

/// What is timed: the proved reference first, then what it is compared with.
const SIDES: [Run; 3] = [
    |job, answers| uplink::run(job, answers) == Ok(jobs::ROWS),
    |job, answers| plain::run(job, answers) == Ok(jobs::ROWS),
    |job, answers| plain::run_sparing(job, answers) == Ok(jobs::ROWS),
];

fn main() {
    println!("                                             ns a row                    rows a second        ratio to");
    println!("kind                                      proved   plain sparing    proved      plain    plain sparing");
    let mut worst = [0.0f64; 2];
    for kind in jobs::kinds() {
        let [proved, plain, sparing] = shortest(&kind.job()).map(a_row);
        let ratios = [proved / plain, proved / sparing];
        println!(
            "{:<40}{:>8.2}{:>8.2}{:>8.2}{:>10.0}{:>11.0}{:>9.2}{:>8.2}",
            kind.to_string(),
            proved * 1e9,
            plain * 1e9,
            sparing * 1e9,
            1.0 / proved,
            1.0 / plain,
            ratios[0],
            ratios[1]
        );
        worst = [worst[0].max(ratios[0]), worst[1].max(ratios[1])];
    }
    println!(
        "largest ratio: {:.2} to plain, {:.2} to plain sparing",
        worst[0], worst[1]
    );
}

/// The shortest run of each side, which all have to take every row and give the same answers.
fn shortest(job: &[u8]) -> [Duration; 3] {
    let mut buffers = SIDES.map(|_| vec![0; plain::ANSWER_NUMBERS * jobs::ROWS]);
    for (run, answers) in SIDES.iter().zip(&mut buffers) {
        assert!(run(job, answers), "every row is taken");
    }
    assert!(
        buffers[0] == buffers[1] && buffers[0] == buffers[2],
        "the answers are the same"
    );
    let mut shortest = [Duration::MAX; 3];
    for turn in 0..TURNS {
        for k in 0..SIDES.len() {
            // each side is the first of a turn as often as the others
            let side = (turn + k) % SIDES.len();
            let begin = Instant::now();
            black_box(SIDES[side](black_box(job), &mut buffers[side]));
            shortest[side] = shortest[side].min(begin.elapsed());
        }
    }
    shortest
}

fn a_row(run: Duration) -> f64 {
    run.as_secs_f64() / jobs::ROWS as f64
}
