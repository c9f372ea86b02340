//! What is timed has to be right: plain Rust against `second` on drawn jobs.
use compare::runs;

fn held(run: fn(&[u8], &mut [i32]) -> Result<usize, plain::Refusal>) {
    runs::hold(2_027, 3_000, |job, answers| {
        run(job, answers)
            .map(|_| ())
            .map_err(|refusal| (refusal.number as u32, refusal.place as u32))
    });
}

#[test]
fn drawn_jobs_agree() {
    held(plain::run);
}

#[test]
fn drawn_jobs_agree_where_rules_are_spared() {
    held(plain::run_sparing);
}
