//! The text that a program prints for a job.

use std::collections::BTreeSet;
use std::fmt::Write;

use crate::{load, Answer, Job, Refusal};

const HEADER: &str = "row state cmd dpcch dpdch total held by\n";

/// The listing of a file, whole: the header, one line a row and a last line;
/// or the refusal in place of the last line, and alone if it is 1 to 7.
pub fn listing(file: &[u8]) -> Vec<u8> {
    let text = match load(file) {
        Ok(job) => rows_listed(&job),
        Err(refusal) => refusal_line(refusal),
    };
    text.into_bytes()
}

fn rows_listed(job: &Job) -> String {
    let mut text = String::from(HEADER);
    let mut history = job.history();
    let has_data = job.gain().data.is_some();
    for (number, row) in job.rows().iter().enumerate() {
        match history.offer(row[0], row[1]) {
            Ok(answer) => {
                let ids = history.layout.ids(number);
                add_line(&mut text, number, &answer, has_data, &ids);
            }
            Err(refusal) => return text + &refusal_line(refusal),
        }
    }
    text + &format!("rows {} held {}\n", history.rows(), history.held())
}

fn refusal_line(refusal: Refusal) -> String {
    format!("refused {} at {}\n", refusal.number, refusal.place)
}

/// The column `by`: the ids of either direction, rising, or `-` for none.
fn by(ids: &BTreeSet<u8>) -> String {
    if ids.is_empty() {
        return String::from("-");
    }
    let shown: Vec<String> = ids.iter().map(u8::to_string).collect();
    shown.join(",")
}

/// Whether a power is absent goes by the row's state and by βd, never by the
/// number: 0 is a power too.
fn add_line(text: &mut String, number: usize, answer: &Answer, has_data: bool, ids: &BTreeSet<u8>) {
    let sent = answer.state != 0;
    let shown = |present: bool, power: i32| {
        if present {
            power.to_string()
        } else {
            String::from("-")
        }
    };
    writeln!(
        text,
        "{number} {} {} {} {} {} {} {}",
        answer.state,
        answer.command,
        shown(sent, answer.dpcch),
        shown(sent && has_data, answer.dpdch),
        shown(sent, answer.total),
        answer.held,
        by(ids),
    )
    .expect("a String takes all that is written");
}
