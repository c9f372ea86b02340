//! The accepted rows of a job, and what they say about one more row.

use crate::{sum_of_ids, Job, Layout, Refusal, ANSWER_NUMBERS, LOWEST_POWER, MOST_ROWS};

/// The eight numbers that answer a row; absent powers are 0.
#[derive(Clone, Copy, PartialEq, Eq, Debug)]
pub struct Answer {
    /// 0 gap, 1 sent, 2 limited.
    pub state: i32,
    pub command: i32,
    pub dpcch: i32,
    pub dpdch: i32,
    pub total: i32,
    /// Withheld so far.
    pub held: i32,
    /// The ids that put the row into an uplink gap, as a sum of 2^(id-1); 0
    /// where none does.
    pub uplink: i32,
    /// Those that put it into a downlink gap.
    pub downlink: i32,
}

impl Answer {
    /// The numbers in the page's order.
    pub fn numbers(&self) -> [i32; ANSWER_NUMBERS] {
        [
            self.state,
            self.command,
            self.dpcch,
            self.dpdch,
            self.total,
            self.held,
            self.uplink,
            self.downlink,
        ]
    }
}

/// An accepted row.
#[derive(Clone, Copy, Debug)]
pub(crate) struct Accepted {
    pub commands: u8,
    pub pilots: u8,
    pub command: i32,
    pub limited: bool,
}

/// The rows accepted so far, and three lists beside them. Nothing is summed up
/// from row to row: power and what is withheld are worked out from the lists
/// each time.
#[derive(Clone, Debug)]
pub struct History<'a> {
    pub(crate) job: &'a Job,
    pub(crate) layout: Layout,
    pub(crate) rows: Vec<Accepted>,
    /// The numbers of the rows that were sent.
    pub(crate) sent: Vec<usize>,
    /// The changes of the sent rows.
    changes: Vec<i32>,
    /// Of each sent row: by how much start power and all changes up to it
    /// stood above its ceiling, below 0 where they stood below.
    above: Vec<i32>,
}

impl<'a> History<'a> {
    /// The history of a job before its row 0.
    pub(crate) fn new(job: &'a Job) -> Self {
        History {
            job,
            layout: Layout::of(job.sequences(), job.rows().len()),
            rows: Vec::new(),
            sent: Vec::new(),
            changes: Vec::new(),
            above: Vec::new(),
        }
    }

    /// Offers one more row. A refused row leaves the history as it was, and
    /// another may be offered.
    pub fn offer(&mut self, commands: u8, pilots: u8) -> Result<Answer, Refusal> {
        let row = self.rows.len();
        if row >= MOST_ROWS {
            return Err(Refusal::new(7, MOST_ROWS as u32));
        }
        self.lay_out_to(row);
        if !self.keeps_rules(row, commands, pilots) {
            return Err(Refusal::new(8, row as u32));
        }
        let command = self.command_of(row, commands);
        let is_sent = !self.layout.is_uplink_gap(row);
        let limited = is_sent && self.send(row, command, pilots)?;
        self.rows.push(Accepted {
            commands,
            pilots,
            command,
            limited,
        });
        Ok(self.answer())
    }

    /// Sends a row unless its power would be too low. It is limited exactly
    /// when it stands above its ceiling by more than 0 and by more than every
    /// earlier sent row.
    fn send(&mut self, row: usize, command: i32, pilots: u8) -> Result<bool, Refusal> {
        let change = self.change_of(row, command, pilots);
        if self.power() + change < LOWEST_POWER {
            return Err(Refusal::new(9, row as u32));
        }
        let above = self.sum() + change - self.job.gain().ceiling;
        let limited = above > 0 && self.above.iter().all(|&earlier| above > earlier);
        self.sent.push(row);
        self.changes.push(change);
        self.above.push(above);
        Ok(limited)
    }

    /// How many rows have been accepted.
    pub fn rows(&self) -> usize {
        self.rows.len()
    }

    /// Whether a row has been sent.
    pub fn sent(&self) -> bool {
        !self.sent.is_empty()
    }

    /// Withheld so far: the largest amount by which a sent row stood above its
    /// ceiling, 0 if none did.
    pub fn held(&self) -> i32 {
        self.above.iter().copied().max().unwrap_or(0).max(0)
    }

    /// Control power: start and changes less what is withheld.
    pub fn power(&self) -> i32 {
        self.sum() - self.held()
    }

    /// Pilot bits of the last sent row, 0 if there is none.
    pub fn pilots(&self) -> u8 {
        self.sent.last().map_or(0, |&row| self.rows[row].pilots)
    }

    /// Whether the row before was limited.
    pub fn limited(&self) -> bool {
        self.rows.last().is_some_and(|row| row.limited)
    }

    /// Start power and all changes so far, nothing withheld.
    fn sum(&self) -> i32 {
        i32::from(self.job.settings().start) + self.changes.iter().sum::<i32>()
    }

    /// The layout covers the rows of the file. Rows offered beyond them have
    /// it made anew and longer.
    fn lay_out_to(&mut self, row: usize) {
        if row >= self.layout.length() {
            let length = (2 * row + 60).min(MOST_ROWS);
            self.layout = Layout::of(self.job.sequences(), length);
        }
    }

    /// The answer of the row accepted last.
    fn answer(&self) -> Answer {
        let row = self.rows.len() - 1;
        let gain = self.job.gain();
        let power = self.power();
        let absent = Answer {
            state: 0,
            command: self.rows[row].command,
            dpcch: 0,
            dpdch: 0,
            total: 0,
            held: self.held(),
            uplink: sum_of_ids(self.layout.uplink_ids(row)),
            downlink: sum_of_ids(self.layout.downlink_ids(row)),
        };
        if self.layout.is_uplink_gap(row) {
            return absent;
        }
        Answer {
            state: if self.rows[row].limited { 2 } else { 1 },
            dpcch: power,
            dpdch: gain.data.map_or(0, |offset| power + offset),
            total: power + gain.bracket,
            ..absent
        }
    }
}
