//! The state between two rows: what a program that steps from row to row
//! would keep. Here every field is worked out from the accepted rows and the
//! layout.

use crate::{Gain, History, Place, Settings, HIGHEST_START, LOWEST_POWER, MOST_ROWS};

/// The seventeen fields of a state.
#[derive(Clone, Copy, PartialEq, Debug)]
pub struct State {
    /// Rows accepted, which is the number of the next row.
    pub row: u32,
    /// Whether a row has been sent.
    pub sent: bool,
    pub power: i32,
    pub held: i32,
    /// Pilot bits of the last sent row, 0 if there is none.
    pub pilots: u8,
    /// Whether the row before was limited.
    pub limited: bool,
    /// Length up to 7 of the run that ends with the row before.
    pub run_length: u8,
    /// Recovery slots still to come.
    pub run_left: u8,
    /// Whether the run that ends with the row before has had an uplink slot.
    pub opening_seen: bool,
    /// The command of the first such slot.
    pub opening_command: i8,
    /// Command bytes of the four slots before, the oldest first.
    pub set: [u8; 4],
    /// Whether a slot of the five-slot set so far takes its command away.
    pub set_spoilt: bool,
    pub filter_level: f64,
    pub filter_count: u32,
}

impl State {
    /// Whether every field is in its range (refusal 11 otherwise).
    pub fn in_range(&self, settings: &Settings) -> bool {
        let ceiling = Gain::of(settings).ceiling;
        let most_power = if self.sent { ceiling } else { HIGHEST_START };
        let most_held = if self.sent {
            7_316 + 2_257 * i64::from(self.row)
        } else {
            0
        };
        let pilots_in = if self.sent {
            (3..=8).contains(&self.pilots)
        } else {
            self.pilots == 0
        };
        self.row as usize <= MOST_ROWS
            && (LOWEST_POWER..=most_power).contains(&self.power)
            && (0..=most_held).contains(&i64::from(self.held))
            && pilots_in
            && self.run_length <= 7
            && self.run_left <= 7
            && (-1..=1).contains(&self.opening_command)
            && self.set.iter().all(|&byte| byte >> settings.link_sets == 0)
            && (-1_984.0..=1_984.0).contains(&self.filter_level)
            && self.filter_count <= self.row
    }
}

impl History<'_> {
    /// The state before the next row.
    pub fn state(&self) -> State {
        let filter = self.filter();
        State {
            row: self.rows() as u32,
            sent: self.sent(),
            power: self.power(),
            held: self.held(),
            pilots: self.pilots(),
            limited: self.limited(),
            run_length: self.run_length(),
            run_left: self.recovery_left(),
            opening_seen: self.opening().is_some(),
            opening_command: self.opening().unwrap_or(0),
            set: self.four_before(),
            set_spoilt: self.set_spoilt(),
            filter_level: filter.level,
            filter_count: filter.count,
        }
    }

    /// Length of the run that ends with the row before, up to 7; 0 where that
    /// row is no gap slot.
    pub fn run_length(&self) -> u8 {
        match self.place_before() {
            Place::Within(run) => (self.rows() - run.begin).min(7) as u8,
            _ => 0,
        }
    }

    /// Recovery slots still to come, should no other run begin: after the
    /// resume slot as many as the run has, then one fewer each slot.
    pub fn recovery_left(&self) -> u8 {
        match self.place_before() {
            Place::Resume(run) | Place::Recovery(run) => {
                (run.end + run.recovery_length() + 1 - self.rows()) as u8
            }
            _ => 0,
        }
    }

    /// The command of the first uplink gap slot of the run that ends with the
    /// row before, if it has had one.
    pub fn opening(&self) -> Option<i8> {
        match self.place_before() {
            Place::Within(run) => run
                .first_uplink
                .and_then(|slot| self.rows.get(slot))
                .map(|row| row.command as i8),
            _ => None,
        }
    }

    /// The command bytes of the four slots before, the oldest first; 0 where
    /// there was no slot.
    pub fn four_before(&self) -> [u8; 4] {
        let byte = |back: usize| {
            let row = self.rows().checked_sub(back);
            row.map_or(0, |row| self.rows[row].commands)
        };
        [byte(4), byte(3), byte(2), byte(1)]
    }

    /// Whether a slot of the five-slot set that the next row belongs to takes
    /// its command away, as far as it has gone.
    pub fn set_spoilt(&self) -> bool {
        let next = self.rows();
        (next - next % 5..next).any(|slot| self.spoils_set(slot))
    }

    fn place_before(&self) -> Place<'_> {
        match self.rows() {
            0 => Place::Ordinary,
            rows => self.layout.place(rows - 1),
        }
    }
}
