//! One row after the other, from a state that each row leaves to the next.
use crate::file::{Job, Settings};
use crate::gain::{gain, Gain};
use crate::gaps::{slot_at, Slot};
use crate::levels::pilot_level;
use crate::{refusal, Refusal, ANSWER_NUMBERS};

const FLOOR: i32 = -9_600;

/// A row's answer without the sets of ids: state, command, the three powers, held.
type Powers = [i32; 6];

/// What a row needs of the rows before it.
struct State {
    power: i32,
    held: i32,
    pilots: Option<u8>,
    limited: bool,
    run: u8,
    recovery: u8,
    opening: Option<i32>,
    set: [u8; 4],
    spoilt: bool,
    filter: f64,
}

/// What a row is, by its slot and the slots before it.
struct Here {
    slot: Slot,
    resumes: bool,
    recovers: bool,
}

pub(crate) fn run<const SPARING: bool>(job: &Job, answers: &mut [i32]) -> Result<usize, Refusal> {
    let s = &job.settings;
    let g = gain(s);
    let mut st = State {
        power: s.start,
        held: 0,
        pilots: None,
        limited: false,
        run: 0,
        recovery: 0,
        opening: None,
        set: [0; 4],
        spoilt: false,
        filter: 0.0,
    };
    for (k, (row, answer)) in job
        .rows
        .chunks_exact(2)
        .zip(answers.as_chunks_mut::<ANSWER_NUMBERS>().0)
        .enumerate()
    {
        let slot = slot_at(&job.sequences, k as u32);
        let powers = if SPARING && st.is_calm(slot) {
            st.calm_step(s, &g, k, row[0], row[1])
        } else {
            st.step(s, &g, slot, k, row[0], row[1])
        };
        match powers {
            Ok([state, command, dpcch, dpdch, total, held]) => {
                let [uplink, downlink] = slot.sets();
                *answer = [state, command, dpcch, dpdch, total, held, uplink, downlink];
            }
            Err(number) => return Err(refusal(number, k)),
        }
    }
    Ok(job.rows.len() / 2)
}

fn breaks_its_rule(s: &Settings, slot: Slot, commands: u8, pilots: u8) -> bool {
    // one test for the rows without a gap, before those that tell the directions apart
    if !slot.gap() {
        return breaks_without_gap(s, commands, pilots);
    }
    let pilots_wrong = if slot.up() {
        pilots != 0
    } else {
        !(3..=8).contains(&pilots)
    };
    commands >> s.links != 0 || slot.down() && commands != 0 || pilots_wrong
}

fn breaks_without_gap(s: &Settings, commands: u8, pilots: u8) -> bool {
    commands >> s.links != 0 || !(3..=8).contains(&pilots)
}

fn every_link(s: &Settings) -> u8 {
    ((1u32 << s.links) - 1) as u8
}

/// Algorithm 1.
fn by_slot(s: &Settings, commands: u8) -> i32 {
    if commands == every_link(s) {
        1
    } else {
        -1
    }
}

impl State {
    fn is_calm(&self, slot: Slot) -> bool {
        !slot.gap() && self.run == 0 && self.recovery == 0 && self.pilots.is_some()
    }

    /// A row that no gap has to do with.
    #[inline(always)]
    fn calm_step(
        &mut self,
        s: &Settings,
        g: &Gain,
        k: usize,
        commands: u8,
        pilots: u8,
    ) -> Result<Powers, u8> {
        if breaks_without_gap(s, commands, pilots) {
            return Err(8);
        }
        let command = if s.second_algorithm {
            self.by_set(s, k, commands)
        } else {
            by_slot(s, commands)
        };
        let last = self.pilots.unwrap_or(pilots);
        let sum = self.power + command * s.step + pilot_level(last) - pilot_level(pilots);
        if sum < FLOOR {
            return Err(9);
        }
        let answer = self.settle(g, sum, command, pilots, |st, limited| {
            st.update(s, command, limited && st.limited)
        });
        self.spoilt &= k % 5 < 4;
        self.set = [self.set[1], self.set[2], self.set[3], commands];
        self.opening = None;
        Ok(answer)
    }

    #[inline(always)]
    fn step(
        &mut self,
        s: &Settings,
        g: &Gain,
        slot: Slot,
        k: usize,
        commands: u8,
        pilots: u8,
    ) -> Result<Powers, u8> {
        if breaks_its_rule(s, slot, commands, pilots) {
            return Err(8);
        }
        let gap = slot.gap();
        let here = Here {
            slot,
            resumes: !gap && self.run > 0,
            recovers: !gap && self.run == 0 && self.recovery > 0 && s.recovers,
        };
        let command = self.command(s, &here, k, commands);
        let answer = if slot.up() {
            self.rest(s, &here, command)
        } else {
            self.send(s, g, &here, command, pilots)?
        };
        self.pass(&here, k, commands);
        Ok(answer)
    }

    fn command(&self, s: &Settings, here: &Here, k: usize, commands: u8) -> i32 {
        if here.slot.down() {
            0
        } else if !s.second_algorithm || here.recovers {
            by_slot(s, commands)
        } else {
            self.by_set(s, k, commands)
        }
    }

    /// Algorithm 2.
    fn by_set(&self, s: &Settings, k: usize, commands: u8) -> i32 {
        if k % 5 < 4 || self.spoilt {
            return 0;
        }
        let all = every_link(s);
        let [a, b, c, d] = self.set;
        let ones = a & b & c & d & commands;
        if (a | b | c | d | commands) & all != all {
            -1
        } else {
            i32::from(2 * ones.count_ones() > s.links as u32)
        }
    }

    /// An uplink gap slot: nothing is sent.
    fn rest(&mut self, s: &Settings, here: &Here, command: i32) -> Powers {
        if self.opening.is_none() {
            self.opening = Some(command);
            if self.pilots.is_some() && !here.slot.down() {
                self.update(s, command, false);
            }
        }
        self.limited = false;
        [0, command, 0, 0, 0, self.held]
    }

    fn send(
        &mut self,
        s: &Settings,
        g: &Gain,
        here: &Here,
        command: i32,
        pilots: u8,
    ) -> Result<Powers, u8> {
        let sum = self.power + self.change(s, here, command, pilots);
        if sum < FLOOR {
            return Err(9);
        }
        Ok(self.settle(g, sum, command, pilots, |st, limited| {
            if here.resumes {
                st.filter = 0.0;
            } else if !here.slot.down() {
                st.update(s, command, limited && st.limited);
            }
        }))
    }

    /// Power, what is withheld, the filter and the answer, from the power before limiting.
    fn settle(
        &mut self,
        g: &Gain,
        sum: i32,
        command: i32,
        pilots: u8,
        update: impl FnOnce(&mut State, bool),
    ) -> Powers {
        let limited = sum > g.ceiling;
        self.power = sum.min(g.ceiling);
        self.held += sum - self.power;
        update(self, limited);
        self.pilots = Some(pilots);
        self.limited = limited;
        let data = g.data.map_or(0, |offset| self.power + offset);
        [
            1 + i32::from(limited),
            command,
            self.power,
            data,
            self.power + g.total,
            self.held,
        ]
    }

    fn change(&self, s: &Settings, here: &Here, command: i32, pilots: u8) -> i32 {
        let Some(last) = self.pilots else {
            return 0;
        };
        let pilot_change = pilot_level(last) - pilot_level(pilots);
        if here.resumes {
            let resume = if s.filtered_resume {
                self.filter.round() as i32
            } else {
                s.step * self.opening.unwrap_or(0)
            };
            resume + pilot_change
        } else if here.slot.down() {
            0
        } else if here.recovers {
            let step = if s.second_algorithm {
                64
            } else {
                (2 * s.step).min(192)
            };
            command * step + pilot_change
        } else {
            command * s.step + pilot_change
        }
    }

    fn update(&mut self, s: &Settings, command: i32, twice_limited: bool) {
        let bracket = if twice_limited {
            0
        } else {
            command * (31 * s.step / 32)
        };
        self.filter = 0.9375 * self.filter - f64::from(bracket);
    }

    /// What the next row needs of this slot.
    fn pass(&mut self, here: &Here, k: usize, commands: u8) {
        let gap = here.slot.gap();
        self.spoilt = k % 5 < 4 && (self.spoilt || here.slot.down() || here.recovers);
        self.set = [self.set[1], self.set[2], self.set[3], commands];
        if gap {
            self.run = (self.run + 1).min(7);
            self.recovery = 0;
        } else if here.resumes {
            self.recovery = self.run;
            self.run = 0;
            self.opening = None;
        } else {
            self.recovery = self.recovery.saturating_sub(1);
        }
    }
}
