//! What the page's rules say of the next row of a history: whether its bytes
//! are right, its command, its change, and the filter before it.

use crate::{algorithm_1, algorithm_2, level, Filter, History, Place};

impl History<'_> {
    /// The rules of a row's two bytes.
    pub(crate) fn keeps_rules(&self, row: usize, commands: u8, pilots: u8) -> bool {
        let commands_kept = if self.layout.is_downlink_gap(row) {
            commands == 0
        } else {
            commands >> self.job.settings().link_sets == 0
        };
        let pilots_kept = if self.layout.is_uplink_gap(row) {
            pilots == 0
        } else {
            (3..=8).contains(&pilots)
        };
        commands_kept && pilots_kept
    }

    /// A recovery slot that RPP 1 gives its own rules.
    fn by_recovery_rule(&self, row: usize) -> bool {
        self.job.settings().recovery == 1 && matches!(self.layout.place(row), Place::Recovery(_))
    }

    /// Whether a slot takes the command away from its five-slot set.
    pub(crate) fn spoils_set(&self, row: usize) -> bool {
        self.layout.is_downlink_gap(row) || self.by_recovery_rule(row)
    }

    /// The command of the next row. A frame has three whole sets, so that the
    /// place in a set is the row modulo 5.
    pub(crate) fn command_of(&self, row: usize, commands: u8) -> i32 {
        let settings = self.job.settings();
        if self.layout.is_downlink_gap(row) {
            return 0;
        }
        if settings.algorithm == 1 || self.by_recovery_rule(row) {
            return algorithm_1(commands, settings.link_sets);
        }
        if row % 5 != 4 || (row - 4..=row).any(|slot| self.spoils_set(slot)) {
            return 0;
        }
        let before = &self.rows[row - 4..];
        let byte = |index: usize| before[index].commands;
        let five = [byte(0), byte(1), byte(2), byte(3), commands];
        algorithm_2(five, settings.link_sets)
    }

    /// The change of the next row, which is sent: the first rule that applies.
    pub(crate) fn change_of(&self, row: usize, command: i32, pilots: u8) -> i32 {
        let settings = self.job.settings();
        if !self.sent() {
            return 0;
        }
        let pilot_change = level(usize::from(self.pilots())) - level(usize::from(pilots));
        if let Place::Resume(run) = self.layout.place(row) {
            return self.resume_change(run.first_uplink) + pilot_change;
        }
        if self.layout.is_downlink_gap(row) {
            return 0;
        }
        if self.by_recovery_rule(row) {
            return command * settings.recovery_step() + pilot_change;
        }
        command * settings.step_units() + pilot_change
    }

    /// The change of a resume slot, from its run's first uplink gap slot or
    /// from the filter before this row's own update.
    fn resume_change(&self, first_uplink: Option<usize>) -> i32 {
        let settings = self.job.settings();
        if settings.initial == 0 {
            first_uplink.map_or(0, |slot| settings.step_units() * self.rows[slot].command)
        } else {
            self.filter().nearest_unit()
        }
    }

    /// The filter before the next row: the updates of the rows since the last
    /// resume slot, and since the first sent row.
    pub fn filter(&self) -> Filter {
        let next = self.rows.len();
        let after_resume = self.layout.last_resume_before(next).map_or(0, |s| s + 1);
        let first_sent = self.sent.first().copied().unwrap_or(next);
        (after_resume.max(first_sent)..next)
            .filter(|&row| self.updates_filter(row))
            .fold(Filter::ZERO, |filter, row| {
                filter.updated(self.bracket(row))
            })
    }

    /// Whether a row from the first sent row on updates the filter: a sent
    /// row, or a run's first uplink gap slot, unless in a downlink gap.
    fn updates_filter(&self, row: usize) -> bool {
        let opens = || match self.layout.place(row) {
            Place::Within(run) => run.first_uplink == Some(row),
            _ => false,
        };
        !self.layout.is_downlink_gap(row) && (!self.layout.is_uplink_gap(row) || opens())
    }

    /// What a row's update takes off: command × step × 31/32 × k, a whole
    /// number, since a step is a multiple of 32.
    fn bracket(&self, row: usize) -> i32 {
        let both_limited = self.rows[row].limited && row > 0 && self.rows[row - 1].limited;
        let k = i32::from(!both_limited);
        self.rows[row].command * (self.job.settings().step_units() / 32 * 31) * k
    }
}
