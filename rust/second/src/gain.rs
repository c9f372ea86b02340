//! What the gain factors and the allowed maximum say about the three powers.

use crate::{level, Settings};

/// How total and data power lie above control power, and its ceiling.
#[derive(Clone, Copy, PartialEq, Eq, Debug)]
pub struct Gain {
    /// Total power less control power.
    pub bracket: i32,
    /// Data power less control power; none when βd is 0.
    pub data: Option<i32>,
    /// The ceiling of control power.
    pub ceiling: i32,
}

impl Gain {
    /// The gain of a job.
    pub fn of(settings: &Settings) -> Gain {
        let square = |factor: u8| usize::from(factor) * usize::from(factor);
        let control = square(settings.control_gain);
        let data = usize::from(settings.data_channels) * square(settings.data_gain);
        let bracket = level(control + data) - level(control);
        Gain {
            bracket,
            data: (data > 0).then(|| level(data) - level(control)),
            ceiling: 64 * i32::from(settings.maximum) - bracket,
        }
    }
}
