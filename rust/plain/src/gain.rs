//! Gain factors, turned into units once.
use crate::file::Settings;
use crate::levels::level;

/// What gain factors come to, in units.
pub(crate) struct Gain {
    pub ceiling: i32,
    pub total: i32,
    pub data: Option<i32>,
}

pub(crate) fn gain(s: &Settings) -> Gain {
    let (c, d) = (s.betac as i32, s.betad as i32);
    let own = level(c * c);
    let data = s.channels as i32 * d * d;
    let total = level(c * c + data) - own;
    Gain {
        ceiling: s.maximum - total,
        total,
        data: (d > 0).then(|| level(data) - own),
    }
}
