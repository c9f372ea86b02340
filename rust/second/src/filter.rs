//! The filter behind a resume change under ITP 1.

/// The filter: its level in units and its updates since it was last 0.
#[derive(Clone, Copy, PartialEq, Debug)]
pub struct Filter {
    pub level: f64,
    pub count: u32,
}

impl Filter {
    /// What it starts at, and returns to after a resume slot.
    pub const ZERO: Filter = Filter {
        level: 0.0,
        count: 0,
    };

    /// One update by a bracket that is a whole number: the product is
    /// rounded, then the difference, as the format of f64 does.
    pub fn updated(self, bracket: i32) -> Filter {
        let kept = 0.9375 * self.level;
        Filter {
            level: kept - f64::from(bracket),
            count: self.count + 1,
        }
    }

    /// To the nearest unit, halves away from zero. The fraction is compared
    /// with a half (both are exact); adding a half would round once more and
    /// take the number just below one half for 1.
    pub fn nearest_unit(self) -> i32 {
        let size = self.level.abs();
        let whole = size.trunc();
        let up = i32::from(size - whole >= 0.5);
        let rounded = whole as i32 + up;
        if self.level < 0.0 {
            -rounded
        } else {
            rounded
        }
    }
}
