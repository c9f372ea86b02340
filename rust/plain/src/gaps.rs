//! The slot rule: which sequences make a slot a gap slot.

/// One gap pattern sequence. Its frames are turned into slots once, and its id into the bit that it has in a set.
#[derive(Clone, Copy, Debug)]
pub struct Sequence {
    /// What it makes of a slot in one of its gaps.
    gap: Slot,
    begin: u32,
    size: u32,
    repeats: u32,
    first: u32,
    first_length: u32,
    second: u32,
    second_length: u32,
}

/// The ids that put a slot into a gap of each direction, as sums of 2^(id-1). The downlink's sum is in the second byte:
/// with both sums in one number, one test tells a slot that is in no gap.
#[derive(Clone, Copy, Debug, Default, PartialEq, Eq)]
pub struct Slot(u32);

impl Slot {
    pub fn up(self) -> bool {
        self.0 & 255 != 0
    }

    pub fn down(self) -> bool {
        self.0 > 255
    }

    pub fn gap(self) -> bool {
        self.0 != 0
    }

    /// The last two numbers of a row's answer.
    pub fn sets(self) -> [i32; 2] {
        [(self.0 & 255) as i32, (self.0 >> 8) as i32]
    }
}

impl Sequence {
    pub(crate) fn new(r: &[u8]) -> Self {
        let pair = |at: usize| u16::from_le_bytes([r[at], r[at + 1]]) as u32;
        let bit = 1 << (r[0] - 1);
        let uplink = if r[1] & 1 != 0 { bit } else { 0 };
        let downlink = if r[1] & 2 != 0 { bit } else { 0 };
        Sequence {
            gap: Slot(uplink | downlink << 8),
            begin: 15 * pair(10),
            size: 15 * r[5] as u32,
            repeats: if pair(6) == 0 { u32::MAX } else { pair(6) },
            first: r[2] as u32,
            first_length: r[3] as u32,
            second: r[2] as u32 + pair(8),
            second_length: r[4] as u32,
        }
    }

    fn has_in_gap(&self, slot: u32) -> bool {
        let Some(passed) = slot.checked_sub(self.begin) else {
            return false;
        };
        let place = passed % self.size;
        passed / self.size < self.repeats
            && (place.wrapping_sub(self.first) < self.first_length
                || place.wrapping_sub(self.second) < self.second_length)
    }
}

pub(crate) fn slot_at(sequences: &[Sequence], slot: u32) -> Slot {
    let mut found = Slot::default();
    for sequence in sequences {
        if sequence.has_in_gap(slot) {
            found.0 |= sequence.gap.0;
        }
    }
    found
}
