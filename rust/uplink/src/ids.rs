//! Sets of ids: which gap records put a slot into a gap.
use std::fmt;
use std::ops::BitOr;

/// A set of ids of gap records, 1 to 6. It prints as the listing does: the ids rising and joined by commas, `-` if there
/// is none.
#[derive(Clone, Copy, Default, PartialEq, Eq, Hash)]
pub struct Ids(u8);

/// The ids are 1 to 6.
const HIGHEST: u8 = 6;

impl Ids {
    /// The set that a number of an answer stands for, as the listing has it: bits that belong to no id are left out, and
    /// a number below zero stands for no ids.
    pub(crate) fn of(sum: i32) -> Ids {
        Ids((sum.max(0) & ((1 << HIGHEST) - 1)) as u8)
    }

    /// The sum of 2^(id-1) over the ids, as an answer has it.
    pub fn bits(self) -> u8 {
        self.0
    }

    pub fn is_empty(self) -> bool {
        self.0 == 0
    }

    pub fn contains(self, id: u8) -> bool {
        (1..=HIGHEST).contains(&id) && self.0 >> (id - 1) & 1 == 1
    }

    /// The ids, rising.
    pub fn iter(self) -> impl Iterator<Item = u8> {
        (1..=HIGHEST).filter(move |&id| self.contains(id))
    }
}

/// The ids that are in either set.
impl BitOr for Ids {
    type Output = Ids;

    fn bitor(self, other: Ids) -> Ids {
        Ids(self.0 | other.0)
    }
}

impl fmt::Display for Ids {
    fn fmt(&self, f: &mut fmt::Formatter<'_>) -> fmt::Result {
        if self.is_empty() {
            return f.pad("-");
        }
        let ids: Vec<_> = self.iter().map(|id| id.to_string()).collect();
        f.pad(&ids.join(","))
    }
}

impl fmt::Debug for Ids {
    fn fmt(&self, f: &mut fmt::Formatter<'_>) -> fmt::Result {
        f.debug_set().entries(self.iter()).finish()
    }
}

#[cfg(test)]
mod tests {
    use super::*;

    fn listed(ids: Ids) -> Vec<u8> {
        ids.iter().collect()
    }

    #[test]
    fn each_id_has_its_own_bit() {
        for (id, bit) in [(1, 1), (2, 2), (3, 4), (4, 8), (5, 16), (6, 32)] {
            let ids = Ids::of(bit);
            assert_eq!((listed(ids), i32::from(ids.bits())), (vec![id], bit));
        }
    }

    #[test]
    fn a_set_contains_its_ids_and_nothing_else() {
        let ids = Ids::of(0b10_0101);
        let found: Vec<u8> = (0..=u8::MAX).filter(|&id| ids.contains(id)).collect();
        assert_eq!(found, [1, 3, 6]);
        assert!(!ids.is_empty());
    }

    #[test]
    fn every_set_lists_its_ids_rising() {
        for sum in 0..64 {
            let ids = Ids::of(sum);
            let listed = listed(ids);
            assert!(listed.windows(2).all(|pair| pair[0] < pair[1]), "{ids:?}");
            assert_eq!(listed.iter().map(|id| 1 << (id - 1)).sum::<i32>(), sum);
        }
    }

    #[test]
    fn an_id_of_both_directions_is_there_once() {
        let (uplink, downlink) = (Ids::of(0b01_0100), Ids::of(0b01_0010));
        let by = uplink | downlink;
        assert_eq!((listed(by), by.bits()), (vec![2, 3, 5], 0b01_0110));
        assert_eq!(uplink | uplink, uplink);
    }

    #[test]
    fn sets_print_as_in_the_listing() {
        for (sum, text) in [(0, "-"), (1, "1"), (0b01_0010, "2,5"), (63, "1,2,3,4,5,6")] {
            assert_eq!(Ids::of(sum).to_string(), text);
        }
        assert_eq!(format!("{:>4}|{:<4}", Ids::of(3), Ids::of(0)), " 1,2|-   ");
        assert_eq!(format!("{:?}", Ids::of(0b10_0001)), "{1, 6}");
    }

    #[test]
    fn bits_that_belong_to_no_id_are_left_out() {
        for (sum, bits) in [(64, 0), (-1, 0), (i32::MIN, 0), (256 + 2, 2)] {
            assert_eq!(Ids::of(sum).bits(), bits);
        }
        assert!(Ids::of(64).is_empty());
    }
}
