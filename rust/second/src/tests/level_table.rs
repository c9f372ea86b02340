//! Every entry of the level table against the page's two inequalities, over
//! whole numbers of any size.

use crate::level;

/// A whole number: digits to the base 2^32, the lowest first, the highest
/// never 0.
#[derive(Clone, PartialEq, Eq, Debug)]
struct Whole(Vec<u32>);

impl Whole {
    fn times(&self, other: &Whole) -> Whole {
        let mut digits = vec![0u32; self.0.len() + other.0.len()];
        for (i, &a) in self.0.iter().enumerate() {
            let mut carry = 0u64;
            for (j, &b) in other.0.iter().enumerate() {
                let sum = u64::from(a) * u64::from(b) + u64::from(digits[i + j]) + carry;
                digits[i + j] = sum as u32;
                carry = sum >> 32;
            }
            digits[i + other.0.len()] = carry as u32;
        }
        while digits.last() == Some(&0) {
            digits.pop();
        }
        Whole(digits)
    }

    fn power(base: u32, exponent: u32) -> Whole {
        let mut result = Whole(vec![1]);
        for bit in (0..32).rev() {
            result = result.times(&result);
            if exponent >> bit & 1 == 1 {
                result = result.times(&Whole(vec![base]));
            }
        }
        result
    }

    fn is_below(&self, other: &Whole) -> bool {
        let key = |whole: &Whole| {
            (
                whole.0.len(),
                whole.0.iter().rev().copied().collect::<Vec<_>>(),
            )
        };
        key(self) < key(other)
    }
}

#[test]
fn all_entries_meet_both_inequalities() {
    let ten = Whole(vec![10]);
    for x in 1..=1_575u32 {
        let l = u32::try_from(level(x as usize)).unwrap();
        let power = Whole::power(x, 1_280);
        let low = Whole::power(10, 2 * l);
        assert!(!power.times(&ten).is_below(&low), "L({x}) too high");
        assert!(power.is_below(&low.times(&ten)), "L({x}) too low");
    }
}

#[test]
fn the_levels_that_the_page_names() {
    for (x, l) in [(1, 0), (2, 193), (10, 640), (1_575, 2_046)] {
        assert_eq!(level(x), l);
    }
    let pilots: Vec<i32> = (3..=8).map(level).collect();
    assert_eq!(pilots, [305, 385, 447, 498, 541, 578]);
}

#[test]
#[should_panic]
fn no_level_above_the_table() {
    level(1_576);
}
