//! The table of contents: refusals 1 and 2.

use crate::load;
use crate::tests::{file_of, PLAIN};

fn refusal_with(changes: &[(usize, u8)]) -> (u32, u32) {
    let mut file = file_of(PLAIN, &[[1, 1, 0, 1, 0, 1, 0, 0, 0, 0, 0, 0]], &[[1, 0]]);
    for &(at, value) in changes {
        file[at] = value;
    }
    let refusal = load(&file).expect_err("refused");
    (refusal.number, refusal.place)
}

#[test]
fn each_entry_has_its_place() {
    assert_eq!(refusal_with(&[(0, 2)]), (2, 0));
    assert_eq!(refusal_with(&[(1, 2)]), (2, 0));
    assert_eq!(refusal_with(&[(2, 2)]), (2, 1));
    assert_eq!(refusal_with(&[(3, 28)]), (2, 1));
    assert_eq!(refusal_with(&[(7, 11)]), (2, 1));
    assert_eq!(refusal_with(&[(11, 3)]), (2, 2));
    assert_eq!(refusal_with(&[(12, 42)]), (2, 2));
    assert_eq!(refusal_with(&[(16, 11)]), (2, 2));
    assert_eq!(refusal_with(&[(20, 2)]), (2, 3));
    assert_eq!(refusal_with(&[(21, 52)]), (2, 3));
    assert_eq!(refusal_with(&[(25, 1)]), (2, 3));
    assert_eq!(refusal_with(&[(25, 0)]), (2, 3));
    assert_eq!(refusal_with(&[(25, 4)]), (2, 3));
}

#[test]
fn ends_do_not_wrap_around() {
    let most = [(16, 0xfc), (17, 0xff), (18, 0xff), (19, 0xff)];
    assert_eq!(refusal_with(&most), (2, 2));
}

#[test]
fn short_and_long_files() {
    let file = file_of(PLAIN, &[], &[]);
    for length in 0..29 {
        let refusal = load(&file[..length]).expect_err("refused");
        assert_eq!((refusal.number, refusal.place), (2, 0));
    }
    for length in 29..41 {
        let refusal = load(&file[..length]).expect_err("refused");
        assert_eq!((refusal.number, refusal.place), (2, 1));
    }
    for (length, expected) in [(65_535, (7, 30_000)), (65_536, (2, 3)), (65_537, (1, 0))] {
        let mut file = file_of(PLAIN, &[], &vec![[1, 6]; (length - 41) / 2]);
        file.resize(length, 0);
        let refusal = load(&file).expect_err("refused");
        assert_eq!((refusal.number, refusal.place), expected);
    }
}
