//! That the named cases and a few thousand drawn blocks meet what they are for.

use std::collections::BTreeSet;

use second::{Composed, Reason};

use crate::block::HEAD_LENGTH;
use crate::subject::{Scope, Subject};
use crate::written::answer::{composed, said};
use crate::written::block::{MOST_GIVEN, MOST_LENT};
use crate::written::cases::cases;
use crate::written::generator::{block, kind_of, Kind};
use crate::written::tally::Tally;
use crate::written::Block;

const REASONS: [Reason; 9] = [
    Reason::CarriageReturn,
    Reason::UnknownWord,
    Reason::TooFewNumbers,
    Reason::TooManyNumbers,
    Reason::NotANumber,
    Reason::TooManyDigits,
    Reason::OutOfRange,
    Reason::OutOfOrder,
    Reason::Missing,
];

fn given_bytes(block: &Block) -> usize {
    block.given.bytes().concat().len()
}

fn tally_of(blocks: &[Block]) -> Tally {
    let mut tally = Tally::default();
    for block in blocks {
        assert!(given_bytes(block) <= MOST_GIVEN && block.lent as usize <= MOST_LENT);
        block.line(&mut tally);
    }
    tally
}

#[test]
fn a_block_depends_on_its_seed_and_number_alone() {
    let cases = cases().len() as u64;
    for number in [cases, cases + 1, cases + 17, 4_000] {
        let one = block(5, number, Scope::Any);
        assert_eq!(one, block(5, number, Scope::Any));
        assert_ne!(one, block(6, number, Scope::Any));
        assert_ne!(one, block(5, number + 1, Scope::Any));
    }
}

#[test]
fn named_cases_come_first() {
    let names: BTreeSet<&str> = cases().iter().map(|case| case.0).collect();
    assert_eq!(names.len(), cases().len());
    for (number, (name, case)) in (0..).zip(cases()) {
        assert_eq!(kind_of(9, number), Kind::Case(name));
        assert_eq!(&block(9, number, Scope::Any), case);
        assert_eq!(&block(8, number, Scope::Kept), case);
    }
}

/// What the names of some cases say.
#[test]
fn cases_are_what_they_are_named_for() {
    for (name, line) in [
        ("the page's job", "file 49 "),
        ("a byte too few", "refused 12 at 49 "),
        ("six records", "file 121 "),
        ("six records, a byte too few", "refused 12 at 121 "),
        ("seven records", "refused 4 at 7 "),
        ("9 pilot bits", "file 43 "),
        ("step 2 with PCA 2", "refused 3 at 1 "),
        ("maximum -51 dBm", "refused 3 at 8 "),
        ("start 2,304", "refused 3 at 10 "),
        ("a record that just fits", "file 73 "),
        ("a gap that does not fit", "refused 5 at 17 "),
        ("the id of the record before", "refused 6 at 1 "),
        ("no second gap with a TGD", "refused 5 at 20 "),
        ("65,536 bytes", "refused 2 at 3 "),
        ("65,537 bytes of kind 2", "refused 1 at 0 "),
        ("parts: 30,000 rows", "file 60041 "),
        ("30,000 rows", "file 60041 "),
        ("30,000 rows, a byte too few", "refused 12 at 60041 "),
        ("30,001 rows, nothing lent", "refused 7 at 30000 "),
        ("32,747 rows, 65,535 bytes", "refused 7 at 30000 "),
        ("32,748 rows, 65,537 bytes", "refused 1 at 0 "),
        ("more rows than 32 bits count", "refused 1 at 0 "),
        ("unreadable after too many rows", "line 4 unreadable "),
        ("a gap after no rows", "line 4 unreadable "),
        ("row of 1 as 257", "line 3 unreadable "),
        ("start 1,280 as 66,816", "line 1 unreadable "),
        ("comments alone", "line 4 unreadable "),
        ("the example", "file 255 "),
        ("four-rows.txt", "file 49 "),
        ("four-rows.txt, more lent", "file 49 "),
        ("lift.txt", "file 173 "),
        ("lift.txt, more lent", "file 173 "),
        ("two-ids.txt", "file 161 "),
        ("two-ids.txt, more lent", "file 161 "),
        ("refused.txt", "refused 4 at 7 "),
        ("refused.txt, more lent", "refused 4 at 7 "),
    ] {
        let case = cases().iter().find(|case| case.0 == name).unwrap();
        let said = said(&case.1).0;
        assert!(said.starts_with(line), "{name}: {said}");
    }
}

#[test]
fn every_outcome_is_common() {
    let blocks: Vec<Block> = (0..10_000)
        .map(|number| block(1, number, Scope::Any))
        .collect();
    let tally = tally_of(&blocks);
    let at = |number, place| tally.parts.refused.get(&(number, place)).copied();
    assert!((0..=3).all(|place| at(2, place) > Some(200)), "{tally}");
    assert!((0..=10).all(|place| at(3, place) > Some(20)), "{tally}");
    for (outcomes, rare) in [(&tally.parts, 10), (&tally.text, 40)] {
        assert!(outcomes.written > 1_000, "{tally}");
        assert!(
            [1, 7].iter().all(|&n| outcomes.refused_with(n).0 > rare),
            "{tally}"
        );
        assert!(
            [4, 6].iter().all(|&n| outcomes.refused_with(n).0 > 40),
            "{tally}"
        );
        let (fives, places) = outcomes.refused_with(5);
        assert!(fives > 150 && places > 24, "{tally}");
        assert!(outcomes.refused_with(12).0 > 400, "{tally}");
    }
    for reason in REASONS {
        assert!(tally.unreadable_for(reason) > 100, "{reason:?}: {tally}");
        assert!(
            tally.unreadable[&(reason, true)] > 20,
            "{reason:?}: {tally}"
        );
    }
    assert!(tally.exactly > 1_000 && tally.one_too_few > 400, "{tally}");
    let short = blocks.iter().filter(|block| given_bytes(block) < 1_000);
    assert!(short.count() > 9_700);
}

/// Where the first line that cannot be read stands.
#[test]
fn unreadable_lines_stand_everywhere() {
    let mut places = [0; 3];
    for number in 0..3_000 {
        let block = block(2, number, Scope::Any);
        if let Composed::Unreadable(line, _) = composed(&block.given, &mut []) {
            let text = block.given.bytes().concat();
            let lines = text.trim_ascii_end().split(|&byte| byte == b'\n').count();
            let place = if line == 1 {
                0
            } else {
                1 + usize::from(line >= lines)
            };
            places[place] += 1;
        }
    }
    assert!(places.iter().all(|&count| count > 100), "{places:?}");
}

#[test]
fn kept_blocks_are_small_but_for_some_cases() {
    let blocks: Vec<Block> = (0..400)
        .map(|number| block(1, number, Scope::Kept))
        .collect();
    let bytes: usize = blocks
        .iter()
        .map(|block| HEAD_LENGTH + given_bytes(block))
        .sum();
    assert!(bytes < 300_000, "{bytes} bytes");
    let drawn = &blocks[cases().len()..];
    assert!(drawn.len() > 250 && drawn.iter().all(|block| given_bytes(block) < 2_000));
    let tally = tally_of(&blocks);
    for outcomes in [&tally.parts, &tally.text] {
        let numbers: BTreeSet<u32> = outcomes.refused.keys().map(|key| key.0).collect();
        assert!(
            [1, 3, 4, 5, 6, 12]
                .iter()
                .all(|number| numbers.contains(number)),
            "{tally}"
        );
    }
    let of_three = (0..=10).filter(|&place| tally.parts.refused.contains_key(&(3, place)));
    assert_eq!(of_three.count(), 11, "{tally}");
    let of_five = [12, 13, 14, 15, 16, 17, 18, 20].iter();
    let mut of_five = of_five.map(|&place| tally.parts.refused.contains_key(&(5, place)));
    assert!(of_five.all(|met| met), "{tally}");
    assert!(tally.text.refused_with(7).0 > 2, "{tally}");
    assert!(
        REASONS
            .iter()
            .all(|&reason| tally.unreadable_for(reason) > 1),
        "{tally}"
    );
}
