//! That drawn jobs have slots opened by several ids, and that the comparison
//! would tell wrong programs by them.

use std::collections::{BTreeMap, BTreeSet};

use second::{listing, load, Job, Layout, Sequence};

use crate::answer::said;
use crate::block::Block;
use crate::generator::block;
use crate::subject::Scope;
use crate::tally::Tally;

const JOBS: u64 = 3_000;

/// The last two numbers of a row, and the last word of its line.
type Told = (i32, i32, String);

/// A record that has opened a slot.
#[derive(Clone, Copy)]
struct Opener {
    /// Its place in the file, from 0.
    place: usize,
    id: u8,
    uplink: bool,
    downlink: bool,
}

/// The records that have opened a slot, in the order of the file.
fn openers(sequences: &[Sequence], layout: &Layout, slot: usize) -> Vec<Opener> {
    let ids = layout.ids(slot);
    let all = sequences.iter().enumerate();
    all.filter(|(_, sequence)| ids.contains(&sequence.id))
        .map(|(place, sequence)| Opener {
            place,
            id: sequence.id,
            uplink: sequence.is_uplink(),
            downlink: sequence.is_downlink(),
        })
        .collect()
}

fn sum(openers: &[Opener], counts: fn(&Opener) -> bool) -> i32 {
    let counted = openers.iter().filter(|opener| counts(opener));
    counted.map(|opener| 1 << (opener.id - 1)).sum()
}

fn shown(ids: impl Iterator<Item = u8>) -> String {
    let words: Vec<String> = ids.map(|id| id.to_string()).collect();
    if words.is_empty() {
        "-".to_string()
    } else {
        words.join(",")
    }
}

/// What a right program tells. A file has no id twice.
fn right(openers: &[Opener]) -> Told {
    let mut ids: Vec<u8> = openers.iter().map(|opener| opener.id).collect();
    ids.sort();
    (
        sum(openers, |opener| opener.uplink),
        sum(openers, |opener| opener.downlink),
        shown(ids.into_iter()),
    )
}

fn place_for_id(openers: &[Opener]) -> Told {
    let placed = |opener: &Opener| Opener {
        id: opener.place as u8 + 1,
        ..*opener
    };
    right(&openers.iter().map(placed).collect::<Vec<Opener>>())
}

fn twice_the_sum(openers: &[Opener]) -> Told {
    let (uplink, downlink, by) = right(openers);
    (2 * uplink, 2 * downlink, by)
}

fn directions_exchanged(openers: &[Opener]) -> Told {
    let (uplink, downlink, by) = right(openers);
    (downlink, uplink, by)
}

fn sixth_passed_over(openers: &[Opener]) -> Told {
    let first_five = openers.iter().filter(|opener| opener.place < 5);
    right(&first_five.copied().collect::<Vec<Opener>>())
}

fn printed_for_each_direction(openers: &[Opener]) -> Told {
    let (uplink, downlink, _) = right(openers);
    let both = |opener: &Opener| {
        let times = usize::from(opener.uplink) + usize::from(opener.downlink);
        vec![opener.id; times]
    };
    let mut ids: Vec<u8> = openers.iter().flat_map(both).collect();
    ids.sort();
    (uplink, downlink, shown(ids.into_iter()))
}

fn falling(openers: &[Opener]) -> Told {
    let (uplink, downlink, by) = right(openers);
    (uplink, downlink, by.chars().rev().collect())
}

fn in_file_order(openers: &[Opener]) -> Told {
    let (uplink, downlink, _) = right(openers);
    let by = shown(openers.iter().map(|opener| opener.id));
    (uplink, downlink, by)
}

/// The name of a wrong program, and how it tells the openers of a slot.
type Wrong = (&'static str, fn(&[Opener]) -> Told);

const WRONG: [Wrong; 7] = [
    ("the place of a record for its id", place_for_id),
    ("2^id for 2^(id-1)", twice_the_sum),
    ("directions exchanged", directions_exchanged),
    ("the sixth record passed over", sixth_passed_over),
    (
        "an id of both directions printed twice",
        printed_for_each_direction,
    ),
    ("falling order", falling),
    ("the order of the file", in_file_order),
];

/// What `second` tells of each row that it accepts.
fn told_by_second(file: &[u8], job: &Job) -> Vec<Told> {
    let text = String::from_utf8(listing(file)).unwrap();
    let words = text.lines().skip(1).map(|line| line.rsplit(' ').next());
    let mut history = job.history();
    let rows = job
        .rows()
        .iter()
        .map_while(|row| history.offer(row[0], row[1]).ok());
    rows.zip(words)
        .map(|(answer, by)| {
            let numbers = answer.numbers();
            (numbers[6], numbers[7], by.unwrap_or_default().to_string())
        })
        .collect()
}

/// A row that is accepted: what has opened its slot, and what `second` tells.
type Row = (Vec<Opener>, Told);

/// The accepted rows of drawn jobs that are taken and not long.
fn drawn() -> impl Iterator<Item = Vec<Row>> {
    (0..JOBS).filter_map(|number| {
        let file = block(1, number, Scope::Any).job;
        let job = load(&file)
            .ok()
            .filter(|job| (1..=600).contains(&job.rows().len()))?;
        let layout = Layout::of(job.sequences(), job.rows().len());
        let told = told_by_second(&file, &job);
        let met = told.into_iter().enumerate();
        Some(
            met.map(|(slot, told)| (openers(job.sequences(), &layout, slot), told))
                .collect(),
        )
    })
}

#[test]
fn every_wrong_program_differs_in_many_jobs() {
    let mut jobs = BTreeMap::new();
    for rows in drawn() {
        assert!(rows.iter().all(|(openers, told)| &right(openers) == told));
        for (name, wrong) in WRONG {
            let differs = rows.iter().any(|(openers, told)| &wrong(openers) != told);
            *jobs.entry(name).or_insert(0) += u32::from(differs);
        }
    }
    assert_eq!(jobs.len(), WRONG.len());
    assert!(jobs.values().all(|&count| count > 60), "{jobs:?}");
}

/// What is special about the ids of a slot.
fn about(openers: &[Opener]) -> [(&'static str, bool); 6] {
    let all = openers.len();
    let uplink = openers.iter().filter(|opener| opener.uplink).count();
    let downlink = openers.iter().filter(|opener| opener.downlink).count();
    let rising = openers.windows(2).all(|pair| pair[0].id < pair[1].id);
    [
        ("two of one direction", uplink.max(downlink) > 1),
        (
            "each direction by ids of its own",
            uplink < all && downlink < all,
        ),
        (
            "one of both directions and another",
            uplink + downlink > all && all > 1,
        ),
        ("not in the order of the file", !rising),
        ("six of one direction", uplink == 6 || downlink == 6),
        (
            "six of several directions",
            all == 6 && uplink.min(downlink) < 6,
        ),
    ]
}

#[test]
fn slots_with_several_ids_are_of_all_kinds() {
    let mut jobs = BTreeMap::new();
    for rows in drawn() {
        let several = rows.iter().filter(|(openers, _)| openers.len() > 1);
        let names: BTreeSet<&str> = several
            .flat_map(|(openers, _)| about(openers))
            .filter(|name| name.1)
            .map(|name| name.0)
            .collect();
        for name in names {
            *jobs.entry(name).or_insert(0) += 1;
        }
    }
    assert_eq!(jobs.len(), 6, "{jobs:?}");
    assert!(jobs.values().all(|&count| count > 20), "{jobs:?}");
}

fn tally_of(blocks: impl Iterator<Item = Block>) -> Tally {
    let mut tally = Tally::default();
    for block in blocks {
        tally.count(&block, &said(&block));
    }
    tally
}

/// The sample has two ids in one slot, and the lift one at most.
#[test]
fn the_tally_counts_jobs_by_the_most_ids_in_a_slot() {
    let samples: [&[u8]; 4] = [
        include_bytes!("../../../../jobs/four-rows.job"),
        include_bytes!("../../../../jobs/lift.job"),
        include_bytes!("../../../../jobs/refused.job"),
        include_bytes!("../../../../jobs/two-ids.job"),
    ];
    let tally = tally_of(samples.iter().map(|job| Block {
        job: job.to_vec(),
        ..Block::default()
    }));
    let line = "  two or more ids in one slot: 1; the most ids in a slot: none 2, [1] 1, [2] 1\n";
    assert!(tally.to_string().contains(line), "{tally}");
}

#[test]
fn many_drawn_jobs_have_several_ids_in_one_slot() {
    let any = tally_of((0..JOBS).map(|number| block(1, number, Scope::Any)));
    assert!(any.several_ids() > JOBS / 10, "{any}");
    assert!((2..=6).all(|ids| any.most_ids[&ids] > 10), "{any}");
    let kept = tally_of((0..400).map(|number| block(1, number, Scope::Kept)));
    assert!(kept.several_ids() > 40, "{kept}");
    assert!((2..=6).all(|ids| kept.most_ids[&ids] > 0), "{kept}");
}
