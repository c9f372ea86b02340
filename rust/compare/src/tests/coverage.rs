//! That a few thousand drawn jobs meet what they are drawn for.

use std::collections::BTreeSet;

use second::{load, Answer, Layout, Place, Settings};

use crate::answer::said;
use crate::block::{LONGEST_JOB, MOST_LENT};
use crate::generator::block;
use crate::subject::Scope;
use crate::tally::Tally;

#[test]
fn a_job_depends_on_its_seed_and_number_alone() {
    for number in [0, 1, 17, 400] {
        let one = block(5, number, Scope::Any);
        assert_eq!(one, block(5, number, Scope::Any));
        assert_ne!(one, block(6, number, Scope::Any));
        assert_ne!(one, block(5, number + 1, Scope::Any));
    }
}

#[test]
fn every_refusal_is_met() {
    let mut tally = Tally::default();
    for number in 0..3_000 {
        let block = block(1, number, Scope::Any);
        assert!(block.job.len() <= LONGEST_JOB && block.head.lent as usize <= MOST_LENT);
        tally.count(&block, &said(&block));
    }
    let listed: Vec<u32> = tally.refused.keys().copied().collect();
    assert_eq!(listed, [1, 2, 3, 4, 5, 6, 7, 8, 9]);
    assert!(tally.lent[&10] > 50 && tally.states[&11] > 50);
    assert!(tally.states[&7] > 5 && tally.states[&0] > 50);
    assert!(tally.whole > 1_000 && tally.marked_steps > 500);
}

#[test]
fn kept_jobs_are_small_but_for_three() {
    let blocks: Vec<_> = (0..400)
        .map(|number| block(1, number, Scope::Kept))
        .collect();
    let bytes: usize = blocks.iter().map(|block| 24 + block.job.len()).sum();
    assert!(bytes < 400_000, "{bytes} bytes");
    assert!(blocks[3..].iter().all(|block| block.job.len() < 2_000));
    let mut tally = Tally::default();
    for block in &blocks {
        tally.count(block, &said(block));
    }
    assert_eq!(tally.refused.len(), 9);
}

/// One row of a job and what came before it.
struct Met<'a> {
    settings: Settings,
    layout: &'a Layout,
    slot: usize,
    answer: Answer,
    /// Whether nothing was sent before.
    first: bool,
    limited_before: bool,
    updates_before: u32,
}

impl Met<'_> {
    /// What is special about a row that follows no run, or is in it.
    fn about_rules(&self) -> Vec<(&'static str, bool)> {
        let Met {
            settings, answer, ..
        } = self;
        let sent = answer.state != 0;
        let limited = answer.state == 2;
        let downlink = self.layout.is_downlink_gap(self.slot);
        let fifth = self.slot % 5 == 4;
        let by_votes = settings.algorithm == 2 && settings.link_sets > 1 && fifth;
        let between = settings.algorithm == 2 && !fifth;
        vec![
            ("limited twice", self.limited_before && limited),
            ("first row limited", self.first && limited),
            ("downlink gap first", self.first && sent && downlink),
            ("algorithm 2 up", by_votes && answer.command == 1),
            ("algorithm 2 down", by_votes && answer.command == -1),
            ("algorithm 1 under PCA 2", between && answer.command != 0),
            ("no data channel", settings.data_gain == 0 && sent),
            ("0 dBm", sent && answer.dpcch == 0),
        ]
    }

    /// What is special about its place among the runs.
    fn about_runs(&self) -> Vec<(&'static str, bool)> {
        let initial = self.settings.initial;
        match self.layout.place(self.slot) {
            Place::Resume(run) => vec![
                ("resume first", self.first),
                (
                    "resume by the step",
                    run.first_uplink.is_some() && initial == 0,
                ),
                (
                    "resume by an inexact filter",
                    initial == 1 && self.updates_before > 11,
                ),
                (
                    "resume of a run that opened unsent",
                    run.first_uplink == Some(0) && !self.first,
                ),
                ("a long run", run.end - run.begin > 14),
            ],
            Place::Recovery(_) => vec![("recovery under RPP 1", self.settings.recovery == 1)],
            Place::Within(run) if run.begin == self.slot && self.slot > 0 => {
                let before = self.layout.place(self.slot - 1);
                let cut = matches!(before, Place::Recovery(_) | Place::Resume(_));
                vec![("recovery cut short", cut)]
            }
            _ => vec![],
        }
    }
}

/// Adds the names of what the rows of a job meet.
fn add_met(seed: u64, number: u64, names: &mut BTreeSet<&'static str>) {
    let Ok(job) = load(&block(seed, number, Scope::Any).job) else {
        return;
    };
    // The filter is worked out anew at every row below: not for long jobs.
    if job.rows().len() > 600 {
        return;
    }
    let layout = Layout::of(job.sequences(), job.rows().len());
    let mut history = job.history();
    for (slot, row) in job.rows().iter().enumerate() {
        let (first, limited_before) = (!history.sent(), history.limited());
        let updates_before = history.filter().count;
        let Ok(answer) = history.offer(row[0], row[1]) else {
            return;
        };
        let met = Met {
            settings: *job.settings(),
            layout: &layout,
            slot,
            answer,
            first,
            limited_before,
            updates_before,
        };
        let all = met.about_rules().into_iter().chain(met.about_runs());
        names.extend(all.filter(|name| name.1).map(|name| name.0));
    }
}

#[test]
fn the_rules_of_rows_are_met() {
    let mut names = BTreeSet::new();
    for number in 0..1_000 {
        add_met(1, number, &mut names);
    }
    assert_eq!(names.len(), 15, "{names:?}");
}
