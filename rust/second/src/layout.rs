//! The slots of a job, laid out from its gap sequences, and their runs.

use std::collections::BTreeSet;

use crate::{Sequence, FRAME};

/// A run: a longest stretch of neighbouring gap slots.
#[derive(Clone, Copy, PartialEq, Eq, Debug)]
pub struct Run {
    /// Its first slot.
    pub begin: usize,
    /// The slot after it, which is the resume slot.
    pub end: usize,
    /// Its first uplink gap slot.
    pub first_uplink: Option<usize>,
}

impl Run {
    /// RPL, how many recovery slots it has if no other run comes too soon.
    pub fn recovery_length(&self) -> usize {
        (self.end - self.begin).min(7)
    }
}

/// What a slot is with regard to the runs.
#[derive(Clone, Copy, PartialEq, Eq, Debug)]
pub enum Place<'a> {
    Within(&'a Run),
    Resume(&'a Run),
    Recovery(&'a Run),
    Ordinary,
}

/// The ids of the sequences that put one slot into a gap, for each direction.
/// The slot is a gap slot of a direction exactly if there are any.
#[derive(Clone, Default, PartialEq, Eq, Debug)]
struct Slot {
    uplink: BTreeSet<u8>,
    downlink: BTreeSet<u8>,
}

/// Ids as one number, the sum of 2^(id-1): the last two numbers of a row.
pub fn sum_of_ids(ids: &BTreeSet<u8>) -> i32 {
    ids.iter().map(|&id| 2i32.pow(u32::from(id) - 1)).sum()
}

/// The slots of a job from slot 0 on, and their runs. A run that reaches the
/// last slot laid out may go on; nothing that is asked of a slot here depends
/// on the slots after it.
#[derive(Clone, Debug)]
pub struct Layout {
    slots: Vec<Slot>,
    runs: Vec<Run>,
}

impl Layout {
    /// The first so many slots.
    pub fn of(sequences: &[Sequence], length: usize) -> Layout {
        let mut slots = vec![Slot::default(); length];
        for sequence in sequences {
            mark(&mut slots, sequence);
        }
        let runs = runs_of(&slots);
        Layout { slots, runs }
    }

    /// How many slots are laid out.
    pub fn length(&self) -> usize {
        self.slots.len()
    }

    /// The ids of the sequences that put a slot into an uplink gap.
    pub fn uplink_ids(&self, slot: usize) -> &BTreeSet<u8> {
        &self.slots[slot].uplink
    }

    /// The ids of the sequences that put a slot into a downlink gap.
    pub fn downlink_ids(&self, slot: usize) -> &BTreeSet<u8> {
        &self.slots[slot].downlink
    }

    /// The ids of either direction, each once.
    pub fn ids(&self, slot: usize) -> BTreeSet<u8> {
        self.uplink_ids(slot) | self.downlink_ids(slot)
    }

    pub fn is_uplink_gap(&self, slot: usize) -> bool {
        !self.uplink_ids(slot).is_empty()
    }

    pub fn is_downlink_gap(&self, slot: usize) -> bool {
        !self.downlink_ids(slot).is_empty()
    }

    /// Only the last run that begins at the slot or before it matters: a
    /// later run ends the recovery slots of the ones before.
    pub fn place(&self, slot: usize) -> Place<'_> {
        let begun = self.runs.partition_point(|run| run.begin <= slot);
        let Some(run) = self.runs[..begun].last() else {
            return Place::Ordinary;
        };
        if slot < run.end {
            Place::Within(run)
        } else if slot == run.end {
            Place::Resume(run)
        } else if slot - run.end <= run.recovery_length() {
            Place::Recovery(run)
        } else {
            Place::Ordinary
        }
    }

    /// The last resume slot before a slot.
    pub fn last_resume_before(&self, slot: usize) -> Option<usize> {
        let over = self.runs.partition_point(|run| run.end < slot);
        self.runs[..over].last().map(|run| run.end)
    }
}

/// Writes the id of a sequence into every slot of the gaps of all its patterns.
fn mark(slots: &mut [Slot], sequence: &Sequence) {
    let last = if sequence.repeats == 0 {
        usize::MAX
    } else {
        sequence.repeats
    };
    let patterns = (FRAME * sequence.start_frame..slots.len())
        .step_by(sequence.pattern_length())
        .take(last);
    for pattern in patterns {
        for (begin, end) in sequence.gaps() {
            let begin = (pattern + begin).min(slots.len());
            let end = (pattern + end).min(slots.len());
            for slot in &mut slots[begin..end] {
                if sequence.is_uplink() {
                    slot.uplink.insert(sequence.id);
                }
                if sequence.is_downlink() {
                    slot.downlink.insert(sequence.id);
                }
            }
        }
    }
}

/// The runs of a layout, in order.
fn runs_of(slots: &[Slot]) -> Vec<Run> {
    let in_gap = |slot: &Slot| !slot.uplink.is_empty() || !slot.downlink.is_empty();
    let mut runs = Vec::new();
    let mut at = 0;
    while let Some(ahead) = slots[at..].iter().position(in_gap) {
        let begin = at + ahead;
        let length = slots[begin..]
            .iter()
            .take_while(|slot| in_gap(slot))
            .count();
        let end = begin + length;
        let uplink = slots[begin..end]
            .iter()
            .position(|slot| !slot.uplink.is_empty());
        runs.push(Run {
            begin,
            end,
            first_uplink: uplink.map(|ahead| begin + ahead),
        });
        at = end;
    }
    runs
}
