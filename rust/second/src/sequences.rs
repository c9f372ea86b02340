//! Gap records: the second body.

use crate::{Refusal, FRAME, MOST_RECORDS};

/// A gap sequence: what one record of 12 bytes says. Slot counts and frame
/// counts have the page's ranges.
#[derive(Clone, Copy, PartialEq, Eq, Debug)]
pub struct Sequence {
    pub id: u8,
    /// 1 uplink, 2 downlink, 3 both.
    pub direction: u8,
    /// TGSN: where in the pattern the first gap begins.
    pub begins: usize,
    /// TGL1.
    pub first_length: usize,
    /// TGL2, 0 for no second gap.
    pub second_length: usize,
    /// TGPL in frames.
    pub frames: usize,
    /// TGPRC, 0 for no end.
    pub repeats: usize,
    /// TGD: from the begin of the first gap to that of the second.
    pub distance: usize,
    pub start_frame: usize,
}

impl Sequence {
    fn read(record: &[u8; 12]) -> Sequence {
        let two = |at: usize| usize::from(u16::from_le_bytes([record[at], record[at + 1]]));
        Sequence {
            id: record[0],
            direction: record[1],
            begins: usize::from(record[2]),
            first_length: usize::from(record[3]),
            second_length: usize::from(record[4]),
            frames: usize::from(record[5]),
            repeats: two(6),
            distance: two(8),
            start_frame: two(10),
        }
    }

    /// The first byte that breaks its rule, in byte order; that a gap does
    /// not fit into the pattern comes last and is said of byte 5.
    fn first_fault(&self) -> Option<usize> {
        let distance_kept = if self.second_length == 0 {
            self.distance == 0
        } else {
            (15..=269).contains(&self.distance)
        };
        let kept = [
            (0, (1..=6).contains(&self.id)),
            (1, (1..=3).contains(&self.direction)),
            (2, self.begins <= 14),
            (3, (1..=14).contains(&self.first_length)),
            (4, self.second_length <= 14),
            (5, (1..=144).contains(&self.frames)),
            (6, self.repeats <= 511),
            (8, distance_kept),
            (5, self.gaps().all(|(_, end)| end <= self.pattern_length())),
        ];
        kept.iter().find(|rule| !rule.1).map(|rule| rule.0)
    }

    /// All sequences of the second body, or refusal 4, 5 or 6.
    pub fn read_all(body: &[u8]) -> Result<Vec<Sequence>, Refusal> {
        let (records, _) = body.as_chunks::<12>();
        if records.len() > MOST_RECORDS {
            return Err(Refusal::new(4, records.len() as u32));
        }
        let sequences: Vec<Sequence> = records.iter().map(Sequence::read).collect();
        for (index, sequence) in sequences.iter().enumerate() {
            if let Some(byte) = sequence.first_fault() {
                return Err(Refusal::new(5, (12 * index + byte) as u32));
            }
            if sequences[..index]
                .iter()
                .any(|other| other.id == sequence.id)
            {
                return Err(Refusal::new(6, index as u32));
            }
        }
        Ok(sequences)
    }

    /// Slots of a pattern.
    pub fn pattern_length(&self) -> usize {
        FRAME * self.frames
    }

    /// Begin and end of the gaps, within the pattern.
    pub(crate) fn gaps(&self) -> impl Iterator<Item = (usize, usize)> {
        let second = self.begins + self.distance;
        [
            (self.begins, self.begins + self.first_length),
            (second, second + self.second_length),
        ]
        .into_iter()
        .take(if self.second_length > 0 { 2 } else { 1 })
    }

    pub fn is_uplink(&self) -> bool {
        self.direction == 1 || self.direction == 3
    }

    pub fn is_downlink(&self) -> bool {
        self.direction == 2 || self.direction == 3
    }
}
