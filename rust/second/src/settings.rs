//! The settings: the first body, 12 bytes.

use crate::{Refusal, HIGHEST_START, LOWEST_POWER};

/// The settings of a job. The fields are the page's, each in its range.
#[derive(Clone, Copy, PartialEq, Eq, Debug)]
pub struct Settings {
    /// PCA, 1 or 2.
    pub algorithm: u8,
    /// The step in dB, 1 or 2.
    pub step: u8,
    /// ITP, 0 or 1.
    pub initial: u8,
    /// RPP, 0 or 1.
    pub recovery: u8,
    /// Radio link sets N, 1 to 6.
    pub link_sets: u8,
    /// βc, 1 to 15.
    pub control_gain: u8,
    /// βd, 0 to 15.
    pub data_gain: u8,
    /// DPDCH count n, 1 to 6.
    pub data_channels: u8,
    /// Allowed maximum in dBm, -50 to 33.
    pub maximum: i8,
    /// Start DPCCH power in units.
    pub start: i16,
}

impl Settings {
    /// Reads a body of 12 bytes; refusal 3 at the first byte that breaks its
    /// rule.
    pub fn read(body: &[u8; 12]) -> Result<Settings, Refusal> {
        match Settings::first_fault(body) {
            Some(offset) => Err(Refusal::new(3, offset as u32)),
            None => Ok(Settings {
                algorithm: body[0],
                step: body[1],
                initial: body[2],
                recovery: body[3],
                link_sets: body[4],
                control_gain: body[5],
                data_gain: body[6],
                data_channels: body[7],
                maximum: body[8] as i8,
                start: i16::from_le_bytes([body[10], body[11]]),
            }),
        }
    }

    /// The rules of the bytes in file order. A rule that takes two bytes
    /// stands at the place that the page gives it.
    fn first_fault(body: &[u8; 12]) -> Option<usize> {
        let start = i32::from(i16::from_le_bytes([body[10], body[11]]));
        let most_step = if body[0] == 2 { 1 } else { 2 };
        let kept = [
            (0, (1..=2).contains(&body[0])),
            (1, (1..=most_step).contains(&body[1])),
            (2, body[2] <= 1),
            (3, body[3] <= 1),
            (4, (1..=6).contains(&body[4])),
            (5, (1..=15).contains(&body[5])),
            (6, body[6] <= 15 && (body[5] == 15 || body[6] == 15)),
            (7, (1..=6).contains(&body[7])),
            (8, (-50..=33).contains(&(body[8] as i8))),
            (9, body[9] == 0),
            (10, (LOWEST_POWER..=HIGHEST_START).contains(&start)),
        ];
        kept.iter().find(|rule| !rule.1).map(|rule| rule.0)
    }

    /// The step in units, 64 or 128.
    pub fn step_units(&self) -> i32 {
        64 * i32::from(self.step)
    }

    /// The recovery step: for PCA 1 the least of 192 and twice the step, for
    /// PCA 2 it is 64.
    pub fn recovery_step(&self) -> i32 {
        if self.algorithm == 1 {
            192.min(2 * self.step_units())
        } else {
            64
        }
    }
}
