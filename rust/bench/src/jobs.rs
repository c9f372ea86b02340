//! The jobs that are timed, 30,000 rows each: without gaps or with six dense sequences, by both algorithms and both kinds
//! of resume change; and six sequences at both ends, with few gaps and with little else.
use std::fmt;

pub const ROWS: usize = 30_000;

/// How many slots of a job are gap slots.
#[derive(Clone, Copy, PartialEq)]
pub enum Gaps {
    None,
    Dense,
    Few,
    NearlyAll,
}

pub struct Kind {
    pub gaps: Gaps,
    pub algorithm: u8,
    pub itp: u8,
}

pub fn kinds() -> Vec<Kind> {
    let mut kinds = Vec::new();
    for gaps in [Gaps::None, Gaps::Dense] {
        for algorithm in [1, 2] {
            for itp in [0, 1] {
                kinds.push(Kind {
                    gaps,
                    algorithm,
                    itp,
                });
            }
        }
    }
    for gaps in [Gaps::Few, Gaps::NearlyAll] {
        kinds.push(Kind {
            gaps,
            algorithm: 1,
            itp: 0,
        });
    }
    kinds
}

impl fmt::Display for Kind {
    fn fmt(&self, f: &mut fmt::Formatter<'_>) -> fmt::Result {
        let gaps = match self.gaps {
            Gaps::None => "no gaps",
            Gaps::Dense => "six dense sequences",
            Gaps::Few => "six sequences, few gaps",
            Gaps::NearlyAll => "six sequences, nearly all gaps",
        };
        // the last two kinds have one algorithm and one ITP, and their names fill the column
        match self.gaps {
            Gaps::None | Gaps::Dense => {
                write!(f, "{gaps}, algorithm {}, ITP {}", self.algorithm, self.itp)
            }
            Gaps::Few | Gaps::NearlyAll => f.write_str(gaps),
        }
    }
}

impl Kind {
    pub fn job(&self) -> Vec<u8> {
        let rows = self.rows(&file(&self.settings(), &self.records(), &[]));
        file(&self.settings(), &self.records(), &rows)
    }

    /// Step 1 dB, RPP 1, two link sets, both gain factors, 24 dBm, and a start power in the middle of the range.
    fn settings(&self) -> Vec<u8> {
        let mut settings = vec![self.algorithm, 1, self.itp, 1, 2, 15, 10, 1, 24, 0];
        settings.extend((-3_000i16).to_le_bytes());
        settings
    }

    /// Six sequences, in all directions.
    fn records(&self) -> Vec<u8> {
        (1..=6).flat_map(|id| self.record(id)).collect()
    }

    fn record(&self, id: u8) -> Vec<u8> {
        // TGSN, TGL1 and TGPL
        let [begins, length, frames] = match self.gaps {
            Gaps::None => return Vec::new(),
            // one slot in every frame or in every second one
            Gaps::Dense => [2 * id, 1, 1 + id % 2],
            // one slot in 144 frames: there are records, and nearly every row is without a gap
            Gaps::Few => [2 * id, 1, 144],
            // 13 or 14 slots of every frame: only its last slot is sent, and all six ids share 13
            Gaps::NearlyAll => [id % 2, 14 - id % 2, 1],
        };
        vec![id, 1 + id % 3, begins, length, 0, frames, 0, 0, 0, 0, id, 0]
    }

    /// Commands mostly up for a hundred rows, then mostly down for a hundred; pilots drawn. Bytes are 0 where a gap wants it.
    fn rows(&self, empty: &[u8]) -> Vec<u8> {
        let mut drawn = 12_345u64;
        let mut rows = Vec::with_capacity(2 * ROWS);
        for k in 0..ROWS as u32 {
            drawn = drawn
                .wrapping_mul(6_364_136_223_846_793_005)
                .wrapping_add(1_442_695_040_888_963_407);
            let slot = uplink::slot(empty, k).expect("a job without rows is taken");
            rows.push(if slot.downlink_gap() {
                0
            } else {
                self.commands(k / 100 % 2 == 0, drawn)
            });
            rows.push(if slot.uplink_gap() {
                0
            } else {
                3 + (drawn >> 40) as u8 % 6
            });
        }
        rows
    }

    fn commands(&self, up: bool, drawn: u64) -> u8 {
        let sixteenth = drawn >> 60;
        match (self.algorithm, up) {
            (2, true) => 3,
            (2, false) => (drawn >> 50) as u8 & 3,
            (_, true) => {
                if sixteenth < 14 {
                    3
                } else {
                    1
                }
            }
            (_, false) => {
                if sixteenth < 11 {
                    0
                } else {
                    3
                }
            }
        }
    }
}

/// A job file: the contents, then the three bodies.
fn file(settings: &[u8], records: &[u8], rows: &[u8]) -> Vec<u8> {
    let mut file = vec![1, 3];
    let mut at = 29u32;
    for (kind, body) in [(1, settings), (2, records), (3, rows)] {
        file.push(kind);
        file.extend(at.to_le_bytes());
        file.extend((body.len() as u32).to_le_bytes());
        at += body.len() as u32;
    }
    file.extend([settings, records, rows].concat());
    file
}
