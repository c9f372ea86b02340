//! A job, built from its numbers.
use crate::write::{bytes_needed, record_bytes, settings_bytes, write};
use crate::{Refusal, RECORD_BYTES};
use std::iter;

/// The kind of file that is built: byte 0.
const KIND: u8 = 1;

/// A job file has no more bytes.
const MOST_BYTES: usize = 65_536;

/// The settings of a job but for its gain. The ranges are the page's; the library refuses what is outside, with 3.
#[derive(Clone, Copy, Debug, PartialEq, Eq, Hash)]
pub struct Settings {
    /// Algorithm of the command, 1 or 2.
    pub pca: u8,
    /// In dB: 1 or 2, only 1 with PCA 2.
    pub step: u8,
    /// The resume change: 0 by the step, 1 by the filter.
    pub itp: u8,
    /// After a gap: 1 for algorithm 1 and the recovery step, else 0.
    pub rpp: u8,
    /// Radio link sets, 1 to 6.
    pub links: u8,
    /// Allowed maximum in dBm, -50 to 33.
    pub maximum: i8,
    /// Control power of the first row in units of 1/64 dB, -9,600 to 2,112.
    pub start: i32,
}

/// The gain factors of control and data, and how many data channels there are. 0 in all of them is no gain.
#[derive(Clone, Copy, Debug, Default, PartialEq, Eq, Hash)]
pub struct Gain {
    /// βc, 1 to 15.
    pub betac: u8,
    /// βd, 0 to 15; βc or βd is 15.
    pub betad: u8,
    /// DPDCH count, 1 to 6.
    pub channels: u8,
}

/// In which direction a gap sequence opens its gaps.
#[derive(Clone, Copy, Debug, PartialEq, Eq, Hash)]
pub enum Direction {
    Uplink = 1,
    Downlink = 2,
    Both = 3,
}

/// A gap sequence. The ranges are the page's; the library refuses what is outside, with 5.
#[derive(Clone, Copy, Debug, PartialEq, Eq, Hash)]
pub struct Gap {
    /// 1 to 6, each once in a job.
    pub id: u8,
    pub direction: Direction,
    /// Slot of the pattern where the first gap begins, 0 to 14.
    pub tgsn: u8,
    /// Slots of the first gap, 1 to 14.
    pub tgl1: u8,
    /// Slots of the second gap, 0 to 14; 0 for none.
    pub tgl2: u8,
    /// Frames of the pattern, 1 to 144.
    pub tgpl: u8,
    /// How often the pattern comes, 0 to 511; 0 for no end.
    pub tgprc: u16,
    /// Slots from the first gap's begin to the second's, 15 to 269; 0 where there is no second gap.
    pub tgd: u16,
    /// Frame where the sequence begins.
    pub start_frame: u16,
}

/// Builds a job file from numbers. They are judged by the library alone, in [`build`](JobBuilder::build).
///
/// ```
/// use uplink::{Direction, Gain, Gap, JobBuilder, Settings};
///
/// let settings = Settings { pca: 1, step: 1, itp: 0, rpp: 0, links: 1, maximum: 24, start: 1_280 };
/// let gain = Gain { betac: 15, betad: 15, channels: 1 };
/// let gap = Gap {
///     id: 1,
///     direction: Direction::Both,
///     tgsn: 7,
///     tgl1: 3,
///     tgl2: 0,
///     tgpl: 4,
///     tgprc: 0,
///     tgd: 0,
///     start_frame: 0,
/// };
/// let job = JobBuilder::new(settings)
///     .gain(gain)
///     .gap(gap)
///     .rows(7, 1, 6) // seven times up, with 6 pilot bits
///     .rows(3, 0, 0) // the gap
///     .row(0, 6)
///     .build()?;
///
/// let mut numbers = vec![0; uplink::numbers_needed(&job)?];
/// let rows = uplink::run(&job, &mut numbers)?;
/// let answers: Vec<_> = uplink::answers(&numbers, rows).collect();
/// assert_eq!(rows, 11);
/// assert_eq!((answers[0].dpcch, answers[6].dpcch), (1_280, 1_343));
/// assert_eq!(answers[7].by().to_string(), "1");
/// # Ok::<(), uplink::Refusal>(())
/// ```
#[derive(Clone, Debug)]
#[must_use = "`build` makes the job"]
pub struct JobBuilder {
    settings: Settings,
    gain: Gain,
    gaps: Vec<Gap>,
    rows: Vec<[u8; 2]>,
}

impl JobBuilder {
    /// A job with these settings, and so far without a gain, gaps and rows.
    pub fn new(settings: Settings) -> JobBuilder {
        JobBuilder {
            settings,
            gain: Gain::default(),
            gaps: Vec::new(),
            rows: Vec::new(),
        }
    }

    /// The gain of the job. The last one holds; a job without any is refused with 3 at 5.
    pub fn gain(&mut self, gain: Gain) -> &mut JobBuilder {
        self.gain = gain;
        self
    }

    /// One more gap sequence. As with rows, no more are kept than make a file too long.
    pub fn gap(&mut self, gap: Gap) -> &mut JobBuilder {
        if self.gaps.len() <= MOST_BYTES / RECORD_BYTES {
            self.gaps.push(gap);
        }
        self
    }

    /// One more row: its commands, one bit for each link set from the lowest up, and its pilot bits. Both are 0 where a
    /// gap of their direction wants it: commands in a gap of the downlink, pilot bits in one of the uplink.
    pub fn row(&mut self, commands: u8, pilots: u8) -> &mut JobBuilder {
        self.rows(1, commands, pilots)
    }

    /// So many more rows, all alike. However many, a builder takes little memory: once the rows alone have more bytes
    /// than a file may have, the file is refused with 1 at 0 whatever follows, and no more of them are kept.
    pub fn rows(&mut self, count: usize, commands: u8, pilots: u8) -> &mut JobBuilder {
        let left = (MOST_BYTES / 2 + 1).saturating_sub(self.rows.len());
        self.rows
            .extend(iter::repeat_n([commands, pilots], count.min(left)));
        self
    }

    /// The bytes of the job file, or why the library refuses it: 1 to 7, as [`load`](crate::load) would.
    pub fn build(&self) -> Result<Vec<u8>, Refusal> {
        let settings = settings_bytes(self.settings, self.gain);
        let records: Vec<_> = self.gaps.iter().copied().map(record_bytes).collect();
        let (records, rows) = (records.as_flattened(), self.rows.as_flattened());
        let mut file = vec![0; bytes_needed(KIND, &settings, records, rows)?];
        write(KIND, &settings, records, rows, &mut file)?;
        Ok(file)
    }
}
