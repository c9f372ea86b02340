//! The calls into the archive that write bytes: a job file, and the bodies that it is made of.
use crate::call::taken;
use crate::{Gain, Gap, Refusal, Settings};

extern "C" {
    fn uplink_write(
        kind: u8,
        settings: *const u8,
        settings_len: usize,
        records: *const u8,
        records_len: usize,
        rows: *const u8,
        rows_len: usize,
        file: *mut u8,
        file_len: usize,
        size: *mut usize,
        place: *mut usize,
    ) -> u8;
    fn uplink_settings_bytes(
        pca: u8,
        step: u8,
        itp: u8,
        rpp: u8,
        links: u8,
        betac: u8,
        betad: u8,
        channels: u8,
        maximum: i8,
        start: i32,
        bytes: *mut u8,
        bytes_len: usize,
        place: *mut usize,
    ) -> u8;
    fn uplink_record_bytes(
        id: u8,
        direction: u8,
        tgsn: u8,
        tgl1: u8,
        tgl2: u8,
        tgpl: u8,
        tgprc: u16,
        tgd: u16,
        start: u16,
        bytes: *mut u8,
        bytes_len: usize,
        place: *mut usize,
    ) -> u8;
}

/// How many bytes the settings of a job have.
pub const SETTINGS_BYTES: usize = 12;

/// How many bytes a gap record has.
pub const RECORD_BYTES: usize = 12;

/// Writes the job file that three parts make, and gives how many bytes it has. The kind is its byte 0: 1 for a job as
/// [`load`](crate::load) takes it. What `load` would refuse is refused here with the same number and place, 1 to 7;
/// then comes 12 if fewer bytes are lent than the file has, at that many. A refusal leaves the lent bytes as they were.
/// Bytes after the file stay. Rows are not judged: what a run refuses with 8 or 9 is written.
pub fn write(
    kind: u8,
    settings: &[u8],
    records: &[u8],
    rows: &[u8],
    file: &mut [u8],
) -> Result<usize, Refusal> {
    let (mut size, mut place) = (0, 0);
    // SAFETY: the pointers and lengths are those of slices; the file is lent for writing, and no part can overlap it;
    // `size` and `place` are numbers of their own.
    let number = unsafe {
        uplink_write(
            kind,
            settings.as_ptr(),
            settings.len(),
            records.as_ptr(),
            records.len(),
            rows.as_ptr(),
            rows.len(),
            file.as_mut_ptr(),
            file.len(),
            &mut size,
            &mut place,
        )
    };
    taken(number, place).map(|()| size)
}

/// How many bytes [`write()`] writes for these parts.
pub fn bytes_needed(
    kind: u8,
    settings: &[u8],
    records: &[u8],
    rows: &[u8],
) -> Result<usize, Refusal> {
    match write(kind, settings, records, rows, &mut []) {
        Err(Refusal { number: 12, place }) => Ok(place),
        answer => answer,
    }
}

/// The twelve bytes of a job's settings. The numbers are not judged: a file with bytes that break a rule is refused
/// when it is written or loaded. A start power that two bytes do not hold becomes the nearest that they hold, which is
/// out of range too.
pub fn settings_bytes(settings: Settings, gain: Gain) -> [u8; SETTINGS_BYTES] {
    let mut bytes = [0; SETTINGS_BYTES];
    lend_to_settings(settings, gain, &mut bytes).expect("no refusal but of fewer bytes");
    bytes
}

/// The twelve bytes of a gap record. Its numbers are not judged either.
pub fn record_bytes(gap: Gap) -> [u8; RECORD_BYTES] {
    let mut bytes = [0; RECORD_BYTES];
    lend_to_record(gap, &mut bytes).expect("no refusal but of fewer bytes");
    bytes
}

/// Lends bytes for those of settings; bytes after these stay. Fewer than twelve are left as they were, and refused with
/// 12 at 12.
fn lend_to_settings(settings: Settings, gain: Gain, bytes: &mut [u8]) -> Result<(), Refusal> {
    let mut place = 0;
    // SAFETY: the bytes are a slice that is lent for writing; `place` is a number of its own.
    let number = unsafe {
        uplink_settings_bytes(
            settings.pca,
            settings.step,
            settings.itp,
            settings.rpp,
            settings.links,
            gain.betac,
            gain.betad,
            gain.channels,
            settings.maximum,
            settings.start,
            bytes.as_mut_ptr(),
            bytes.len(),
            &mut place,
        )
    };
    taken(number, place)
}

/// The same for a gap record.
fn lend_to_record(gap: Gap, bytes: &mut [u8]) -> Result<(), Refusal> {
    let mut place = 0;
    // SAFETY: as in `lend_to_settings`.
    let number = unsafe {
        uplink_record_bytes(
            gap.id,
            gap.direction as u8,
            gap.tgsn,
            gap.tgl1,
            gap.tgl2,
            gap.tgpl,
            gap.tgprc,
            gap.tgd,
            gap.start_frame,
            bytes.as_mut_ptr(),
            bytes.len(),
            &mut place,
        )
    };
    taken(number, place)
}

#[cfg(test)]
mod tests {
    use super::*;
    use crate::Direction;

    const UNTOUCHED: u8 = 0xa5;

    /// Twelve bytes or more take these, and the rest stays; fewer take none.
    fn hold(twelve: [u8; 12], lend: impl Fn(&mut [u8]) -> Result<(), Refusal>) {
        for lent in 0..12 {
            let mut bytes = vec![UNTOUCHED; lent];
            let refusal = lend(&mut bytes).unwrap_err();
            assert_eq!(refusal.to_string(), "refused 12 at 12");
            assert_eq!(bytes, vec![UNTOUCHED; lent]);
        }
        for more in [0, 1, 30] {
            let mut bytes = vec![UNTOUCHED; 12 + more];
            assert_eq!(lend(&mut bytes), Ok(()));
            assert_eq!(bytes[..12], twelve);
            assert_eq!(bytes[12..], vec![UNTOUCHED; more]);
        }
    }

    #[test]
    fn lent_bytes_hold_settings() {
        let settings = Settings {
            pca: 1,
            step: 2,
            itp: 3,
            rpp: 4,
            links: 5,
            maximum: 9,
            start: 0x0b0a,
        };
        let gain = Gain {
            betac: 6,
            betad: 7,
            channels: 8,
        };
        let bytes = [1, 2, 3, 4, 5, 6, 7, 8, 9, 0, 10, 11];
        hold(bytes, |lent| lend_to_settings(settings, gain, lent));
    }

    #[test]
    fn lent_bytes_hold_a_record() {
        let gap = Gap {
            id: 1,
            direction: Direction::Downlink,
            tgsn: 3,
            tgl1: 4,
            tgl2: 5,
            tgpl: 6,
            tgprc: 0x0807,
            tgd: 0x0a09,
            start_frame: 0x0c0b,
        };
        let bytes = [1, 2, 3, 4, 5, 6, 7, 8, 9, 10, 11, 12];
        hold(bytes, |lent| lend_to_record(gap, lent));
    }
}
