//! The bytes of settings and of a gap record, to the ends of their ranges.
use uplink::{record_bytes, settings_bytes, Direction, Gain, Gap, Settings};

#[test]
fn settings() {
    let settings = Settings {
        pca: 1,
        step: 2,
        itp: 3,
        rpp: 4,
        links: 5,
        maximum: 9,
        start: 0x0b0a,
    };
    let gain = Gain {
        betac: 6,
        betad: 7,
        channels: 8,
    };
    let bytes = [1, 2, 3, 4, 5, 6, 7, 8, 9, 0, 0x0a, 0x0b];
    assert_eq!(settings_bytes(settings, gain), bytes);
    let most = Settings {
        pca: 255,
        step: 255,
        itp: 255,
        rpp: 255,
        links: 255,
        maximum: -1,
        start: -1,
    };
    let gain = Gain {
        betac: 255,
        betad: 255,
        channels: 255,
    };
    let bytes = [255, 255, 255, 255, 255, 255, 255, 255, 255, 0, 255, 255];
    assert_eq!(settings_bytes(most, gain), bytes);
}

/// Each number has its own bytes. A start power that two bytes do not hold is the nearest that they hold.
#[test]
fn signed_settings() {
    let none = Settings {
        pca: 0,
        step: 0,
        itp: 0,
        rpp: 0,
        links: 0,
        maximum: 0,
        start: 0,
    };
    for maximum in [-128, -51, -50, 33, 34, 127] {
        let mut bytes = [0; 12];
        bytes[8] = maximum as u8;
        let settings = Settings { maximum, ..none };
        assert_eq!(settings_bytes(settings, Gain::default()), bytes);
    }
    for (start, low, high) in [
        (0, 0x00, 0x00),
        (1_280, 0x00, 0x05),
        (2_112, 0x40, 0x08),
        (-9_600, 0x80, 0xda),
        (32_767, 0xff, 0x7f),
        (32_768, 0xff, 0x7f),
        (65_536, 0xff, 0x7f),
        (i32::MAX, 0xff, 0x7f),
        (-32_768, 0x00, 0x80),
        (-32_769, 0x00, 0x80),
        (-65_536, 0x00, 0x80),
        (i32::MIN, 0x00, 0x80),
    ] {
        let mut bytes = [0; 12];
        bytes[10..].copy_from_slice(&[low, high]);
        let settings = Settings { start, ..none };
        assert_eq!(settings_bytes(settings, Gain::default()), bytes);
    }
}

#[test]
fn records() {
    let gap = Gap {
        id: 1,
        direction: Direction::Downlink,
        tgsn: 3,
        tgl1: 4,
        tgl2: 5,
        tgpl: 6,
        tgprc: 0x0807,
        tgd: 0x0a09,
        start_frame: 0x0c0b,
    };
    let bytes = [1, 2, 3, 4, 5, 6, 7, 8, 9, 10, 11, 12];
    assert_eq!(record_bytes(gap), bytes);
    for (direction, byte) in [(Direction::Uplink, 1), (Direction::Both, 3)] {
        let mut bytes = bytes;
        bytes[1] = byte;
        assert_eq!(record_bytes(Gap { direction, ..gap }), bytes);
    }
    for (byte, two) in [(0, 0), (255, 65_535)] {
        let gap = Gap {
            id: byte,
            tgsn: byte,
            tgl1: byte,
            tgl2: byte,
            tgpl: byte,
            tgprc: two,
            tgd: two,
            start_frame: two,
            ..gap
        };
        let mut bytes = [byte; 12];
        bytes[1] = 2;
        assert_eq!(record_bytes(gap), bytes);
    }
}
