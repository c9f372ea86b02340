//! Lines that cannot be read, and the number of the first one.

use crate::tests::texts::OPENING;
use crate::{compose, Composed, Reason};

/// The first line of a text that cannot be read, and why; none where there is
/// no such line. The lent bytes stay.
fn unreadable(text: &str) -> Option<(usize, Reason)> {
    let mut lent = [4; 200];
    match compose(text.as_bytes(), &mut lent) {
        Composed::Unreadable(line, reason) => {
            assert_eq!(lent, [4; 200]);
            Some((line, reason))
        }
        _ => None,
    }
}

/// The same, for lines after settings and gain, which are lines 1 and 2.
fn after_opening(rest: &str) -> Option<(usize, Reason)> {
    unreadable(&format!("{OPENING}{rest}"))
}

/// The same, where the text may also end before it has all its lines.
fn fault(text: &str) -> Option<(usize, Reason)> {
    unreadable(text).filter(|told| told.1 != Reason::Missing)
}

/// A text with settings and gain has all that it needs.
#[test]
fn a_missing_line_is_the_one_after_the_last() {
    for (text, line) in [
        ("", 1),
        ("\n", 2),
        ("# nothing", 2),
        ("\n\n \n", 4),
        ("settings 1 1 0 0 1 24 1280", 2),
        ("settings 1 1 0 0 1 24 1280\n", 2),
        ("settings 1 1 0 0 1 24 1280\r\n\r\n#", 4),
    ] {
        assert_eq!(unreadable(text), Some((line, Reason::Missing)), "{text:?}");
    }
    assert_eq!(after_opening(""), None);
}

#[test]
fn lines_have_their_order() {
    for (text, line) in [
        ("gain 15 15 1\n", 1),
        ("\nrow 1 6\n", 2),
        (
            "settings 1 1 0 0 1 24 1280\nsettings 1 1 0 0 1 24 1280\n",
            2,
        ),
        ("settings 1 1 0 0 1 24 1280\ngap 1 1 0 1 0 1 0 0 0\n", 2),
        ("settings 1 1 0 0 1 24 1280\n#\n\nrows 0 1 6\n", 4),
    ] {
        assert_eq!(
            unreadable(text),
            Some((line, Reason::OutOfOrder)),
            "{text:?}"
        );
    }
    for (rest, line) in [
        ("gain 15 15 1", 3),
        ("settings 1 1 0 0 1 24 1280", 3),
        ("gap 1 1 0 1 0 1 0 0 0\ngain 15 15 1", 4),
        ("row 1 6\ngap 1 1 0 1 0 1 0 0 0", 4),
        ("rows 0 1 6\ngap 1 1 0 1 0 1 0 0 0", 4),
        ("row 1 6\n\nrow 1 6\nsettings 1 1 0 0 1 24 1280", 6),
    ] {
        assert_eq!(
            after_opening(rest),
            Some((line, Reason::OutOfOrder)),
            "{rest:?}"
        );
    }
    assert_eq!(
        after_opening("gap 1 1 0 1 0 1 0 0 0\nrows 0 1 6\nrow 1 6\nrows 1 1 6"),
        None
    );
}

#[test]
fn as_many_numbers_as_the_line_needs() {
    for (line, needed) in [
        ("settings", 7),
        ("gain", 3),
        ("gap", 9),
        ("row", 2),
        ("rows", 3),
    ] {
        let before = match line {
            "settings" => "",
            "gain" => "settings 1 1 0 0 1 24 1280\n",
            _ => OPENING,
        };
        let number = before.lines().count() + 1;
        for (count, reason) in [
            (0, Some(Reason::TooFewNumbers)),
            (needed - 1, Some(Reason::TooFewNumbers)),
            (needed, None),
            (needed + 1, Some(Reason::TooManyNumbers)),
        ] {
            let text = format!("{before}{line}{}\n", " 1".repeat(count));
            let expected = reason.map(|reason| (number, reason));
            assert_eq!(fault(&text), expected, "{text:?}");
        }
    }
}

#[test]
fn words_that_are_no_numbers() {
    for word in [
        "+1", "-", "--1", "1-", "1x", "x", "0x1", "1.0", "1,", "1\u{b}", "1\u{c}6", "\u{a0}1",
        "1\u{0}", "\u{661}",
    ] {
        let rest = format!("row 1 6\nrow {word} 6\nrow 1 6");
        assert_eq!(
            after_opening(&rest),
            Some((4, Reason::NotANumber)),
            "{word:?}"
        );
    }
    for word in [
        "0000000001",
        "1234567890",
        "-0000000000",
        "99999999999999999999",
    ] {
        let rest = format!("rows {word} 1 6");
        assert_eq!(
            after_opening(&rest),
            Some((3, Reason::TooManyDigits)),
            "{word:?}"
        );
    }
    assert_eq!(after_opening("rows 000000001 1 6"), None);
}

#[test]
fn words_that_are_unknown() {
    for line in [
        "Row 1 6",
        "ROW 1 6",
        "ro 1 6",
        "rowss 1 1 6",
        "gaps 1",
        "gai#n",
        "6 1",
        "row, 1 6",
        "\u{b}row 1 6",
        "-",
        "\u{0}",
        "row\u{c}1 6",
        "\u{feff}row 1 6",
    ] {
        let rest = format!("{line}\nrow 1 6");
        assert_eq!(
            after_opening(&rest),
            Some((3, Reason::UnknownWord)),
            "{line:?}"
        );
    }
}

/// Each number at the ends of what its bytes hold, and one beyond.
#[test]
fn numbers_that_do_not_fit() {
    let settings = [
        (0, 255),
        (0, 255),
        (0, 255),
        (0, 255),
        (0, 255),
        (-128, 127),
        (-32_768, 32_767),
    ];
    let gap = [[(0, 255); 6].as_slice(), &[(0, 65_535); 3]].concat();
    for (line, before, ranges) in [
        ("settings", "", settings.as_slice()),
        ("gain", "settings 1 1 0 0 1 24 1280\n", &[(0, 255); 3]),
        ("gap", OPENING, &gap),
        ("row", OPENING, &[(0, 255); 2]),
        ("rows", OPENING, &[(0, 999_999_999), (0, 255), (0, 255)]),
    ] {
        for (at, &(low, high)) in ranges.iter().enumerate() {
            for (number, fits) in [
                (low, true),
                (low - 1, false),
                (high, true),
                (high + 1, false),
            ] {
                let mut words = vec!["1".to_string(); ranges.len()];
                words[at] = number.to_string();
                let text = format!("{before}{line} {}\n", words.join(" "));
                let reason = match number {
                    1_000_000_000 => Reason::TooManyDigits,
                    _ => Reason::OutOfRange,
                };
                let expected = (before.lines().count() + 1, reason);
                assert_eq!(fault(&text), (!fits).then_some(expected), "{text:?}");
            }
        }
    }
}

#[test]
fn carriage_returns_elsewhere() {
    for (rest, line) in [
        ("row 1 6\r", 3),
        ("row 1 6\r\r\n", 3),
        ("row\r1 6\n", 3),
        ("\rrow 1 6\n", 3),
        ("row 1 6 # a\rb\n", 3),
        ("row 1 6 \r \n", 3),
        ("\r", 3),
        ("#\r", 3),
        ("\r\n\r\r\nx", 4),
    ] {
        assert_eq!(
            after_opening(rest),
            Some((line, Reason::CarriageReturn)),
            "{rest:?}"
        );
    }
    for rest in ["row 1 6\r\n", "# a\r\n", "\r\n", "row 1 6 \r\n# b"] {
        assert_eq!(after_opening(rest), None, "{rest:?}");
    }
}

/// Whatever the parts are, the first line that cannot be read comes before.
#[test]
fn the_first_line_comes_before_any_refusal() {
    let rest = "gap 0 0 0 0 0 0 0 0 0\nrows 999999999 1 6\nrow 1\nrow 256 6\n";
    assert_eq!(after_opening(rest), Some((5, Reason::TooFewNumbers)));
    assert_eq!(
        unreadable("settings 0 0 0 0 0 0 0\nx\ny"),
        Some((2, Reason::UnknownWord))
    );
    assert_eq!(after_opening("row 256 6"), Some((3, Reason::OutOfRange)));
    assert_eq!(after_opening("row 255 6"), None);
}
