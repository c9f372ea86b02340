//! That the comparison would tell wrong programs, each in several blocks.

use second::{compose, Composed, Refusal};

use crate::subject::Scope;
use crate::written::answer::{before, composed};
use crate::written::generator::block;
use crate::written::{Block, Given, Parts};

const BLOCKS: u64 = 5_000;

/// What becomes of a block: the outcome and the lent bytes.
type Told = (Composed, Vec<u8>);

fn right(block: &Block) -> Told {
    let mut lent = before(block.lent as usize);
    (composed(&block.given, &mut lent), lent)
}

fn refused(number: u32, place: usize) -> Composed {
    Composed::Refused(Refusal::new(number, place as u32))
}

/// A writer whose file, refusal or buffer differs.
type Writer = fn(&Block, &mut Told);

const WRITERS: [(&str, Writer); 12] = [
    ("48 bytes of records at most", |block, told| {
        if let Given::Parts(parts) = &block.given {
            let count = parts.records.len() / 12;
            if count > 4 && matches!(told.0, Composed::Written(_)) {
                *told = (refused(4, count), before(block.lent as usize));
            }
        }
    }),
    ("an offset one less", |_, told| {
        if let Composed::Written(_) = told.0 {
            told.1[21] = told.1[21].wrapping_sub(1);
        }
    }),
    ("a length with its high byte first", |_, told| {
        if let Composed::Written(_) = told.0 {
            told.1[25..29].reverse();
        }
    }),
    ("12 before 7", |block, told| {
        if told.0 == refused(7, 30_000) && block.lent < 60_043 {
            told.0 = refused(12, 60_043);
        }
    }),
    ("12 at the bytes lacking", |block, told| {
        if let Composed::Refused(Refusal { number: 12, place }) = told.0 {
            told.0 = refused(12, (place - block.lent) as usize);
        }
    }),
    ("the header written before a refusal", |_, told| {
        if matches!(told.0, Composed::Refused(_)) && told.1.len() >= 2 {
            told.1[..2].copy_from_slice(&[1, 3]);
        }
    }),
    ("a byte past the file", |_, told| {
        if let Composed::Written(size) = told.0 {
            told.1[size..].iter_mut().take(1).for_each(|byte| *byte = 0);
        }
    }),
    ("bytes past the file cleared", |_, told| {
        if let Composed::Written(size) = told.0 {
            told.1[size..].fill(0);
        }
    }),
    ("any kind taken", |block, told| {
        if let Given::Parts(parts) = &block.given {
            let mut block = block.clone();
            block.given = Given::Parts(Parts {
                kind: 1,
                ..parts.clone()
            });
            *told = right(&block);
        }
    }),
    ("the kind before the size", |block, told| {
        match &block.given {
            Given::Parts(parts) if parts.kind != 1 => told.0 = refused(2, 0),
            _ => {}
        }
    }),
    ("rows judged", |block, told| {
        if let Composed::Written(size) = told.0 {
            let rows = second::load(&told.1[..size]).unwrap();
            if let Some(row) = rows.rows().iter().position(|row| row[1] > 8) {
                *told = (refused(8, row), before(block.lent as usize));
            }
        }
    }),
    ("nothing lent is enough for nothing", |block, told| {
        if block.lent == 0 && matches!(told.0, Composed::Refused(_)) {
            told.0 = Composed::Written(0);
        }
    }),
];

/// A reader of texts who takes another text for this one.
type Reader = fn(&[u8]) -> Vec<u8>;

fn replaced(text: &[u8], from: &str, to: u8) -> Vec<u8> {
    let other = |&byte: &u8| {
        if from.as_bytes().contains(&byte) {
            to
        } else {
            byte
        }
    };
    text.iter().map(other).collect()
}

fn without(text: &[u8], left_out: &str) -> Vec<u8> {
    let stays = |byte: &u8| !left_out.as_bytes().contains(byte);
    text.iter().copied().filter(stays).collect()
}

/// The lines of a text, each changed as a whole.
fn by_lines(text: &[u8], change: impl Fn(&str) -> String) -> Vec<u8> {
    let text = String::from_utf8_lossy(text);
    let lines: Vec<String> = text.split('\n').map(change).collect();
    lines.join("\n").into_bytes()
}

/// The words of a line, each number changed.
fn by_numbers(line: &str, change: impl Fn(i64) -> i64) -> String {
    let other = |word: &str| match word.parse::<i64>() {
        Ok(number) if !word.starts_with('+') => change(number).to_string(),
        _ => word.to_string(),
    };
    line.split(' ')
        .map(other)
        .collect::<Vec<String>>()
        .join(" ")
}

const READERS: [(&str, Reader); 11] = [
    ("carriage returns skipped", |text| without(text, "\r")),
    ("plus signs taken", |text| without(text, "+")),
    ("upper case taken", |text| text.to_ascii_lowercase()),
    ("other bytes for spaces", |text| {
        replaced(text, "\u{b}\u{c}\0\r", b' ')
    }),
    ("comments are words", |text| replaced(text, "#", b'x')),
    ("a last line without a line feed left out", |text| {
        let end = text
            .iter()
            .rposition(|&byte| byte == b'\n')
            .map_or(0, |at| at + 1);
        text[..end].to_vec()
    }),
    ("bytes wrap", |text| {
        let of_bytes = |line: &str| line.starts_with("row ") || line.starts_with("gain ");
        by_lines(text, |line| match of_bytes(line) {
            true => by_numbers(line, |number| number.rem_euclid(256)),
            false => line.to_string(),
        })
    }),
    ("any number of digits", |text| {
        by_lines(text, |line| by_numbers(line, |number| number))
    }),
    ("no rows are no line", |text| {
        by_lines(text, |line| match line.starts_with("rows 0 ") {
            true => String::new(),
            false => line.to_string(),
        })
    }),
    ("numbers left over are skipped", |text| {
        by_lines(text, |line| match line.strip_prefix("row ") {
            Some(rest) => {
                "row ".to_string() + &rest.split(' ').take(2).collect::<Vec<_>>().join(" ")
            }
            None => line.to_string(),
        })
    }),
    ("lines without a word not counted", |text| {
        let text = String::from_utf8_lossy(text);
        let lines = text.split('\n').filter(|line| !line.trim().is_empty());
        lines.collect::<Vec<_>>().join("\n").into_bytes()
    }),
];

/// How a text is told from another, without the reason.
fn shown(composed: Composed) -> String {
    match composed {
        Composed::Unreadable(line, _) => format!("line {line}"),
        other => format!("{other:?}"),
    }
}

#[test]
fn every_wrong_writer_differs_in_several_blocks() {
    let mut differing = WRITERS.map(|(name, _)| (name, 0));
    for number in 0..BLOCKS {
        let block = block(1, number, Scope::Any);
        let right = right(&block);
        for ((_, writer), (_, count)) in WRITERS.iter().zip(&mut differing) {
            let mut told = right.clone();
            writer(&block, &mut told);
            *count += u32::from(told != right);
        }
    }
    assert!(
        differing.iter().all(|&(_, count)| count > 4),
        "{differing:?}"
    );
}

#[test]
fn every_wrong_reader_differs_in_several_blocks() {
    let mut differing = READERS.map(|(name, _)| (name, 0));
    for number in 0..BLOCKS {
        let Given::Text(text) = block(1, number, Scope::Any).given else {
            continue;
        };
        let right = shown(compose(&text, &mut []));
        for ((_, reader), (_, count)) in READERS.iter().zip(&mut differing) {
            *count += u32::from(shown(compose(&reader(&text), &mut [])) != right);
        }
    }
    assert!(
        differing.iter().all(|&(_, count)| count > 9),
        "{differing:?}"
    );
}
