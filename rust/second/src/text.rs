//! The text of a job, and the file that it makes (W-202).
//!
//! The text is split into the list of its lines, and each line that has a word
//! is read by itself. Then the whole list of what they say is judged for its
//! order. The first line that cannot be read or is out of its order decides.

use std::iter::{repeat, repeat_n};
use std::ops::RangeInclusive;

use crate::write::write;
use crate::{Refusal, MOST_BYTES};

/// The most bytes of a text.
pub const MOST_TEXT: usize = 1_048_576;

/// What becomes of a text.
#[derive(Clone, Copy, PartialEq, Eq, Debug)]
pub enum Composed {
    /// The job is written and has so many bytes.
    Written(usize),
    Refused(Refusal),
    /// The first line, from 1, that cannot be read.
    Unreadable(usize, Reason),
    TooLong,
}

/// Why a line cannot be read. Of several reasons it is the first of this list.
#[derive(Clone, Copy, PartialEq, Eq, PartialOrd, Ord, Debug)]
pub enum Reason {
    /// A carriage return that is not the last byte before the line feed.
    CarriageReturn,
    UnknownWord,
    TooFewNumbers,
    TooManyNumbers,
    NotANumber,
    /// Ten digits or more.
    TooManyDigits,
    OutOfRange,
    /// A line that can be read, but not at this place.
    OutOfOrder,
    /// The text ends without its settings or its gain.
    Missing,
}

/// What a number of a line may be.
#[derive(Clone, Copy)]
enum Field {
    Byte,
    SignedByte,
    TwoBytes,
    SignedTwoBytes,
    Count,
}

impl Field {
    fn range(self) -> RangeInclusive<i64> {
        match self {
            Field::Byte => 0..=255,
            Field::SignedByte => -128..=127,
            Field::TwoBytes => 0..=65_535,
            Field::SignedTwoBytes => -32_768..=32_767,
            Field::Count => 0..=999_999_999,
        }
    }
}

/// The first word of a line, in the order in which they come; `row` and `rows`
/// may be mixed.
#[derive(Clone, Copy, PartialEq, Eq)]
enum Word {
    Settings,
    Gain,
    Gap,
    Rows,
}

/// The words that a line may begin with, and the numbers that follow. A `row`
/// is `rows` with a count of 1.
fn fields_of(word: &[u8]) -> Option<(Word, Vec<Field>)> {
    use Field::{Byte, Count, SignedByte, SignedTwoBytes, TwoBytes};
    Some(match word {
        b"settings" => (
            Word::Settings,
            [&[Byte; 5][..], &[SignedByte, SignedTwoBytes]].concat(),
        ),
        b"gain" => (Word::Gain, vec![Byte; 3]),
        b"gap" => (Word::Gap, [&[Byte; 6][..], &[TwoBytes; 3]].concat()),
        b"row" => (Word::Rows, vec![Byte; 2]),
        b"rows" => (Word::Rows, vec![Count, Byte, Byte]),
        _ => return None,
    })
}

/// The least and the largest of the numbers that follow a line's first word.
pub fn ranges_of(word: &[u8]) -> Option<Vec<RangeInclusive<i64>>> {
    let fields = fields_of(word)?.1;
    Some(fields.into_iter().map(Field::range).collect())
}

/// What a line with a word says.
struct Entry {
    word: Word,
    numbers: Vec<i64>,
}

/// Makes the job of a text and writes it as `write` does. The order is: a text
/// that is too long, the first line that cannot be read, a refusal.
pub fn compose(text: &[u8], lent: &mut [u8]) -> Composed {
    if text.len() > MOST_TEXT {
        return Composed::TooLong;
    }
    let entries = match entries(text) {
        Ok(entries) => entries,
        Err((line, reason)) => return Composed::Unreadable(line, reason),
    };
    match write(
        1,
        &settings(&entries),
        &records(&entries),
        &rows(&entries),
        lent,
    ) {
        Ok(size) => Composed::Written(size),
        Err(refusal) => Composed::Refused(refusal),
    }
}

/// The lines of a text, each without what ends it. Where a line feed ends it,
/// that takes a carriage return before it along.
fn lines(text: &[u8]) -> Vec<&[u8]> {
    let mut lines: Vec<&[u8]> = text.split(|&byte| byte == b'\n').collect();
    // What follows the last line feed is a line only if there is something.
    let last = lines.pop().filter(|line| !line.is_empty());
    for line in &mut lines {
        *line = line.strip_suffix(b"\r").unwrap_or(line);
    }
    lines.extend(last);
    lines
}

/// What the lines with a word say, in the right order and from settings and
/// gain on; or the first line that cannot be read, and why.
fn entries(text: &[u8]) -> Result<Vec<Entry>, (usize, Reason)> {
    let lines = lines(text);
    let (mut entries, mut wrong) = (Vec::new(), Vec::new());
    for (number, line) in (1..).zip(&lines) {
        match entry_of(line) {
            Ok(entry) => entries.extend(entry.map(|entry| (number, entry))),
            Err(reason) => wrong.push((number, reason)),
        }
    }
    wrong.extend(out_of_order(&entries).map(|line| (line, Reason::OutOfOrder)));
    if entries.len() < 2 {
        wrong.push((lines.len() + 1, Reason::Missing));
    }
    match wrong.into_iter().min() {
        Some(first) => Err(first),
        None => Ok(entries.into_iter().map(|(_, entry)| entry).collect()),
    }
}

/// The first line that is out of its order. The list is compared with the right
/// one: settings, gain, as many gaps as follow these two, and rows for the rest.
fn out_of_order(entries: &[(usize, Entry)]) -> Option<usize> {
    let after = entries.iter().skip(2);
    let gaps = after.take_while(|(_, entry)| entry.word == Word::Gap);
    let right = [Word::Settings, Word::Gain]
        .into_iter()
        .chain(repeat_n(Word::Gap, gaps.count()))
        .chain(repeat(Word::Rows));
    let mut pairs = entries.iter().zip(right);
    let ((line, _), _) = pairs.find(|((_, entry), word)| entry.word != *word)?;
    Some(*line)
}

/// What a line says by itself; none if it has no word.
fn entry_of(line: &[u8]) -> Result<Option<Entry>, Reason> {
    if line.contains(&b'\r') {
        return Err(Reason::CarriageReturn);
    }
    let said = line.split(|&byte| byte == b'#').next().unwrap_or_default();
    let words: Vec<&[u8]> = said
        .split(|&byte| byte == b' ' || byte == b'\t')
        .filter(|word| !word.is_empty())
        .collect();
    let Some((first, rest)) = words.split_first() else {
        return Ok(None);
    };
    let (word, fields) = fields_of(first).ok_or(Reason::UnknownWord)?;
    if rest.len() < fields.len() {
        return Err(Reason::TooFewNumbers);
    }
    if rest.len() > fields.len() {
        return Err(Reason::TooManyNumbers);
    }
    let numbers: Vec<i64> = rest
        .iter()
        .map(|word| number(word))
        .collect::<Result<_, _>>()?;
    let in_range = |(field, number): (&Field, &i64)| field.range().contains(number);
    if !fields.iter().zip(&numbers).all(in_range) {
        return Err(Reason::OutOfRange);
    }
    Ok(Some(Entry { word, numbers }))
}

/// The number that a word is: an optional `-` and one to nine digits.
fn number(word: &[u8]) -> Result<i64, Reason> {
    let digits = word.strip_prefix(b"-").unwrap_or(word);
    if digits.is_empty() || !digits.iter().all(u8::is_ascii_digit) {
        return Err(Reason::NotANumber);
    }
    if digits.len() > 9 {
        return Err(Reason::TooManyDigits);
    }
    let size = digits
        .iter()
        .fold(0, |size, digit| 10 * size + i64::from(digit - b'0'));
    Ok(if digits.len() < word.len() {
        -size
    } else {
        size
    })
}

fn one_byte(number: &i64) -> u8 {
    *number as u8
}

fn two_bytes(number: &i64) -> [u8; 2] {
    (*number as u16).to_le_bytes()
}

/// The first body: the triple of the gain stands after N.
fn settings(entries: &[Entry]) -> Vec<u8> {
    let (settings, gain) = (&entries[0].numbers, &entries[1].numbers);
    let mut body: Vec<u8> = settings[..5].iter().chain(gain).map(one_byte).collect();
    body.extend([one_byte(&settings[5]), 0]);
    body.extend(two_bytes(&settings[6]));
    body
}

/// The second body, a record for each `gap` line.
fn records(entries: &[Entry]) -> Vec<u8> {
    let gaps = entries.iter().filter(|entry| entry.word == Word::Gap);
    gaps.flat_map(|gap| {
        let (bytes, pairs) = gap.numbers.split_at(6);
        let mut record: Vec<u8> = bytes.iter().map(one_byte).collect();
        record.extend(pairs.iter().flat_map(two_bytes));
        record
    })
    .collect()
}

/// The third body. Lines may ask for far more rows than a file has bytes; such
/// a file is refused with 1, and the rows up to there show it.
fn rows(entries: &[Entry]) -> Vec<u8> {
    let lines = entries.iter().filter(|entry| entry.word == Word::Rows);
    let rows = lines.flat_map(|line| {
        let (count, row) = line.numbers.split_at(line.numbers.len() - 2);
        let count = count.first().map_or(1, |&count| count as usize);
        repeat_n([one_byte(&row[0]), one_byte(&row[1])], count)
    });
    rows.take(MOST_BYTES).flatten().collect()
}
