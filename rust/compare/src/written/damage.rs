//! Damage to texts, so that mostly a line of them cannot be read.

use second::ranges_of;

use super::text::{number_word, Line};
use crate::draw::Draw;

/// What is done to a text.
#[derive(Clone, Copy, PartialEq, Eq, Debug)]
pub enum Harm {
    /// A number at the end of its range, or just outside, or so far outside
    /// that its bytes alone would be right.
    Range,
    Digits,
    NotANumber,
    Fewer,
    More,
    UnknownWord,
    /// Lines moved, left out or repeated.
    Order,
    /// The text ends early.
    Cut,
    CarriageReturn,
    /// Bytes turned over, put in and taken out.
    Bytes,
}

pub const HARMS: [Harm; 10] = [
    Harm::Range,
    Harm::Digits,
    Harm::NotANumber,
    Harm::Fewer,
    Harm::More,
    Harm::UnknownWord,
    Harm::Order,
    Harm::Cut,
    Harm::CarriageReturn,
    Harm::Bytes,
];

/// Damage to the words of one line, often the first or the last.
pub fn to_lines(draw: &mut Draw, harm: Harm, lines: &mut Vec<Line>) {
    let last = lines.len() - 1;
    let at = match draw.below(5) {
        0 => 0,
        1 => last,
        _ => draw.below(lines.len()),
    };
    let line = &mut lines[at];
    // There is a number in every line.
    let number = draw.within(1, line.len() as i64 - 1) as usize;
    match harm {
        Harm::Range => line[number] = at_an_edge(draw, line, number),
        Harm::Digits => line[number] = many_digits(draw, &line[number]),
        Harm::NotANumber => line[number] = no_number(draw, &line[number]),
        Harm::Fewer if draw.once_in(4) => line.truncate(1),
        Harm::Fewer => drop(line.remove(number)),
        Harm::More => line.insert(number, draw.one_of(&["0", "1", "-1", "x"]).to_string()),
        Harm::UnknownWord => line[0] = unknown(draw, &line[0]),
        Harm::Order => disorder(draw, lines, at),
        Harm::Cut => lines.truncate(draw.one_of(&[0, 1, 1, 1, at])),
        Harm::CarriageReturn | Harm::Bytes => {}
    }
}

/// Another number for this one of a line that can be read.
fn at_an_edge(draw: &mut Draw, line: &Line, number: usize) -> String {
    let ranges = ranges_of(line[0].as_bytes()).expect("the word is known");
    let (low, high) = (*ranges[number - 1].start(), *ranges[number - 1].end());
    let now: i64 = line[number].parse().expect("the number is right");
    let round = high - low + 1;
    let edges = [
        low,
        low - 1,
        high,
        high + 1,
        now + round,
        now - round,
        now + 65_536,
    ];
    let other = draw.one_of(&edges);
    number_word(draw, other)
}

/// Ten digits, or as many as there may be, or far more.
fn many_digits(draw: &mut Draw, word: &str) -> String {
    let digits = word.trim_start_matches('-');
    let many = draw.one_of(&[9, 10, 10, 11, 20, 30]);
    let sign = if digits.len() < word.len() { "-" } else { "" };
    match draw.below(3) {
        0 => format!("{sign}{}", "9".repeat(many)),
        // Modulo 2^32 and 2^64 it is the number that was there.
        1 if sign.is_empty() => {
            let now: u128 = digits.parse().expect("the number is right");
            (now + draw.one_of(&[1 << 32, 1 << 64])).to_string()
        }
        _ => format!(
            "{sign}{}{digits}",
            "0".repeat(many.saturating_sub(digits.len()))
        ),
    }
}

fn no_number(draw: &mut Draw, word: &str) -> String {
    let (first, rest) = word.split_at(draw.below(word.len() + 1));
    match draw.below(6) {
        0 => format!("+{word}"),
        1 => draw
            .one_of(&["-", "--1", "+", "x", "0x1", "1.0", "1e1", "1-", "-x", "'1'"])
            .to_string(),
        2 => format!("-{word}"),
        // The bytes beside the digits, other bytes that are often taken for
        // space, and a digit of another script.
        3 => format!(
            "{word}{}",
            draw.one_of(&["/", ":", ",", ";", "-", "+", "_"])
        ),
        4 => format!(
            "{first}{}{rest}",
            draw.one_of(&["\u{b}", "\u{c}", "\0", "\u{a0}", "\u{85}"])
        ),
        _ => format!(
            "{first}{}{rest}",
            draw.one_of(&["\u{661}", "a", "O", "'", "."])
        ),
    }
}

fn unknown(draw: &mut Draw, word: &str) -> String {
    match draw.below(8) {
        0 => word.to_uppercase(),
        1 => word[..1].to_uppercase() + &word[1..],
        2 => word[..word.len() - 1].to_string(),
        3 => format!(
            "{word}{}",
            draw.one_of(&["s", "S", ":", "1", "\0", "\u{c}"])
        ),
        4 => draw
            .one_of(&["set", "slot", "r", "6", "-", "\u{feff}row", "begin"])
            .to_string(),
        5 => draw
            .one_of(&["row", "rows", "gap", "gain", "settings"])
            .to_string(),
        6 => format!("{}{word}", draw.one_of(&["\u{feff}", "x", "\u{b}", "-"])),
        _ => word.replace(['a', 'o', 'e'], ""),
    }
}

/// Lines in another order than the right one, or nearly so.
fn disorder(draw: &mut Draw, lines: &mut Vec<Line>, at: usize) {
    let other = draw.below(lines.len());
    let opening = lines[draw.below(2)].clone();
    let no_rows: Line = ["rows", "0", "1", "6"].map(String::from).to_vec();
    match draw.below(6) {
        0 => lines.swap(at, other),
        1 => lines.insert(at, opening),
        2 => lines.insert(at, no_rows),
        3 => {
            let line = lines.remove(at);
            lines.push(line);
        }
        4 => drop(lines.remove(draw.below(2))),
        _ => lines.reverse(),
    }
}

/// Damage to the bytes of a text that is laid out.
pub fn to_bytes(draw: &mut Draw, harm: Harm, text: &mut Vec<u8>) {
    match harm {
        Harm::CarriageReturn => carriage_return(draw, text),
        Harm::Bytes => {
            for _ in 0..draw.one_of(&[1, 1, 1, 2, 4]) {
                change_byte(draw, text);
            }
        }
        _ => {}
    }
}

/// One more carriage return: anywhere, at the end, or at the end of a line,
/// where a first one is right and a second one is not.
fn carriage_return(draw: &mut Draw, text: &mut Vec<u8>) {
    let feeds: Vec<usize> = (0..text.len()).filter(|&at| text[at] == b'\n').collect();
    let comments: Vec<usize> = (0..text.len()).filter(|&at| text[at] == b'#').collect();
    let at = match draw.below(4) {
        0 => text.len(),
        1 if !feeds.is_empty() => draw.one_of(&feeds),
        2 if !comments.is_empty() => draw.one_of(&comments) + 1,
        _ => draw.below(text.len() + 1),
    };
    text.insert(at, b'\r');
}

fn change_byte(draw: &mut Draw, text: &mut Vec<u8>) {
    let any = draw.byte();
    let byte = draw.one_of(b"\0\n\r \t#+-019x\x0b\x0c\x7f\xa0\xff");
    let byte = if draw.once_in(4) { any } else { byte };
    let at = draw.below(text.len() + 1);
    if at == text.len() || draw.once_in(3) {
        text.insert(at, byte);
        return;
    }
    match draw.below(4) {
        0 => drop(text.remove(at)),
        1 => text[at] ^= 1 << draw.below(8),
        2 => text.truncate(at),
        _ => text[at] = byte,
    }
}

/// No text of a job: any bytes, or bytes that such texts have.
pub fn noise(draw: &mut Draw) -> Vec<u8> {
    let length = draw.one_of(&[0, 0, 1, 2, 10, 100, 300]);
    let usual = b"settings gain gap row rows 1 2 3 15 24 # \n\t-\r\n";
    let any = draw.once_in(2);
    let mut byte = || if any { draw.byte() } else { draw.one_of(usual) };
    (0..length).map(|_| byte()).collect()
}
