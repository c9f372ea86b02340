//! Blocks of both kinds and their answers, kept as files.

use std::fs::{self, File};
use std::io::{self, BufReader, BufWriter, Write};
use std::path::Path;

use crate::either::{answer_all, Either, Tally};
use crate::subject::{ending, Scope, Subject};

/// Writes `stdin`, so many blocks of each kind, and `stdout`, what the page says
/// of them, into a directory. Jobs to be listed come first.
pub fn make(count: u64, seed: u64, directory: &Path) -> io::Result<Tally> {
    fs::create_dir_all(directory)?;
    let mut blocks = BufWriter::new(File::create(directory.join("stdin"))?);
    let mut lines = BufWriter::new(File::create(directory.join("stdout"))?);
    let mut tally = Tally::default();
    let listed = (0..count).map(|number| Either::Listed(Subject::drawn(seed, number, Scope::Kept)));
    let written =
        (0..count).map(|number| Either::Written(Subject::drawn(seed, number, Scope::Kept)));
    for block in listed.chain(written) {
        block.write(&mut blocks)?;
        writeln!(lines, "{}", block.line(&mut tally))?;
    }
    writeln!(lines, "{}", ending(2 * count))?;
    blocks.flush()?;
    lines.flush()?;
    Ok(tally)
}

/// The first line, from 1, at which the kept answers differ from what the
/// page says of the kept blocks.
pub fn check(blocks: &Path, answers: &Path) -> io::Result<Option<usize>> {
    let mut said = Vec::new();
    answer_all(&mut BufReader::new(File::open(blocks)?), &mut said)?;
    let kept = fs::read(answers)?;
    if said == kept {
        return Ok(None);
    }
    let mut pairs = said
        .split(|&byte| byte == b'\n')
        .zip(kept.split(|&byte| byte == b'\n'));
    // Where one is the begin of the other, the shorter one's last line is
    // empty and the other's is not.
    Ok(Some(
        pairs.position(|(one, other)| one != other).unwrap_or(0) + 1,
    ))
}
