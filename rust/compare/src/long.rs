//! Many jobs, answered by another program and compared line by line.

use std::io::{self, BufRead, BufReader, BufWriter, Write};
use std::process::{Child, Command, Stdio};
use std::thread;

use crate::subject::{ending, Scope, Subject};

/// Jobs that one start of the program is given. Only these are held at a
/// time.
const BATCH: u64 = 500;

/// A program and its arguments.
pub struct Program<'a> {
    pub name: &'a str,
    pub arguments: &'a [String],
}

/// How a comparison ends, with the tally of its blocks.
#[derive(Default)]
pub struct Comparison<T> {
    pub jobs: u64,
    pub differing: u64,
    pub tally: T,
    /// What went wrong beside differing lines.
    pub troubles: Vec<String>,
}

impl<T> Comparison<T> {
    /// Whether there was something to compare, nothing differs and every batch
    /// ended as it should.
    pub fn agrees(&self) -> bool {
        self.jobs > 0 && self.differing == 0 && self.troubles.is_empty()
    }
}

/// Compares so many jobs of a seed; differing jobs are written to `report` as
/// they are met.
pub fn compare<S: Subject>(
    count: u64,
    seed: u64,
    program: &Program,
    report: &mut impl Write,
) -> io::Result<Comparison<S::Tally>> {
    let mut comparison = Comparison::default();
    let mut first = 0;
    while first < count {
        let after = count.min(first + BATCH);
        let blocks: Vec<S> = (first..after)
            .map(|number| S::drawn(seed, number, Scope::Any))
            .collect();
        compare_batch(first, &blocks, program, &mut comparison, report)?;
        first = after;
    }
    Ok(comparison)
}

fn start(program: &Program) -> io::Result<Child> {
    Command::new(program.name)
        .args(program.arguments)
        .stdin(Stdio::piped())
        .stdout(Stdio::piped())
        .spawn()
}

/// One start of the program. A thread of its own feeds the blocks, so that
/// neither side waits for the other to read.
fn compare_batch<S: Subject>(
    first: u64,
    blocks: &[S],
    program: &Program,
    comparison: &mut Comparison<S::Tally>,
    report: &mut impl Write,
) -> io::Result<()> {
    let mut child = start(program)?;
    let input = child.stdin.take().expect("the input is a pipe");
    let output = child.stdout.take().expect("the output is a pipe");
    thread::scope(|scope| -> io::Result<()> {
        let feeder = scope.spawn(|| feed(input, blocks));
        let ended = compare_lines(first, blocks, BufReader::new(output), comparison, report);
        // The program may close its input before the last block; what it has
        // not answered counts as differing, and that is told already.
        let _ = feeder.join();
        ended
    })?;
    let status = child.wait()?;
    if !status.success() {
        let trouble = format!("jobs from {first}: the program ended with {status}");
        comparison.troubles.push(trouble);
    }
    Ok(())
}

fn feed(input: impl Write, blocks: &[impl Subject]) -> io::Result<()> {
    let mut input = BufWriter::new(input);
    for block in blocks {
        block.write(&mut input)?;
    }
    input.flush()
}

fn compare_lines<S: Subject>(
    first: u64,
    blocks: &[S],
    mut answers: impl BufRead,
    comparison: &mut Comparison<S::Tally>,
    report: &mut impl Write,
) -> io::Result<()> {
    for (number, block) in (first..).zip(blocks) {
        let said = block.line(&mut comparison.tally);
        let answer = next_line(&mut answers)?;
        comparison.jobs += 1;
        if answer.as_ref() != Some(&said) {
            comparison.differing += 1;
            let answer = answer.as_deref().unwrap_or("(no line)");
            tell(report, number, block, &said, answer)?;
        }
    }
    let ending = ending(blocks.len() as u64);
    let answer = next_line(&mut answers)?;
    if answer.as_ref() != Some(&ending) {
        let trouble = format!("jobs from {first}: {answer:?} in place of {ending:?}");
        comparison.troubles.push(trouble);
    }
    let mut rest = Vec::new();
    if answers.read_to_end(&mut rest)? > 0 {
        let trouble = format!("jobs from {first}: {} bytes too many", rest.len());
        comparison.troubles.push(trouble);
    }
    Ok(())
}

/// The next line without its line feed; none where the output has ended. A
/// line without a line feed is none either.
fn next_line(answers: &mut impl BufRead) -> io::Result<Option<String>> {
    let mut bytes = Vec::new();
    answers.read_until(b'\n', &mut bytes)?;
    Ok(bytes
        .strip_suffix(b"\n")
        .map(|line| String::from_utf8_lossy(line).into_owned()))
}

/// A differing job: its number, its bytes, and both answers.
fn tell(
    to: &mut impl Write,
    number: u64,
    block: &impl Subject,
    said: &str,
    answer: &str,
) -> io::Result<()> {
    let hex = |bytes: &[u8]| {
        bytes
            .iter()
            .map(|byte| format!("{byte:02x}"))
            .collect::<String>()
    };
    writeln!(to, "job {number} differs")?;
    for (name, bytes) in block.shown() {
        writeln!(to, "  {name} {}", hex(&bytes))?;
    }
    writeln!(to, "  the page    {said}")?;
    writeln!(to, "  the program {answer}")
}
