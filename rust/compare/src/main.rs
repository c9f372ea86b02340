//! The command line of the comparison; `USAGE` says what it does.

use std::io::{self, BufReader, BufWriter, Write};
use std::path::Path;
use std::process::ExitCode;

use compare::block::Block;
use compare::either::answer_all;
use compare::files::{check, make};
use compare::long::{self, Program};
use compare::subject::Subject;
use compare::written;

const USAGE: &str = "\
compare make COUNT SEED DIRECTORY
    writes DIRECTORY/stdin, COUNT drawn jobs to be listed and COUNT to be written, and
    DIRECTORY/stdout, the page's answers
compare check STDIN STDOUT
    tells whether STDOUT is what the page says of STDIN
compare answer
    answers the jobs on standard input, as a program to be compared does
compare long COUNT SEED PROGRAM [ARGUMENT..]
    compares PROGRAM's answers of COUNT drawn jobs to be listed with the page's
compare show COUNT SEED
    prints the kinds of the jobs that `long` draws
compare written long ..., compare written show ...
    the same for jobs to be written, from parts or from text
";

fn main() -> ExitCode {
    let arguments: Vec<String> = std::env::args().skip(1).collect();
    match perform(&arguments) {
        Ok(Some(true)) => ExitCode::SUCCESS,
        Ok(Some(false)) => ExitCode::from(1),
        Ok(None) => {
            eprint!("{USAGE}");
            ExitCode::from(2)
        }
        Err(error) => {
            eprintln!("compare: {error}");
            ExitCode::from(2)
        }
    }
}

/// Whether all is well; none if the arguments are not understood.
fn perform(arguments: &[String]) -> io::Result<Option<bool>> {
    let words: Vec<&str> = arguments.iter().map(String::as_str).collect();
    match words.as_slice() {
        ["make", count, seed, directory] => {
            let Some((count, seed)) = numbers(count, seed) else {
                return Ok(None);
            };
            let tally = make(count, seed, Path::new(directory))?;
            print!("{count} jobs to be listed, {}", tally.listed);
            print!("{count} jobs to be written, {}", tally.written);
            Ok(Some(true))
        }
        ["check", blocks, answers] => told(check(Path::new(blocks), Path::new(answers))?),
        ["answer"] => {
            let mut output = BufWriter::new(io::stdout().lock());
            answer_all(&mut BufReader::new(io::stdin().lock()), &mut output)?;
            Ok(Some(true))
        }
        ["written", ..] => perform_with::<written::Block>(&arguments[1..]),
        _ => perform_with::<Block>(arguments),
    }
}

/// What is done with drawn jobs of one kind.
fn perform_with<S: Subject>(arguments: &[String]) -> io::Result<Option<bool>> {
    let words: Vec<&str> = arguments.iter().map(String::as_str).collect();
    match words.as_slice() {
        ["long", count, seed, name, ..] => {
            let Some((count, seed)) = numbers(count, seed) else {
                return Ok(None);
            };
            let arguments = &arguments[4..];
            compare_long::<S>(count, seed, &Program { name, arguments })
        }
        ["show", count, seed] => {
            let Some((count, seed)) = numbers(count, seed) else {
                return Ok(None);
            };
            for number in 0..count {
                println!("{number} {}", S::kind(seed, number));
            }
            Ok(Some(true))
        }
        _ => Ok(None),
    }
}

fn numbers(count: &str, seed: &str) -> Option<(u64, u64)> {
    let count = count.parse().ok().filter(|&count| count > 0)?;
    Some((count, seed.parse().ok()?))
}

fn told(differing: Option<usize>) -> io::Result<Option<bool>> {
    match differing {
        None => println!("the answers are the page's"),
        Some(line) => println!("line {line} differs from what the page says"),
    }
    Ok(Some(differing.is_none()))
}

fn compare_long<S: Subject>(count: u64, seed: u64, program: &Program) -> io::Result<Option<bool>> {
    let mut report = io::stdout().lock();
    let comparison = long::compare::<S>(count, seed, program, &mut report)?;
    for trouble in &comparison.troubles {
        writeln!(report, "{trouble}")?;
    }
    let (jobs, differing) = (comparison.jobs, comparison.differing);
    write!(
        report,
        "{jobs} jobs, {differing} differ, {}",
        comparison.tally
    )?;
    Ok(Some(comparison.agrees()))
}
