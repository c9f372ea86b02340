//! The program itself, given its own answers and wrong ones.

use std::path::Path;
use std::process::{Command, Output};

const PROGRAM: &str = env!("CARGO_BIN_EXE_compare");

fn perform(arguments: &[&str]) -> Output {
    Command::new(PROGRAM).args(arguments).output().unwrap()
}

fn text(output: &Output) -> String {
    String::from_utf8(output.stdout.clone()).unwrap()
}

#[test]
fn it_agrees_with_itself() {
    let output = perform(&["long", "1100", "7", PROGRAM, "answer"]);
    assert!(output.status.success());
    assert!(text(&output).starts_with("1100 jobs, 0 differ, "));
}

/// Jobs that are written.
#[test]
fn it_agrees_with_itself_on_written_jobs() {
    let output = perform(&["written", "long", "1100", "7", PROGRAM, "answer"]);
    assert!(output.status.success());
    assert!(text(&output).starts_with("1100 jobs, 0 differ, "));
}

#[test]
fn another_answer_is_told() {
    let script = format!("'{PROGRAM}' answer | sed 's/^rows 1 /rows 01 /'");
    let output = perform(&["long", "300", "7", "sh", "-c", &script]);
    assert_eq!(output.status.code(), Some(1));
    assert!(text(&output).contains("the program rows 01 held"));
}

#[test]
fn another_answer_for_a_written_job_is_told() {
    let script = format!("'{PROGRAM}' answer | sed 's/ 12 at 49 / 12 at 1 /'");
    let output = perform(&["written", "long", "300", "7", "sh", "-c", &script]);
    assert_eq!(output.status.code(), Some(1));
    assert!(text(&output).contains("the program refused 12 at 1 "));
}

/// Jobs to be listed and jobs to be written, by the words that say which.
const KINDS: [&[&str]; 2] = [&["long", "20", "7"], &["written", "long", "20", "7"]];

#[test]
fn a_line_too_many_is_told() {
    let script = format!("'{PROGRAM}' answer; echo");
    for long in KINDS {
        let output = perform(&[long, &["sh", "-c", &script]].concat());
        assert_eq!(output.status.code(), Some(1));
        assert!(text(&output).contains("jobs from 0: 1 bytes too many"));
    }
}

#[test]
fn a_missing_last_line_is_told() {
    let script = format!("'{PROGRAM}' answer | grep -v jobs");
    for long in KINDS {
        let output = perform(&[long, &["sh", "-c", &script]].concat());
        assert_eq!(output.status.code(), Some(1));
        assert!(text(&output).contains("None in place of \"jobs 20\""));
    }
}

/// Whether the answers that are kept beside blocks are the page's.
fn hold_kept(directory: &Path) {
    let [stdin, stdout] = ["stdin", "stdout"].map(|name| directory.join(name));
    let output = perform(&["check", stdin.to_str().unwrap(), stdout.to_str().unwrap()]);
    assert!(output.status.success(), "{}", text(&output));
}

/// The files that the gate runs the proved program on: jobs of both kinds.
#[test]
fn the_kept_answers_are_the_page_s() {
    let kept = Path::new(env!("CARGO_MANIFEST_DIR")).join("../../crates/test_compared");
    hold_kept(&kept);
    let lines = std::fs::read_to_string(kept.join("stdout")).unwrap();
    for word in ["rows ", "refused ", "file ", "line "] {
        assert!(lines.lines().any(|line| line.starts_with(word)), "{word}");
    }
}

#[test]
fn jobs_of_both_kinds_are_kept_as_they_are_answered() {
    let directory = std::env::temp_dir().join(format!("kept-{}", std::process::id()));
    let output = perform(&["make", "150", "3", directory.to_str().unwrap()]);
    assert!(text(&output).starts_with("150 jobs to be listed, "));
    assert!(text(&output).contains("\n150 jobs to be written, "));
    hold_kept(&directory);
    let lines = std::fs::read_to_string(directory.join("stdout")).unwrap();
    assert!(lines.ends_with("\njobs 300\n"));
    std::fs::remove_dir_all(&directory).unwrap();
}

#[test]
fn arguments_that_are_not_understood() {
    for arguments in [
        &[][..],
        &["long", "x", "1", "true"],
        &["long", "0", "1", "true"],
        &["make", "1"],
        &["written"],
        &["written", "long", "0", "1", "true"],
        &["written", "written", "show", "1", "1"],
        &["written", "make", "1", "1", "."],
        &["written", "answer"],
    ] {
        assert_eq!(perform(arguments).status.code(), Some(2));
    }
}
