//! Comparisons with small programs of the shell.

use std::fs;

use crate::block::Block;
use crate::files::{check, make};
use crate::long::{compare, Program};

fn shell(script: &str) -> [String; 2] {
    ["-c".to_string(), script.to_string()]
}

#[test]
fn a_program_that_says_nothing_differs_in_every_job() {
    let arguments = shell("cat >/dev/null");
    let program = Program {
        name: "sh",
        arguments: &arguments,
    };
    let mut report = Vec::new();
    let comparison = compare::<Block>(20, 1, &program, &mut report).unwrap();
    assert_eq!(comparison.differing, 20);
    assert!(!comparison.agrees());
    let report = String::from_utf8(report).unwrap();
    assert_eq!(report.matches("(no line)").count(), 20);
}

#[test]
fn a_program_that_reads_nothing_does_not_stop_the_comparison() {
    let arguments = shell("exit 3");
    let program = Program {
        name: "sh",
        arguments: &arguments,
    };
    let comparison = compare::<Block>(30, 1, &program, &mut Vec::new()).unwrap();
    assert_eq!(comparison.differing, 30);
    assert!(comparison.troubles.iter().any(|told| told.contains("exit")));
}

#[test]
fn kept_files_are_checked() {
    let directory = std::env::temp_dir().join(format!("compare-{}", std::process::id()));
    make(30, 2, &directory).unwrap();
    let (blocks, answers) = (directory.join("stdin"), directory.join("stdout"));
    assert_eq!(check(&blocks, &answers).unwrap(), None);
    let text = fs::read_to_string(&answers).unwrap();
    fs::write(&answers, text.replace("jobs 60", "jobs 61")).unwrap();
    assert_eq!(check(&blocks, &answers).unwrap(), Some(61));
    fs::write(&answers, text.trim_end()).unwrap();
    assert!(check(&blocks, &answers).unwrap().is_some());
    fs::remove_dir_all(&directory).unwrap();
}
