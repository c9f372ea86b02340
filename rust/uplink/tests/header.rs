//! The C header: compiled by the system's C compiler, linked with the archive, and run. Where there is no C compiler
//! there is nothing to test, and the test says so.
use std::fs::File;
use std::path::Path;
use std::process::Command;

#[test]
fn a_live_test_in_c() {
    let here = Path::new(env!("CARGO_MANIFEST_DIR"));
    if Command::new("cc").arg("--version").output().is_err() {
        eprintln!("no C compiler: the header is not tested");
        return;
    }
    let program = Path::new(env!("CARGO_TARGET_TMPDIR")).join("header");
    let compiled = Command::new("cc")
        .args(["-std=c11", "-Wall", "-Wextra", "-Werror", "-o"])
        .arg(&program)
        .arg(here.join("tests/header.c"))
        .arg(here.join("../../target/native/libexports.a"))
        .arg("-lm")
        .status()
        .expect("the C compiler starts");
    assert!(compiled.success());
    let job = File::open(here.join("../../jobs/lift.job")).expect("the sample is there");
    let said = Command::new(&program)
        .stdin(job)
        .output()
        .expect("the program starts");
    assert_eq!(
        String::from_utf8(said.stdout).expect("text"),
        "0 0 version 1 power 640\n0 0 row 1 dpcch 640\n11 0 row 1\n\
         0 0 slot 12 uplink 1 downlink 1\n0 0 slot 35 uplink 0 downlink 2\n\
         2 3 slot 12 uplink 0 downlink 0\n\
         0 0 numbers\n0 0 size 173 same 1\n0 0 numbers\n12 173 size 0 same 0\n"
    );
}
