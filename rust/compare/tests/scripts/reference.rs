//! `reference` beside a `run` that writes a listing, or something else.

use crate::room::{end, ended, first, signal, Ended, Room};
use std::path::Path;
use std::time::{Duration, Instant};

const WHOLE: &str = include_str!("../../../../jobs/lift.listing");
const HEADER: &str = "row state cmd dpcch dpdch total held by\n";
const REFUSED: &str = "refused 8 at 1\n";
const UNWRITTEN: &str = "reference: the listing could not be written to its end";
const CUT: &str = "reference: the listing stops before its last line\n";

/// The script beside a `run` that writes these bytes.
fn room(name: &str, listing: &[u8]) -> Room {
    let room = Room::new(name);
    room.copy_starter("reference", ".");
    room.script("run", "#!/bin/sh\nexec cat \"$(dirname \"$0\")/listing\"\n");
    room.write("listing", listing);
    room
}

/// More than a pipe takes while nobody reads it.
fn long_listing() -> Vec<u8> {
    let mut text = HEADER.to_string();
    for row in 0..100_000 {
        text += &format!("{row} 1 1 1280 1280 1473 0 -\n");
    }
    (text + "rows 100000 held 0\n").into_bytes()
}

/// Nothing may stay behind.
fn run_in(room: &Room, words: &str) -> Ended {
    let ended = end(room.shell(words));
    assert_eq!(room.names("kept"), [""; 0]);
    ended
}

/// Status and standard error of a listing, which comes through as it is.
fn hold(name: &str, listing: &str, status: i32, err: &str) {
    let ended = run_in(&room(name, listing.as_bytes()), "./reference");
    assert_eq!((ended.status, ended.err.as_str()), (Some(status), err));
    assert_eq!(ended.out, listing.as_bytes());
}

#[test]
fn a_whole_listing() {
    hold("whole", WHOLE, 0, "");
    hold("no rows", &format!("{HEADER}rows 0 held 0\n"), 0, "");
}

#[test]
fn a_refusal() {
    hold("refused", REFUSED, 1, "");
    let after = format!("{HEADER}0 1 1 1280 1280 1473 0 -\n{REFUSED}");
    hold("refused after rows", &after, 1, "");
}

#[test]
fn a_listing_that_stops_early() {
    hold("cut in its last line", WHOLE.trim_end(), 2, CUT);
    hold("cut in a refusal", REFUSED.trim_end(), 2, CUT);
    hold("cut after its header", HEADER, 2, CUT);
    let (rows, _) = WHOLE.split_once("rows").unwrap();
    hold("cut before its last line", rows, 2, CUT);
    hold("cut in a row", rows.trim_end(), 2, CUT);
    hold("only a line feed", "\n", 2, CUT);
}

#[test]
fn nothing() {
    hold("nothing", "", 2, "reference: nothing is listed\n");
}

/// A `run` that could not build says so itself.
#[test]
fn no_program() {
    let room = room("no program", b"");
    room.script("run", "#!/bin/sh\necho 'run: no' >&2\nexit 2\n");
    let ended = run_in(&room, "./reference");
    let err = "run: no\nreference: nothing is listed\n";
    assert_eq!((ended.status, ended.err.as_str()), (Some(2), err));
    assert!(ended.out.is_empty());
}

#[test]
fn bytes_of_any_kind_come_through() {
    let room = Room::new("any bytes");
    let mut listing: Vec<u8> = (0..=255).collect();
    listing.extend(b"\nrows 1 held 0\n");
    room.copy_starter("reference", ".");
    room.script("run", "#!/bin/sh\n[ \"$*\" = reference ] && exec cat\n");
    room.write("job", &listing);
    let ended = run_in(&room, "./reference <job");
    assert_eq!((ended.status, ended.err.as_str()), (Some(0), ""));
    assert_eq!(ended.out, listing);
}

/// `run` is found beside the script, also behind a link and from another folder.
#[test]
fn from_another_folder() {
    let room = room("another folder", WHOLE.as_bytes());
    let words = "mkdir other && ln -s ../reference other/link && cd / && \"$OLDPWD/other/link\"";
    let ended = run_in(&room, words);
    assert_eq!((ended.status, ended.err.as_str()), (Some(0), ""));
    assert_eq!(ended.out, WHOLE.as_bytes());
}

#[test]
fn arguments() {
    let ended = run_in(&room("arguments", WHOLE.as_bytes()), "./reference listing");
    let err = "reference: usage: reference < JOB\n";
    assert_eq!((ended.status, ended.err.as_str()), (Some(2), err));
    assert!(ended.out.is_empty());
}

#[test]
fn closed_input() {
    let ended = run_in(&room("no input", WHOLE.as_bytes()), "./reference <&-");
    let err = "reference: the job could not be read: standard input is closed\n";
    assert_eq!((ended.status, ended.err.as_str()), (Some(2), err));
    assert!(ended.out.is_empty());
}

#[test]
fn closed_output() {
    let ended = run_in(&room("no output", WHOLE.as_bytes()), "./reference >&-");
    let err = "reference: the listing could not be written: standard output is closed\n";
    assert_eq!((ended.status, ended.err.as_str()), (Some(2), err));
}

/// What wrote the listing says why before.
fn is_unwritten(ended: &Ended) {
    assert_eq!(ended.status, Some(2), "{}", ended.err);
    assert_eq!(ended.err.lines().last(), Some(UNWRITTEN));
}

#[test]
fn output_that_takes_no_more() {
    if !Path::new("/dev/full").exists() {
        return;
    }
    for listing in [WHOLE.as_bytes(), &long_listing()] {
        let room = room("full", listing);
        is_unwritten(&run_in(&room, "./reference >/dev/full"));
    }
}

#[test]
fn a_reader_that_goes_away() {
    let listing = long_listing();
    let room = room("no reader", &listing);
    for words in ["exec ./reference", "trap '' PIPE; exec ./reference"] {
        let mut child = room.shell(words).spawn().unwrap();
        assert_eq!(first(&mut child, HEADER.len()), HEADER.as_bytes());
        drop(child.stdout.take());
        is_unwritten(&ended(child));
        assert_eq!(room.names("kept"), [""; 0]);
    }
}

/// Standard error goes to the same reader, and cannot say it.
#[test]
fn a_reader_of_both_that_goes_away() {
    let room = room("no reader of both", &long_listing());
    let mut child = room.shell("exec ./reference 2>&1").spawn().unwrap();
    assert_eq!(first(&mut child, HEADER.len()), HEADER.as_bytes());
    drop(child.stdout.take());
    assert_eq!(ended(child).status, Some(2));
    assert_eq!(room.names("kept"), [""; 0]);
}

/// A signal while the program runs: it ends too, and what it has written so far is not listed.
#[test]
fn a_signal_before_the_listing() {
    for (name, status) in [("HUP", 129), ("INT", 130), ("TERM", 143)] {
        let room = room(name, b"");
        room.script("run", "#!/bin/sh\necho row\n: >begun\nexec sleep 60\n");
        let child = room.command("./reference").spawn().unwrap();
        room.wait_for("begun");
        let sent = Instant::now();
        signal(&child, name);
        let ended = ended(child);
        assert_eq!((ended.status, ended.err.as_str()), (Some(status), ""));
        assert!(ended.out.is_empty());
        assert!(sent.elapsed() < Duration::from_secs(30));
        assert_eq!(room.names("kept"), [""; 0]);
    }
}

/// A signal while the listing is written: no more of it is.
#[test]
fn a_signal_within_the_listing() {
    let listing = long_listing();
    let room = room("within", &listing);
    let mut child = room.command("./reference").spawn().unwrap();
    assert_eq!(first(&mut child, HEADER.len()), HEADER.as_bytes());
    signal(&child, "TERM");
    assert_eq!(child.wait().unwrap().code(), Some(143));
    let ended = ended(child);
    assert!(ended.err.is_empty());
    assert!(ended.out.len() < listing.len() - HEADER.len());
    assert!(listing[HEADER.len()..].starts_with(&ended.out));
    assert_eq!(room.names("kept"), [""; 0]);
}
