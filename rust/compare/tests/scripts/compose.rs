//! `compose` beside a `run` that writes a job, says something, or both.

use crate::room::{end, ended, first, signal, Ended, Room};
use std::io::{BufRead, BufReader};
use std::path::Path;
use std::time::{Duration, Instant};

const JOB: &[u8] = include_bytes!("../../../../jobs/lift.job");
const UNWRITTEN: &str = "compose: the job could not be written to its end";

/// The script beside a `run` of these lines. The job stands in a file beside it.
fn room(name: &str, run: &str) -> Room {
    let room = Room::new(&format!("compose {name}"));
    room.copy_starter("compose", ".");
    room.script("run", &format!("#!/bin/sh\n{run}\n"));
    room.write("job", JOB);
    room
}

/// Nothing may stay behind.
fn run_in(room: &Room, words: &str) -> Ended {
    let ended = end(room.shell(words));
    assert_eq!(room.names("kept"), [""; 0]);
    ended
}

/// Status, bytes and words of the script beside such a `run`.
fn hold(name: &str, run: &str, status: i32, out: &[u8], err: &str) {
    let ended = run_in(&room(name, run), "./compose");
    assert_eq!((ended.status, ended.err.as_str()), (Some(status), err));
    assert!(ended.out == out);
}

#[test]
fn a_job() {
    hold("job", "cat job", 0, JOB, "");
    let run = "echo 'run: proving' >&2\necho 'run: words proved' >&2\ncat job";
    let err = "run: proving\nrun: words proved\n";
    hold("job after a build", run, 0, JOB, err);
}

#[test]
fn a_text_that_makes_no_job() {
    for line in [
        "line 1 unreadable",
        "line 1048577 unreadable",
        "refused 4 at 7",
        "refused 7 at 30000",
        "input too long",
    ] {
        let err = format!("{line}\n");
        hold(line, &format!("echo '{line}' >&2"), 1, b"", &err);
        let run = format!("echo 'run: proving' >&2\necho '{line}' >&2");
        hold(line, &run, 1, b"", &format!("run: proving\n{err}"));
    }
}

/// A `run` that could not build says so itself.
#[test]
fn nothing() {
    hold("nothing", ":", 2, b"", "compose: nothing is written\n");
    let err = "run: no\ncompose: nothing is written\n";
    hold("no program", "echo 'run: no' >&2\nexit 2", 2, b"", err);
}

#[test]
fn a_read_or_write_that_failed() {
    let read = "compose: the text could not be read\n";
    hold("read", &format!("printf '{read}' >&2"), 2, b"", read);
    let write = "compose: the job could not be written\n";
    hold("write", &format!("printf '{write}' >&2"), 2, b"", write);
}

/// What is none of the three lines, or has something beside it, is a failure.
#[test]
fn other_words() {
    for said in [
        "line unreadable",
        "line 1 unreadable.",
        "refused 4",
        "a refused 4 at 7",
        "refused 4 at 7\nrefused 4 at 7",
        "line 1 unreadable\nline 2 unreadable",
        "loader: no such library",
    ] {
        let run = format!("echo '{said}' >&2");
        hold("other words", &run, 2, b"", &format!("{said}\n"));
    }
    let err = "refused 4 at 30compose: what was said is cut\n";
    hold("cut", "printf 'refused 4 at 30' >&2", 2, b"", err);
}

/// A part of a job is no job.
#[test]
fn bytes_that_are_no_job_stay_here() {
    for said in ["compose: the job could not be written", "refused 4 at 7"] {
        let run = format!("cat job\necho '{said}' >&2");
        let err = format!("{said}\ncompose: what was written is no job\n");
        hold("bytes and words", &run, 2, b"", &err);
    }
    let err = "compose: the job may be cut: the program ended with status 9\n";
    hold("status", "cat job\nexit 9", 2, b"", err);
}

/// Where what is said is not kept, a complaint may have been lost.
#[test]
fn a_job_is_not_trusted_where_words_may_be_lost() {
    let room = room("lost", "cat job");
    room.script("bin/tee", "#!/bin/sh\ncat >\"$1\"\nexit 1\n");
    let ended = run_in(&room, "PATH=\"$PWD/bin:$PATH\" ./compose");
    let err = "compose: the job may be cut: what was said could not be kept\n";
    assert_eq!((ended.status, ended.err.as_str()), (Some(2), err));
    assert!(ended.out.is_empty());
}

#[test]
fn bytes_of_any_kind_come_through() {
    let room = room("any bytes", "[ \"$*\" = compose ] && exec cat");
    let bytes: Vec<u8> = (0..=255).chain([0, 10, 10]).collect();
    room.write("text", &bytes);
    let ended = run_in(&room, "./compose <text");
    assert_eq!((ended.status, ended.err.as_str()), (Some(0), ""));
    assert_eq!(ended.out, bytes);
}

/// `run` is found beside the script, also behind a link and from another folder.
#[test]
fn from_another_folder() {
    let room = room("another folder", "cat \"$(dirname \"$0\")/job\"");
    let words = "mkdir other && ln -s ../compose other/link && cd / && \"$OLDPWD/other/link\"";
    let ended = run_in(&room, words);
    assert_eq!((ended.status, ended.err.as_str()), (Some(0), ""));
    assert!(ended.out == JOB);
}

/// A usage, or a stream that is closed: nothing is started.
#[test]
fn no_start() {
    for (words, err) in [
        ("./compose job", "usage: compose < TEXT > JOB"),
        (
            "./compose <&-",
            "the text could not be read: standard input is closed",
        ),
        (
            "./compose >&-",
            "the job could not be written: standard output is closed",
        ),
    ] {
        let room = room("no start", ": >started");
        let ended = run_in(&room, words);
        assert_eq!((ended.status, ended.out), (Some(2), Vec::new()));
        assert_eq!(ended.err, format!("compose: {err}\n"));
        assert!(!room.at("started").exists());
    }
}

/// The status does not depend on who hears the words.
#[test]
fn nobody_hears() {
    let words = "./compose 2>&-";
    let refused = run_in(&room("unheard", "echo 'refused 4 at 7' >&2"), words);
    assert_eq!((refused.status, refused.out), (Some(1), Vec::new()));
    let written = run_in(&room("unheard", "echo 'run: x' >&2\ncat job"), words);
    assert_eq!(written.status, Some(0));
    assert!(written.out == JOB);
}

/// Those who read the words go away while it builds.
#[test]
fn a_hearer_that_goes_away() {
    let run = "echo 'run: proving' >&2\nwhile ! [ -e gone ]; do sleep 0.1; done\necho 'refused 4 at 7' >&2";
    let room = room("no hearer", run);
    let mut child = room.shell("exec ./compose").spawn().unwrap();
    let mut words = BufReader::new(child.stderr.take().unwrap()).lines();
    assert_eq!(words.next().unwrap().unwrap(), "run: proving");
    drop(words);
    room.write("gone", b"");
    assert_eq!(ended(child).status, Some(1));
}

/// What `run` says is heard before it has ended.
#[test]
fn words_as_they_come() {
    let run = "echo 'run: words proved' >&2\nwhile ! [ -e heard ]; do sleep 0.1; done\ncat job";
    let room = room("as they come", run);
    let mut child = room.shell("exec ./compose").spawn().unwrap();
    let mut words = BufReader::new(child.stderr.take().unwrap()).lines();
    assert_eq!(words.next().unwrap().unwrap(), "run: words proved");
    room.write("heard", b"");
    let ended = ended(child);
    assert_eq!(ended.status, Some(0));
    assert!(ended.out == JOB);
}

/// `cat` says why before.
fn is_unwritten(ended: &Ended) {
    assert_eq!(ended.status, Some(2), "{}", ended.err);
    assert_eq!(ended.err.lines().last(), Some(UNWRITTEN));
}

#[test]
fn output_that_takes_no_more() {
    if Path::new("/dev/full").exists() {
        is_unwritten(&run_in(&room("full", "cat job"), "./compose >/dev/full"));
    }
}

/// A `run` that writes more than a pipe takes while nobody reads it.
const LONG: &str = "head -c 1000000 /dev/zero";

#[test]
fn a_reader_that_goes_away() {
    let room = room("no reader", LONG);
    for words in ["exec ./compose", "trap '' PIPE; exec ./compose"] {
        let mut child = room.shell(words).spawn().unwrap();
        assert_eq!(first(&mut child, 2), [0, 0]);
        drop(child.stdout.take());
        is_unwritten(&ended(child));
        assert_eq!(room.names("kept"), [""; 0]);
    }
}

/// A signal while the program runs: it ends too, and what it has written so far is not handed on.
#[test]
fn a_signal_before_the_job() {
    for (name, status) in [("HUP", 129), ("INT", 130), ("TERM", 143)] {
        let room = room(name, "cat job\n: >begun\nexec sleep 60");
        let child = room.command("./compose").spawn().unwrap();
        room.wait_for("begun");
        let sent = Instant::now();
        signal(&child, name);
        let ended = ended(child);
        assert_eq!((ended.status, ended.err.as_str()), (Some(status), ""));
        assert!(ended.out.is_empty());
        assert!(sent.elapsed() < Duration::from_secs(30));
        assert_eq!(room.names("kept"), [""; 0]);
    }
}

/// A signal while the job is written: no more of it is.
#[test]
fn a_signal_within_the_job() {
    let room = room("within", LONG);
    let mut child = room.command("./compose").spawn().unwrap();
    assert_eq!(first(&mut child, 2), [0, 0]);
    signal(&child, "TERM");
    assert_eq!(child.wait().unwrap().code(), Some(143));
    let ended = ended(child);
    assert!(ended.err.is_empty());
    assert!(ended.out.len() < 999_998);
    assert_eq!(room.names("kept"), [""; 0]);
}
