//! `run` in a small repository, with a toolchain whose `rt` builds a program that repeats its input. At the end: `compose`
//! beside it.

use crate::room::{end, ended, signal, Ended, Room};
use std::process::Command;
use std::time::{Duration, Instant};

/// It notes each start.
const BUILDS: &str = "#!/bin/sh
echo \"$*\" >>../../starts
sleep 0.2
mkdir -p out
printf '#!/bin/sh\\ncat\\nexit 5\\n' >out/reference
chmod +x out/reference
{
    echo 'library levels: modules loaded=38'
    echo 'crate reference: modules loaded=38'
    echo 'logic=proved functions=9'
    echo 'rt: running out/reference; to give it other input, run that file yourself'
} >&2
exit 5
";

const BEFORE: &str = "run: proving and building reference and what it needs. \
The first time takes some minutes;\n\
run: later only what changed is proved again. One line for each crate follows.\n";

/// A repository with the script, and a toolchain with this `rt`.
fn room(name: &str, rt: &str) -> Room {
    let room = Room::new(name);
    room.copy("run", "main/run");
    room.write("main/crates.txt", b"levels:\nreference: levels\n");
    room.write("main/crates/levels/src/lib.rt", b"");
    room.write("main/crates/reference/src/main.rt", b"");
    room.write("kit/KIT-ID", b"one\n");
    room.script("kit/bin/rt", rt);
    room
}

fn command(room: &Room, words: &str) -> Command {
    let mut command = room.shell(words);
    let path = std::env::var("PATH").unwrap();
    command.env("PATH", format!("{}:{path}", room.at("kit/bin").display()));
    command
}

fn starts(room: &Room) -> String {
    std::fs::read_to_string(room.at("main/starts")).unwrap_or_default()
}

/// The program's bytes and status, and what was said before.
fn hold(ended: Ended, err: &str) {
    assert_eq!((ended.status, ended.err.as_str()), (Some(5), err));
    assert_eq!(ended.out, b"job");
}

/// It builds what is not built, or was built by another toolchain or from other sources, and says so.
#[test]
fn it_builds_what_has_changed() {
    let room = room("builds", BUILDS);
    let words = "printf job | main/run reference";
    let built = format!("{BEFORE}run: reference proved\n");
    hold(end(command(&room, words)), &built);
    hold(end(command(&room, words)), "");
    assert_eq!(starts(&room), "run reference\n");
    room.write("kit/KIT-ID", b"two\n");
    hold(end(command(&room, words)), &built);
    room.write("main/crates/levels/src/lib.rt", b"// other\n");
    hold(end(command(&room, words)), &built);
    hold(end(command(&room, words)), "");
    assert_eq!(starts(&room), "run reference\n".repeat(3));
    assert_eq!(
        room.names("main/target"),
        ["lock", "reference.checked", "reference.log"]
    );
}

/// The second waits, and then finds the program built.
#[test]
fn two_at_a_time_build_once() {
    let there = Command::new("sh")
        .args(["-c", "command -v flock"])
        .output()
        .unwrap();
    if !there.status.success() {
        return;
    }
    let room = room("two", BUILDS);
    let words = "printf job | main/run reference";
    let both = [0, 1].map(|_| command(&room, words).spawn().unwrap());
    let mut said: Vec<String> = both
        .map(|child| {
            let ended = ended(child);
            assert_eq!((ended.status, ended.out), (Some(5), b"job".to_vec()));
            ended.err
        })
        .to_vec();
    said.sort_by_key(String::len);
    assert_eq!(said[1], format!("{BEFORE}run: reference proved\n"));
    let waited = "run: waiting for another that proves and builds here\n";
    assert!(["", waited].contains(&said[0].as_str()));
    assert_eq!(starts(&room), "run reference\n");
}

#[test]
fn a_build_that_fails_leaves_nothing() {
    let room = room(
        "fails",
        "#!/bin/sh\n{ echo 'crate levels: modules loaded=2'; echo said; echo 'logic=not-proved'; } >&2\nexit 1\n",
    );
    let ended = end(command(&room, "main/run reference"));
    let (before, last) = ended.err.split_once("run: levels NOT PROVED\n").unwrap();
    assert_eq!((ended.status, before), (Some(2), BEFORE));
    assert!(last.starts_with("run: the program is not proved and built: "));
    assert!(ended.out.is_empty());
    assert_eq!(room.names("main/target"), ["lock", "reference.log"]);
}

#[test]
fn a_signal_ends_a_build() {
    let room = room("signal", "#!/bin/sh\n: >../../begun\nexec sleep 60\n");
    let child = command(&room, "exec main/run reference").spawn().unwrap();
    room.wait_for("main/begun");
    let sent = Instant::now();
    signal(&child, "TERM");
    let ended = ended(child);
    assert_eq!((ended.status, ended.err.as_str()), (Some(2), BEFORE));
    assert!(ended.out.is_empty());
    assert!(sent.elapsed() < Duration::from_secs(30));
    assert_eq!(room.names("main/target"), ["lock", "reference.log"]);
}

#[test]
fn arguments() {
    let room = room("arguments of run", BUILDS);
    for words in ["main/run", "main/run reference job"] {
        let ended = end(command(&room, words));
        let err = "run: usage: run PROGRAM < INPUT\n";
        assert_eq!((ended.status, ended.err.as_str()), (Some(2), err));
        assert!(ended.out.is_empty());
    }
    assert_eq!(starts(&room), "");
}

/// A toolchain that builds a program which takes one word for a job.
const COMPOSES: &str = "#!/bin/sh
mkdir -p out
cat >out/compose <<'PROGRAM'
#!/bin/sh
read -r word
[ \"$word\" = job ] && printf '\\1\\3' || echo 'line 1 unreadable' >&2
PROGRAM
chmod +x out/compose
{
    echo 'library words: modules loaded=38'
    echo 'crate compose: modules loaded=38'
    echo 'logic=proved functions=6'
    echo 'rt: running out/compose; to give it other input, run that file yourself'
} >&2
";

/// The first time it is built, and that is said; then it is there.
#[test]
fn compose_is_built_first() {
    let room = room("compose builds", COMPOSES);
    room.write("main/crates/compose/src/main.rt", b"");
    room.copy_starter("compose", "main");
    for (word, built, status, out, last) in [
        ("none", true, 1, "", "line 1 unreadable\n"),
        ("none", false, 1, "", "line 1 unreadable\n"),
        ("job", false, 0, "\u{1}\u{3}", ""),
    ] {
        let ended = end(command(&room, &format!("echo {word} | main/compose")));
        assert_eq!(
            (ended.status, ended.out.as_slice()),
            (Some(status), out.as_bytes())
        );
        let before = ended.err.strip_suffix(last).unwrap();
        assert_eq!(!before.is_empty(), built, "{before}");
        if built {
            assert!(before.starts_with("run: proving and building compose and what it needs."));
            assert!(before.ends_with("\nrun: compose proved\n"));
        }
        assert_eq!(room.names("kept"), [""; 0]);
    }
}

#[test]
fn compose_that_is_not_built() {
    let rt = "#!/bin/sh\n{ echo 'crate words: modules loaded=2'; echo 'logic=not-proved'; } >&2\nexit 1\n";
    let room = room("compose fails", rt);
    room.write("main/crates/compose/src/main.rt", b"");
    room.copy_starter("compose", "main");
    let ended = end(command(&room, "echo job | main/compose"));
    assert_eq!((ended.status, ended.out), (Some(2), Vec::new()));
    assert!(ended
        .err
        .contains("\nrun: words NOT PROVED\nrun: the program is not proved and built: "));
    assert!(ended.err.ends_with("\ncompose: nothing is written\n"));
}
