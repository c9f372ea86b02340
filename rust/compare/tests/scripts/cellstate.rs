//! `cellstate` beside a `run` that writes a printout, or something else. What it does as `reference` does stands in
//! `keep.sh`, and is tested there.

use crate::room::{end, Room};

const WHOLE: &str = include_str!("../../../../cells/medium.printout");
const HEADER: &str = "frame slot state from_frame from_slot\n";
const CUT: &str = "cellstate: the printout stops before its last line\n";

/// Status and standard error of a printout, which comes through as it is.
fn hold(name: &str, printout: &str, status: i32, err: &str) {
    let room = Room::new(name);
    room.copy_starter("cellstate", ".");
    room.script("run", "#!/bin/sh\n[ \"$*\" = cellstate ] && exec cat\n");
    room.write("text", printout.as_bytes());
    let ended = end(room.shell("./cellstate <text"));
    assert_eq!(room.names("kept"), [""; 0]);
    assert_eq!((ended.status, ended.err.as_str()), (Some(status), err));
    assert_eq!(ended.out, printout.as_bytes());
}

#[test]
fn a_whole_printout() {
    hold("whole run", WHOLE, 0, "");
    let none = format!("{HEADER}state b medium 1 0 yes 0\nslots 0\n");
    hold("no slots", &none, 0, "");
}

#[test]
fn a_printout_that_ends_in_a_reason() {
    for last in ["refused 13 at 0", "line 7 unreadable", "input too long"] {
        hold(last, &format!("{last}\n"), 1, "");
        hold(last, &format!("{HEADER}0 7 primary 0 10\n{last}\n"), 1, "");
    }
}

#[test]
fn a_printout_that_stops_early() {
    hold("cut in its end", WHOLE.trim_end(), 2, CUT);
    hold("cut after the header", HEADER, 2, CUT);
    hold("no printout", "", 2, "cellstate: the printout is empty\n");
}
