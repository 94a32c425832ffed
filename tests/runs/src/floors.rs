//! What hostile calls must meet, and how often.

use second::command::known;
use second::frame::Kind;
use second::lengths::cells;
use second::shapes::CONTROLS;
use second::situations::statuses;

/// `(calls, call, outcomes)`: each outcome of that call is met at least once in so many calls. A run of fewer calls than that is
/// not asked for it, so that a short run, as under valgrind, is asked for the frequent ones alone. The numbers leave room for
/// chance: in sixty runs of 100000 calls the least count was at least twice the floor.
const FLOORS: [(u64, &str, &[&str]); 50] = [
    (500, "history", &["0x80 answers 0x00", "0x81 answers 0x00", "0x22 answers 0x00", "done", "recorded"]),
    (1000, "history", &["0xA0 answers 0x00"]),
    (2000, "history", &["ignored"]),
    (RARE, "history", &["ignored, one tick left", "ignored, more than 255 ticks left", "refused 3"]),
    (100000, "history", &["ignored, 65535 ticks left"]),
    (5000, "history", &["0x80 answers 0x13", "0xA0 answers 0x14", "0x64 answers 0x00", "0x22 answers 0x93", "0x22 answers 0x94"]),
    (5000, "history", &["unknown answers 0x80", "refused 31", "refused 32", "refused 33", "refused 4", "refused 5", "lost"]),
    (RARE, "history", &["refused 6"]),
    (500, "frame", &["refused 1", "refused 2", "status 0x00"]),
    (5000, "frame", &["refused 33", "status 0x11", "status 0x13", "status 0x81"]),
    (100000, "frame", &["refused 3", "refused 5"]),
    (RARE, "frame", &["refused 31", "refused 32"]),
    (RARE, "frame", &["refused 4", "status 0x14", "status 0x15", "status 0x16", "status 0x80"]),
    (RARE, "frame", &["status 0x92", "status 0x93", "status 0x94"]),
    (500, "sighting", &["refused 1", "refused 5, a mask of 0 or above 255 as well", "refused 6, above 255", "recorded"]),
    (5000, "sighting", &["refused 5", "refused 5, above 255", "refused 6", "ignored", "lost"]),
    (RARE, "sighting", &["ignored, one tick left", "ignored, more than 255 ticks left"]),
    (500, "tick", &["refused 1", "done"]),
    (500, "fresh", &["refused 1", "done"]),
    (500, "test", &["refused 1", "done"]),
    (500, "make", &["refused 5", "refused 6", "refused 7", "written"]),
    (500, "make", &["refused 6, no kind", "refused 6, no command", "refused 6, a control above 255"]),
    (5000, "make", &["refused 5, no kind", "refused 5, no command", "refused 5, a control above 255"]),
    (5000, "make", &["refused 6, bytes of another length"]),
    (1000, "read", &["refused 4"]),
    (500, "read", &["refused 8", "refused 8, no kind", "refused 8, no command", "refused 8, a control above 255"]),
    (5000, "read", &["refused 3", "refused 31", "refused 32", "refused 33", "refused 4, a control above 255", "refused 8, bytes of another length"]),
    (500, "read", &["status 0x00"]),
    (5000, "read", &["status 0x11", "status 0x13", "status 0x14", "status 0x93", "status 0x94"]),
    (RARE, "read", &["status 0x15", "status 0x92", "refused 33, no kind", "refused 33, no command", "refused 4, no kind", "refused 4, no command"]),
    (RARE, "make", &["written, a password into RAM", "refused 7, a password into RAM"]),
    (100000, "read", &["status 0x13, a password into RAM", "status 0x16, a password into RAM"]),
    (RARE, "read", &["refused 8, a password into RAM"]),
    (500, "line", &["refused 6", "written"]),
    (500, "lines", &["refused 6"]),
    (2000, "lines", &["refused 7", "written"]),
    (2000, "line", &["refused 6, a block of another length", "refused 6, a record of another length"]),
    (5000, "line", &["refused 7"]),
    (2000, "lines", &["refused 6, a block of another length", "refused 6, data that no reply carries"]),
    (5000, "lines", &["written, no data"]),
    (5000, "line", &["written, TAB between", "written, TAB as end"]),
    (5000, "line", &["written, the user's 0x07 between", "written, the user's 0x07 as end"]),
    (5000, "lines", &["written, TAB between", "written, TAB as end"]),
    (RARE, "lines", &["written, the user's 0x07 between", "written, the user's 0x07 as end"]),
    (5000, "block", &["refused 7", "refused 8", "written"]),
    (5000, "timer", &["refused 7", "refused 8", "written"]),
    (5000, "sizes", &["refused 7", "refused 8", "written"]),
    (2000, "record", &["refused 6", "refused 7", "written"]),
    (2000, "record", &["refused 6, data that no reply carries", "refused 7, data that no reply carries"]),
    (2000, "record", &["refused 8, data that no reply carries"]),
];

const RARE: u64 = 40000;

/// Each name with its floor in a run of `count` calls. In the long history every command gives each of its statuses; the reader meets
/// every cell of the table of lengths at its edges.
pub fn floors(count: u64) -> Vec<(String, u64)> {
    let named = |call: &str, outcome: &str, calls: u64| (format!("{call}: {outcome}"), count / calls);
    let mut floors = Vec::new();
    for control in CONTROLS {
        let every = statuses(control).iter().chain(&[0x81]);
        floors.extend(every.map(|&status| named("history", &answers(control, status), RARE)));
    }
    floors.extend(cells(Kind::shortest_reply).iter().map(|cell| named("read", cell, RARE)));
    for (calls, call, outcomes) in FLOORS {
        floors.extend(outcomes.iter().map(|outcome| named(call, outcome, calls)));
    }
    floors
}

/// The name of a command's status.
pub fn answers(control: u8, status: u8) -> String {
    match known(control) {
        Some(_) => format!("{control:#04X} answers {status:#04X}"),
        None => format!("unknown answers {status:#04X}"),
    }
}
