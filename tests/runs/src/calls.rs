//! The calls on a store at the library's box and at the second program's, whose answers are told in the library's numbers.

use crate::guarded::{Guarded, Mark};
use depot::numbers::{DONE, IGNORED, LOST, RECORDED, TOLD, WRITTEN};
use second::frame::Refusal;
use second::gen::Gen;
use second::listing::{event, Event};
use second::model::{Seen, Uid};
use second::place;
use std::fmt::Debug;

/// A call on a store, with numbers as wide as C passes them.
#[derive(Clone, PartialEq, Eq, Debug)]
pub enum Call {
    Frame(Vec<u8>),
    Sighting { desk: u64, uid: Uid, mask: u64 },
    Tick,
}

/// The call of the next line that is an event.
pub fn next_call(gen: &mut Gen) -> Call {
    loop {
        match event(&gen.next_line()) {
            Event::Frame(octets) => return Call::Frame(octets),
            Event::Sighting { desk, uid, mask } => return Call::Sighting { desk: desk.into(), uid, mask: mask.into() },
            Event::Tick => return Call::Tick,
            Event::NotRead => {}
        }
    }
}

/// A call at the library's box: its code.
pub fn library(store: &mut [u8], call: &Call, out: &mut [u8]) -> u64 {
    match call {
        Call::Frame(octets) => depot::raw::frame(store, octets, out),
        Call::Sighting { desk, uid, mask } => depot::raw::sighting(store, *desk, u64::from_be_bytes(*uid), *mask),
        Call::Tick => depot::raw::tick(store),
    }
}

/// The same at the second program's box on octets.
pub fn second_box(store: &mut [u8], call: &Call, out: &mut [u8]) -> u64 {
    match call {
        Call::Frame(octets) => octets_code(place::frame(store, octets, out)),
        Call::Sighting { desk, uid, mask } => seen_code(place::sighting(store, *desk, *uid, octet_mask(*mask))),
        Call::Tick => done_code(place::tick(store)),
    }
}

/// A call that writes only to a lent output, at both: the same code, and the same left in the output.
pub fn both<T: Mark>(what: impl Debug, out: &[T], second: impl FnOnce(&mut [T]) -> u64, library: impl FnOnce(&mut [T]) -> u64) -> u64 {
    let (mut wanted, mut mine) = (out.to_vec(), Guarded::new(out));
    let code = second(&mut wanted);
    assert_eq!(library(mine.inner()), code, "{what:02X?}");
    assert!(mine.taken("output") == wanted, "{what:02X?}: the output differs");
    code
}

/// "6 (a mask of 0 or above 255)": what is too large is refused as 0 is.
fn octet_mask(mask: u64) -> u8 {
    mask.try_into().unwrap_or(0)
}

pub fn refused(refusal: Refusal) -> u64 {
    u64::from(refusal.number())
}

pub fn is_refusal(code: u64) -> bool {
    (1..64).contains(&code)
}

pub fn octets_code(made: Result<usize, Refusal>) -> u64 {
    made.map_or_else(refused, |length| WRITTEN + length as u64)
}

pub fn done_code(done: Result<(), Refusal>) -> u64 {
    done.map_or_else(refused, |()| DONE)
}

pub fn seen_code(seen: Result<Seen, Refusal>) -> u64 {
    seen.map_or_else(refused, |seen| match seen {
        Seen::Ignored(left) => IGNORED + u64::from(left),
        Seen::Lost => LOST,
        Seen::Recorded => RECORDED,
    })
}

/// The name of an ignored sighting, by its ticks.
fn ignored(left: u64) -> &'static str {
    match left {
        1 => "ignored, one tick left",
        256..65535 => "ignored, more than 255 ticks left",
        65535 => "ignored, 65535 ticks left",
        _ => "ignored",
    }
}

/// The name of a code.
pub fn outcome(code: u64) -> String {
    match code {
        DONE => "done".into(),
        1..64 => format!("refused {code}"),
        RECORDED => "recorded".into(),
        LOST => "lost".into(),
        IGNORED..TOLD => ignored(code - IGNORED).into(),
        WRITTEN.. => "written".into(),
        _ => format!("status {:#04X}", (code - TOLD) >> 24),
    }
}
