//! Every rule of the soundness test, at its edge on both sides.

use second::blocks::BLOCK_BYTES;
use second::frame::Refusal;
use second::place::{self, REPLY_BUFFER};
use second::store::*;

const ROW3: usize = HEADER + 3 * ROW;

/// Desk 3 holds `held` records, desk 0 holds one; desk 3 has two locks.
fn store(held: usize) -> Vec<u8> {
    let mut store = vec![0; SIZE];
    place::fresh(&mut store).unwrap();
    place::sighting(&mut store, 0, [1; 8], 1).unwrap();
    for index in 0..held {
        place::sighting(&mut store, 3, [index as u8; 8], 1).unwrap();
    }
    store[ROW3 + LOCK_COUNT] = 2;
    store
}

fn with(store: &[u8], at: usize, octets: &[u8]) -> bool {
    let mut changed = store.to_vec();
    changed[at..at + octets.len()].copy_from_slice(octets);
    let answer = place::tick(&mut changed.clone());
    assert_eq!(answer == Err(Refusal::Store), !sound(&changed));
    assert_eq!(place::test(&changed), if sound(&changed) { Ok(()) } else { Err(Refusal::Store) });
    sound(&changed)
}

fn header(rows: usize, entries: usize) -> Vec<u8> {
    [rows, entries].iter().flat_map(|&at| (at as u16).to_be_bytes()).collect()
}

#[test]
fn size() {
    let store = store(3);
    assert!(sound(&store));
    assert!(!sound(&store[..SIZE - 1]) && !sound(&[]) && !sound(&[0; 5]));
    assert!(!sound(&[&store[..], &[0]].concat()));
}

#[test]
fn areas() {
    let empty = vec![0; SIZE];
    let zero = |rows, entries| with(&empty, 0, &header(rows, entries));
    assert!(zero(6, 6 + ROWS) && zero(6 + ENTRIES, 6));
    assert!(!zero(5, 6 + ROWS) && !zero(6 + ENTRIES, 5));
    assert!(!zero(6, 5 + ROWS) && !zero(5 + ENTRIES, 6));
    assert!(zero(6, SIZE - ENTRIES) && !zero(6, SIZE - ENTRIES + 1));
    assert!(zero(SIZE - ROWS, 6) && !zero(SIZE - ROWS + 1, 6));
    assert!(!zero(6, 65535) && !zero(65535, 6) && !zero(6, 6));
}

#[test]
fn owners() {
    let full = store(64);
    let entries = HEADER + ROWS;
    assert!(sound(&full));
    assert!(with(&full, entries, &[7]) && !with(&full, entries, &[8]));
    assert!(!with(&full, entries, &[3]), "65 records of desk 3");
    assert!(with(&full, 4, &[0, 64]) && !with(&full, 4, &[2, 1]));
    assert!(with(&full, entries + 65 * ENTRY, &[255]), "an entry not in use");
}

#[test]
fn flags_and_counts() {
    let (some, full) = (store(63), store(64));
    let is = |store: &[u8], field, octet| with(store, ROW3 + field, &[octet]);
    assert!(is(&some, LOGGED_IN, 1) && !is(&some, LOGGED_IN, 2));
    assert!(is(&full, MARK, 1) && !is(&full, MARK, 2) && !is(&some, MARK, 1));
    assert!(is(&some, DUE, 63) && !is(&some, DUE, 64) && is(&full, DUE, 64));
    assert!(is(&some, TAB_START, 63) && !is(&some, TAB_START, 64));
    assert!(is(&full, LOCK_COUNT, 64) && !is(&full, LOCK_COUNT, 65));
}

#[test]
fn timers() {
    let some = store(3);
    let timer = |octets: [u8; 4]| with(&some, ROW3 + TIMER, &octets);
    assert!(timer([23, 59, 0xEA, 0x5F]));
    assert!(!timer([24, 0, 0, 0]) && !timer([0, 60, 0, 0]) && !timer([0, 0, 0xEA, 0x60]));
}

#[test]
fn blocks_7() {
    let some = store(3);
    for memory in [RAM, EEPROM] {
        let byte = |at, octet| with(&some, ROW3 + memory + 7 * BLOCK_BYTES + at, &[octet]);
        assert!(byte(0, 0) && !byte(0, 1) && !byte(0, 3));
        assert!(byte(1, 0x80) && !byte(1, 0x81) && byte(3, 0) && !byte(3, 0x21));
        assert!(byte(13, 0x43) && !byte(13, 0x44) && !byte(13, 0x50));
    }
}

#[test]
fn locks() {
    let some = store(3);
    let first = ROW3 + LOCK_LIST;
    let left = |octets: [u8; 2]| with(&some, first + 8, &octets);
    assert!(left([0, 1]) && left([0, 55]));
    assert!(!left([0, 0]) && !left([0, 56]) && !left([1, 1]));
    assert!(!with(&some, first, &[1; 8]), "one UID twice");
    assert!(with(&some, first, &[2; 8]), "the third lock is not counted");
    assert!(!with(&some, ROW3 + VALID_TIME, &[0, 54]));
}

/// The order of refusals of a frame.
#[test]
fn refusals_rise() {
    let mut good = store(3);
    let mut bad = good.clone();
    bad[0] = 0xFF;
    let mut short = [0; REPLY_BUFFER - 1];
    let mut out = [0; REPLY_BUFFER];
    let wrong = [5, 9, 0x64, 0, 0];
    assert_eq!(place::frame(&mut bad, &[], &mut short), Err(Refusal::Store));
    assert_eq!(place::frame(&mut good, &[], &mut short), Err(Refusal::ReplyBuffer));
    assert_eq!(place::frame(&mut good, &[], &mut out), Err(Refusal::NoOctets));
    assert_eq!(place::frame(&mut good, &wrong, &mut out), Err(Refusal::Crc));
    assert_eq!(place::sighting(&mut good, 8, [0; 8], 0), Err(Refusal::Desk));
    assert_eq!(place::sighting(&mut good, u64::MAX, [0; 8], 1), Err(Refusal::Desk));
    assert_eq!(place::sighting(&mut good, 7, [0; 8], 0), Err(Refusal::Argument));
    assert_eq!(place::sighting(&mut bad, 8, [0; 8], 0), Err(Refusal::Store));
}
