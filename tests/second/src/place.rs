//! The five calls on the octets of a store, in place.

use crate::blocks::DEFAULTS;
use crate::frame::{judge_request, seal, Refusal, LONGEST};
use crate::model::{record, Seen, Uid, DESKS, LOCKS, TAB_SIZE};
use crate::place_commands;
use crate::store::*;

/// The reply buffer must hold the longest reply.
pub const REPLY_BUFFER: usize = LONGEST;

/// Every octet of a fresh store is given; nothing of what lay there is left.
pub fn fresh(store: &mut [u8]) -> Result<(), Refusal> {
    if store.len() != SIZE {
        return Err(Refusal::Store);
    }
    store.fill(0);
    put_word(store, 0, HEADER);
    put_word(store, 2, HEADER + ROWS);
    for desk in 0..DESKS {
        let row = row_mut(store, desk);
        row[RAM..EEPROM].copy_from_slice(DEFAULTS.as_flattened());
        row[EEPROM..VALID_TIME].copy_from_slice(DEFAULTS.as_flattened());
        put_word(row, VALID_TIME, 55);
    }
    Ok(())
}

/// How long the reply is that now stands at the start of `out`.
pub fn frame(store: &mut [u8], octets: &[u8], out: &mut [u8]) -> Result<usize, Refusal> {
    test(store)?;
    if out.len() < REPLY_BUFFER {
        return Err(Refusal::ReplyBuffer);
    }
    let frame = judge_request(octets)?;
    let desk = usize::from(frame.address);
    if desk >= DESKS {
        return Err(Refusal::Desk);
    }
    let rest = place_commands::answered(store, desk, &frame).octets();
    let reply = seal(frame.kind, frame.address, frame.control, &rest);
    out[..reply.len()].copy_from_slice(&reply);
    Ok(reply.len())
}

pub fn sighting(store: &mut [u8], desk: u64, uid: Uid, mask: u8) -> Result<Seen, Refusal> {
    test(store)?;
    if desk >= DESKS as u64 {
        return Err(Refusal::Desk);
    }
    if mask == 0 {
        return Err(Refusal::Argument);
    }
    Ok(sight(store, desk as usize, uid, mask))
}

pub fn tick(store: &mut [u8]) -> Result<(), Refusal> {
    test(store)?;
    for desk in 0..DESKS {
        let row = row_mut(store, desk);
        sweep(row);
        let mut timer = timer(row);
        timer.tick();
        row[TIMER..MARK].copy_from_slice(&timer.octets());
    }
    Ok(())
}

/// Is it sound: what the other three calls test first.
pub fn test(store: &[u8]) -> Result<(), Refusal> {
    if sound(store) {
        Ok(())
    } else {
        Err(Refusal::Store)
    }
}

pub fn row_mut(store: &mut [u8], desk: usize) -> &mut [u8] {
    let at = rows_at(store) + desk * ROW;
    &mut store[at..at + ROW]
}

fn put_word(octets: &mut [u8], at: usize, number: usize) {
    octets[at] = (number / 256) as u8;
    octets[at + 1] = (number % 256) as u8;
}

fn sight(store: &mut [u8], desk: usize, uid: Uid, mask: u8) -> Seen {
    let full = held(store, desk) == TAB_SIZE;
    let row = row_mut(store, desk);
    let count = usize::from(row[LOCK_COUNT]);
    let mut locks = row[LOCK_LIST..LOCK_LIST + count * LOCK].chunks(LOCK);
    if let Some(lock) = locks.find(|lock| lock[..8] == uid) {
        return Seen::Ignored(word(lock, 8) as u16);
    }
    if full {
        row[MARK] = 1;
        return Seen::Lost;
    }
    let new = record(uid, timer(row), mask);
    if word(row, VALID_TIME) > 0 {
        add_lock(row, uid);
    }
    add_entry(store, desk, &new);
    Seen::Recorded
}

fn add_lock(row: &mut [u8], uid: Uid) {
    if usize::from(row[LOCK_COUNT]) == LOCKS {
        row.copy_within(LOCK_LIST + LOCK..LOCK_LIST + LOCKS * LOCK, LOCK_LIST);
        row[LOCK_COUNT] -= 1;
    }
    let at = LOCK_LIST + usize::from(row[LOCK_COUNT]) * LOCK;
    row[at..at + 8].copy_from_slice(&uid);
    row.copy_within(VALID_TIME..VALID_TIME + 2, at + 8);
    row[LOCK_COUNT] += 1;
}

fn add_entry(store: &mut [u8], desk: usize, record: &[u8]) {
    let count = used(store);
    let at = entries_at(store) + count * ENTRY;
    store[at] = desk as u8;
    store[at + 1..at + ENTRY].copy_from_slice(record);
    put_word(store, 4, count + 1);
}

fn sweep(row: &mut [u8]) {
    let mut kept = 0;
    for index in 0..usize::from(row[LOCK_COUNT]) {
        let at = LOCK_LIST + index * LOCK;
        let left = word(row, at + 8) - 1;
        if left > 0 {
            put_word(row, at + 8, left);
            row.copy_within(at..at + LOCK, LOCK_LIST + kept * LOCK);
            kept += 1;
        }
    }
    row[LOCK_COUNT] = kept as u8;
}

/// Closes the gaps that the desk's oldest `count` records leave.
pub fn remove_entries(store: &mut [u8], desk: usize, count: usize) {
    let base = entries_at(store);
    let (mut kept, mut gone) = (0, 0);
    for index in 0..used(store) {
        let at = base + index * ENTRY;
        if usize::from(store[at]) == desk && gone < count {
            gone += 1;
        } else {
            store.copy_within(at..at + ENTRY, base + kept * ENTRY);
            kept += 1;
        }
    }
    put_word(store, 4, kept);
}
