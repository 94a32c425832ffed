//! The store as octets (docs/LAYOUT.md): is it sound, and what does it say.

use crate::blocks::{block7_legal, Memory, BLOCKS, BLOCK_BYTES};
use crate::model::{Depot, Desk, Lock, DESKS, LOCKS, RECORD, TAB_SIZE};
use crate::timer::Timer;

pub const SIZE: usize = 40960;
pub const HEADER: usize = 6;

pub const ROW: usize = 1099;
pub const ROWS: usize = DESKS * ROW;
pub const ENTRY: usize = 1 + RECORD;
pub const MOST_ENTRIES: usize = 512;
pub const ENTRIES: usize = MOST_ENTRIES * ENTRY;

/// Where the fields of a row begin.
pub const RAM: usize = 0;
pub const EEPROM: usize = BLOCKS * BLOCK_BYTES;
pub const VALID_TIME: usize = 448;
pub const LOGGED_IN: usize = 450;
pub const TIMER: usize = 451;
pub const MARK: usize = 455;
pub const DUE: usize = 456;
pub const TAB_START: usize = 457;
pub const LOCK_COUNT: usize = 458;
pub const LOCK_LIST: usize = 459;
pub const LOCK: usize = 10;

pub fn word(octets: &[u8], at: usize) -> usize {
    usize::from(octets[at]) * 256 + usize::from(octets[at + 1])
}

pub fn rows_at(store: &[u8]) -> usize {
    word(store, 0)
}

pub fn entries_at(store: &[u8]) -> usize {
    word(store, 2)
}

pub fn used(store: &[u8]) -> usize {
    word(store, 4)
}

pub fn row(store: &[u8], desk: usize) -> &[u8] {
    let at = rows_at(store) + desk * ROW;
    &store[at..at + ROW]
}

/// The entries in use, oldest first: owner, then record.
pub fn entries(store: &[u8]) -> impl Iterator<Item = &[u8]> {
    let at = entries_at(store);
    store[at..at + used(store) * ENTRY].chunks(ENTRY)
}

pub fn held(store: &[u8], desk: usize) -> usize {
    entries(store).filter(|entry| usize::from(entry[0]) == desk).count()
}

/// The soundness test, for any octets of any length.
pub fn sound(store: &[u8]) -> bool {
    store.len() == SIZE
        && areas_sound(store)
        && used(store) <= MOST_ENTRIES
        && entries(store).all(|entry| usize::from(entry[0]) < DESKS)
        && (0..DESKS).all(|desk| row_sound(row(store, desk), held(store, desk)))
}

fn areas_sound(store: &[u8]) -> bool {
    let (rows, entries) = (rows_at(store), entries_at(store));
    let inside = |at: usize, length: usize| at >= HEADER && at + length <= SIZE;
    let apart = rows + ROWS <= entries || entries + ENTRIES <= rows;
    inside(rows, ROWS) && inside(entries, ENTRIES) && apart
}

fn row_sound(row: &[u8], held: usize) -> bool {
    let flags = row[LOGGED_IN] <= 1 && row[MARK] <= 1;
    let counts = held <= TAB_SIZE
        && usize::from(row[DUE]) <= held
        && usize::from(row[TAB_START]) < TAB_SIZE
        && usize::from(row[LOCK_COUNT]) <= LOCKS;
    let mark = row[MARK] == 0 || held == TAB_SIZE;
    let blocks = block7_legal(&memory(row, RAM)[7]) && block7_legal(&memory(row, EEPROM)[7]);
    flags && counts && mark && timer(row).legal() && blocks && locks_sound(row)
}

fn locks_sound(row: &[u8]) -> bool {
    let locks = locks(row);
    let most = word(row, VALID_TIME);
    let ticks = locks.iter().all(|lock| 1 <= lock.left && usize::from(lock.left) <= most);
    let twice = (0..locks.len()).any(|i| locks[..i].iter().any(|lock| lock.uid == locks[i].uid));
    ticks && !twice
}

pub fn timer(row: &[u8]) -> Timer {
    Timer::from_octets([row[TIMER], row[TIMER + 1], row[TIMER + 2], row[TIMER + 3]])
}

fn memory(row: &[u8], at: usize) -> Memory {
    std::array::from_fn(|block| std::array::from_fn(|byte| row[at + block * BLOCK_BYTES + byte]))
}

fn locks(row: &[u8]) -> Vec<Lock> {
    let count = usize::from(row[LOCK_COUNT]);
    let octets = &row[LOCK_LIST..LOCK_LIST + count * LOCK];
    octets.chunks(LOCK).map(lock).collect()
}

fn lock(octets: &[u8]) -> Lock {
    let mut uid = [0; 8];
    uid.copy_from_slice(&octets[..8]);
    Lock { uid, left: u16::from_be_bytes([octets[8], octets[9]]) }
}

/// The box that sound octets say; nothing when they are not sound.
pub fn load(store: &[u8]) -> Option<Depot> {
    sound(store).then(|| Depot { desks: std::array::from_fn(|desk| load_desk(store, desk)) })
}

fn load_desk(store: &[u8], desk: usize) -> Desk {
    let row = row(store, desk);
    let owned = entries(store).filter(|entry| usize::from(entry[0]) == desk);
    Desk {
        ram: memory(row, RAM),
        eeprom: memory(row, EEPROM),
        valid_time: word(row, VALID_TIME) as u16,
        logged_in: row[LOGGED_IN] == 1,
        timer: timer(row),
        records: owned.map(|entry| std::array::from_fn(|i| entry[1 + i])).collect(),
        locks: locks(row),
        mark: row[MARK] == 1,
        due: usize::from(row[DUE]),
        tab_start: usize::from(row[TAB_START]),
    }
}
