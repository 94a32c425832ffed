//! The commands of a desk on the octets of a store, in place.

use crate::blocks::{self, Loc, Named, BLOCKS, BLOCK_BYTES, DEFAULTS};
use crate::command::*;
use crate::frame::{Frame, Kind};
use crate::model::TAB_SIZE;
use crate::place::{remove_entries, row_mut};
use crate::store::*;
use crate::timer::Timer;

pub fn answered(store: &mut [u8], desk: usize, frame: &Frame) -> Reply {
    let Some(known) = known(frame.control) else {
        return Reply::bare(UNKNOWN);
    };
    if frame.rest.len() != known.length {
        return Reply::bare(WRONG_LENGTH);
    }
    if known.login && row(store, desk)[LOGGED_IN] == 0 {
        return Reply::bare(LOGIN_NEEDED);
    }
    let data = frame.rest;
    match known.command {
        Command::CpuReset => cpu_reset(row_mut(store, desk)),
        Command::SystemReset => {
            empty(store, desk);
            row_mut(store, desk)[TIMER..MARK].fill(0);
            cpu_reset(row_mut(store, desk))
        }
        Command::ReadRecords => read_records(store, desk, frame.kind, word(data, 0)),
        Command::TableInfo => table_info(store, desk),
        Command::RemoveRecords => remove(store, desk),
        Command::EmptyRecords => empty(store, desk),
        other => on_row(row_mut(store, desk), other, data),
    }
}

/// The commands that need nothing but the row of the desk.
fn on_row(row: &mut [u8], command: Command, data: &[u8]) -> Reply {
    let done = match command {
        Command::Baud => data[0] == 0,
        Command::GetTimer => return Reply::with(row[TIMER..MARK].to_vec()),
        Command::ReadBlock => return read_block(row, data[0]),
        Command::WriteBlock => return write_block(row, data),
        Command::SaveBlocks => save(row, data[0]),
        Command::SetDefaults => defaults(row, data[0]),
        Command::SetTimer => set_timer(row, data),
        _ => return login(row, data),
    };
    Reply::bare(if done { OK } else { PARAMETER })
}

fn cpu_reset(row: &mut [u8]) -> Reply {
    row.copy_within(EEPROM..VALID_TIME, RAM);
    let block12 = EEPROM + 12 * BLOCK_BYTES;
    row.copy_within(block12..block12 + 2, VALID_TIME);
    row[LOGGED_IN] = 0;
    row[LOCK_COUNT] = 0;
    Reply::bare(OK)
}

/// 0x33, and a part of 0x64.
fn empty(store: &mut [u8], desk: usize) -> Reply {
    remove_entries(store, desk, TAB_SIZE);
    row_mut(store, desk)[MARK..=LOCK_COUNT].fill(0);
    Reply::bare(OK)
}

fn block_at(loc: Loc, block: usize) -> usize {
    let base = if loc == Loc::Ram { RAM } else { EEPROM };
    base + block * BLOCK_BYTES
}

fn read_block(row: &[u8], adr: u8) -> Reply {
    match blocks::one_block(adr) {
        None => Reply::bare(PARAMETER),
        Some((_, 0)) => Reply::bare(READ_PROTECTED),
        Some((loc, block)) => {
            let at = block_at(loc, block);
            Reply::with(row[at..at + BLOCK_BYTES].to_vec())
        }
    }
}

fn write_block(row: &mut [u8], data: &[u8]) -> Reply {
    let bytes = std::array::from_fn(|i| data[1 + i]);
    match blocks::one_block(data[0]) {
        Some((Loc::Ram, 0)) => Reply::bare(WRITE_PROTECTED),
        Some((loc, block)) if blocks::write_legal(block, &bytes) => {
            let at = block_at(loc, block);
            row[at..at + BLOCK_BYTES].copy_from_slice(&bytes);
            Reply::bare(OK)
        }
        _ => Reply::bare(PARAMETER),
    }
}

fn span(named: Named) -> (usize, usize) {
    match named {
        Named::One(block) => (block * BLOCK_BYTES, (block + 1) * BLOCK_BYTES),
        Named::All => (0, BLOCKS * BLOCK_BYTES),
    }
}

fn save(row: &mut [u8], adr: u8) -> bool {
    blocks::saved_blocks(adr).is_some_and(|named| {
        let (from, to) = span(named);
        row.copy_within(RAM + from..RAM + to, EEPROM + from);
        true
    })
}

fn defaults(row: &mut [u8], adr: u8) -> bool {
    blocks::cfg_adr(adr).is_some_and(|(loc, named)| {
        let (from, to) = span(named);
        let base = block_at(loc, 0);
        row[base + from..base + to].copy_from_slice(&DEFAULTS.as_flattened()[from..to]);
        true
    })
}

fn set_timer(row: &mut [u8], data: &[u8]) -> bool {
    let legal = Timer::from_octets([data[0], data[1], data[2], data[3]]).legal();
    if legal {
        row[TIMER..MARK].copy_from_slice(data);
    }
    legal
}

fn login(row: &mut [u8], password: &[u8]) -> Reply {
    let right = &row[EEPROM..EEPROM + 4] == password;
    row[LOGGED_IN] = u8::from(right);
    Reply::bare(if right { OK } else { LOGIN_FAILED })
}

fn read_records(store: &mut [u8], desk: usize, kind: Kind, k: usize) -> Reply {
    let held = held(store, desk);
    match (k, held) {
        (0, _) => return Reply::bare(PARAMETER),
        (_, 0) => return Reply::bare(NO_DATA),
        _ => {}
    }
    let sent = k.min(held).min(fitting(kind));
    let mut data = vec![0, sent as u8];
    let owned = entries(store).filter(|entry| usize::from(entry[0]) == desk);
    data.extend(owned.take(sent).flat_map(|entry| &entry[1..]));
    let row = row_mut(store, desk);
    row[DUE] = sent as u8;
    let status = match row[MARK] {
        1 => OVERFLOW,
        _ if sent < k.min(held) => MORE_DATA,
        _ => OK,
    };
    Reply { status, data }
}

fn table_info(store: &[u8], desk: usize) -> Reply {
    let tab_start = row(store, desk)[TAB_START];
    let tab_len = held(store, desk) as u8;
    Reply::with(vec![0, TAB_SIZE as u8, 0, tab_start, 0, tab_len])
}

fn remove(store: &mut [u8], desk: usize) -> Reply {
    let due = row(store, desk)[DUE];
    remove_entries(store, desk, usize::from(due));
    let row = row_mut(store, desk);
    row[TAB_START] = (row[TAB_START] + due) % TAB_SIZE as u8;
    row[DUE] = 0;
    row[MARK] = 0;
    Reply::bare(OK)
}
