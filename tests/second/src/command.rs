//! The commands of a desk and their status octets.

use crate::blocks::{self, Loc};
use crate::frame::Kind;
use crate::model::{Desk, RECORD, TAB_SIZE};
use crate::timer::Timer;

pub const OK: u8 = 0x00;
pub const PARAMETER: u8 = 0x11;
pub const LOGIN_NEEDED: u8 = 0x13;
pub const LOGIN_FAILED: u8 = 0x14;
pub const READ_PROTECTED: u8 = 0x15;
pub const WRITE_PROTECTED: u8 = 0x16;
pub const UNKNOWN: u8 = 0x80;
pub const WRONG_LENGTH: u8 = 0x81;
pub const NO_DATA: u8 = 0x92;
pub const OVERFLOW: u8 = 0x93;
pub const MORE_DATA: u8 = 0x94;

#[derive(Clone, Copy, PartialEq, Eq, Debug)]
pub enum Command {
    Baud,
    CpuReset,
    SystemReset,
    ReadBlock,
    WriteBlock,
    SaveBlocks,
    SetDefaults,
    SetTimer,
    GetTimer,
    Login,
    ReadRecords,
    TableInfo,
    RemoveRecords,
    EmptyRecords,
}

/// A row of the paper's table.
pub struct Known {
    pub length: usize,
    pub login: bool,
    pub command: Command,
}

pub fn known(control: u8) -> Option<Known> {
    let (length, login, command) = match control {
        0x52 => (1, false, Command::Baud),
        0x63 => (0, false, Command::CpuReset),
        0x64 => (0, false, Command::SystemReset),
        0x80 => (1, true, Command::ReadBlock),
        0x81 => (15, true, Command::WriteBlock),
        0x82 => (1, true, Command::SaveBlocks),
        0x83 => (1, true, Command::SetDefaults),
        0x85 => (4, false, Command::SetTimer),
        0x86 => (0, false, Command::GetTimer),
        0xA0 => (4, false, Command::Login),
        0x22 => (2, false, Command::ReadRecords),
        0x31 => (0, false, Command::TableInfo),
        0x32 => (0, false, Command::RemoveRecords),
        0x33 => (0, false, Command::EmptyRecords),
        _ => return None,
    };
    Some(Known { length, login, command })
}

/// How many records fit in a reply: 19 and 64.
pub fn fitting(kind: Kind) -> usize {
    let room = kind.longest() - kind.shortest_reply() - 2;
    room / RECORD
}

pub struct Reply {
    pub status: u8,
    pub data: Vec<u8>,
}

impl Reply {
    pub fn bare(status: u8) -> Reply {
        Reply { status, data: Vec::new() }
    }

    pub fn with(data: Vec<u8>) -> Reply {
        Reply { status: OK, data }
    }

    /// What follows the control byte.
    pub fn octets(&self) -> Vec<u8> {
        let mut octets = vec![self.status];
        octets.extend_from_slice(&self.data);
        octets
    }
}

/// The tests in the paper's order, then the command itself.
pub fn answer(desk: &mut Desk, kind: Kind, control: u8, data: &[u8]) -> Reply {
    let Some(row) = known(control) else {
        return Reply::bare(UNKNOWN);
    };
    if data.len() != row.length {
        return Reply::bare(WRONG_LENGTH);
    }
    if row.login && !desk.logged_in {
        return Reply::bare(LOGIN_NEEDED);
    }
    run(desk, kind, row.command, data)
}

fn run(desk: &mut Desk, kind: Kind, command: Command, data: &[u8]) -> Reply {
    match command {
        Command::Baud => baud(data[0]),
        Command::CpuReset => cpu_reset(desk),
        Command::SystemReset => system_reset(desk),
        Command::ReadBlock => read_block(desk, data[0]),
        Command::WriteBlock => write_block(desk, data),
        Command::SaveBlocks => save_blocks(desk, data[0]),
        Command::SetDefaults => set_defaults(desk, data[0]),
        Command::SetTimer => set_timer(desk, data),
        Command::GetTimer => Reply::with(desk.timer.octets().to_vec()),
        Command::Login => login(desk, data),
        Command::ReadRecords => read_records(desk, kind, data),
        Command::TableInfo => table_info(desk),
        Command::RemoveRecords => remove_records(desk),
        Command::EmptyRecords => empty_records(desk),
    }
}

fn baud(octet: u8) -> Reply {
    Reply::bare(if octet == 0 { OK } else { PARAMETER })
}

fn cpu_reset(desk: &mut Desk) -> Reply {
    desk.ram = desk.eeprom;
    desk.valid_time = blocks::valid_time(&desk.eeprom[12]);
    desk.logged_in = false;
    desk.locks.clear();
    Reply::bare(OK)
}

fn system_reset(desk: &mut Desk) -> Reply {
    cpu_reset(desk);
    desk.empty_records();
    desk.timer = Timer::default();
    Reply::bare(OK)
}

fn read_block(desk: &Desk, adr: u8) -> Reply {
    let Some((loc, block)) = blocks::one_block(adr) else {
        return Reply::bare(PARAMETER);
    };
    if block == 0 {
        return Reply::bare(READ_PROTECTED);
    }
    let memory = match loc {
        Loc::Ram => &desk.ram,
        Loc::Eeprom => &desk.eeprom,
    };
    Reply::with(memory[block].to_vec())
}

/// No password into RAM: that is tested behind the address and before the bytes.
fn write_block(desk: &mut Desk, data: &[u8]) -> Reply {
    let Some((loc, block)) = blocks::one_block(data[0]) else {
        return Reply::bare(PARAMETER);
    };
    if loc == Loc::Ram && block == 0 {
        return Reply::bare(WRITE_PROTECTED);
    }
    let mut bytes = [0; blocks::BLOCK_BYTES];
    bytes.copy_from_slice(&data[1..]);
    if !blocks::write_legal(block, &bytes) {
        return Reply::bare(PARAMETER);
    }
    memory(desk, loc)[block] = bytes;
    Reply::bare(OK)
}

fn save_blocks(desk: &mut Desk, adr: u8) -> Reply {
    let Some(named) = blocks::saved_blocks(adr) else {
        return Reply::bare(PARAMETER);
    };
    for block in named.range() {
        desk.eeprom[block] = desk.ram[block];
    }
    Reply::bare(OK)
}

fn set_defaults(desk: &mut Desk, adr: u8) -> Reply {
    let Some((loc, named)) = blocks::cfg_adr(adr) else {
        return Reply::bare(PARAMETER);
    };
    for block in named.range() {
        memory(desk, loc)[block] = blocks::DEFAULTS[block];
    }
    Reply::bare(OK)
}

fn memory(desk: &mut Desk, loc: Loc) -> &mut blocks::Memory {
    match loc {
        Loc::Ram => &mut desk.ram,
        Loc::Eeprom => &mut desk.eeprom,
    }
}

fn set_timer(desk: &mut Desk, data: &[u8]) -> Reply {
    let timer = Timer::from_octets([data[0], data[1], data[2], data[3]]);
    if !timer.legal() {
        return Reply::bare(PARAMETER);
    }
    desk.timer = timer;
    Reply::bare(OK)
}

/// Against EEPROM: RAM may still have the password from before.
fn login(desk: &mut Desk, password: &[u8]) -> Reply {
    desk.logged_in = password == &desk.eeprom[0][..4];
    Reply::bare(if desk.logged_in { OK } else { LOGIN_FAILED })
}

fn read_records(desk: &mut Desk, kind: Kind, data: &[u8]) -> Reply {
    let k = usize::from(u16::from_be_bytes([data[0], data[1]]));
    if k == 0 {
        return Reply::bare(PARAMETER);
    }
    if desk.records.is_empty() {
        return Reply::bare(NO_DATA);
    }
    let wanted = k.min(desk.records.len());
    let sent = wanted.min(fitting(kind));
    desk.due = sent;
    Reply { status: read_status(desk.mark, sent < wanted), data: sent_records(desk, sent) }
}

/// 0x93 goes before 0x94.
fn read_status(mark: bool, more: bool) -> u8 {
    match (mark, more) {
        (true, _) => OVERFLOW,
        (false, true) => MORE_DATA,
        (false, false) => OK,
    }
}

fn sent_records(desk: &Desk, sent: usize) -> Vec<u8> {
    let mut data = (sent as u16).to_be_bytes().to_vec();
    data.extend(desk.records[..sent].iter().flatten());
    data
}

fn table_info(desk: &Desk) -> Reply {
    let numbers = [TAB_SIZE, desk.tab_start, desk.records.len()];
    Reply::with(numbers.iter().flat_map(|&n| (n as u16).to_be_bytes()).collect())
}

fn remove_records(desk: &mut Desk) -> Reply {
    desk.remove_sent();
    Reply::bare(OK)
}

fn empty_records(desk: &mut Desk) -> Reply {
    desk.empty_records();
    desk.locks.clear();
    Reply::bare(OK)
}
