//! The host side: it makes requests and reads replies.

use crate::blocks::{self, Block, Loc, BLOCK_BYTES};
use crate::command::{self, fitting};
use crate::frame::{judge_reply, seal, Kind, Refusal};
use crate::model::{Desk, DESKS, RECORD, TAB_SIZE};

/// A request. Numbers are wider than their fields.
#[derive(Clone, Copy, PartialEq, Eq, Debug)]
pub enum Request {
    Baud { value: u64 },
    CpuReset,
    SystemReset,
    ReadBlock { adr: u64 },
    WriteBlock { adr: u64, bytes: Block },
    SaveBlocks { adr: u64 },
    SetDefaults { adr: u64 },
    SetTimer { hour: u64, minute: u64, ms: u64 },
    GetTimer,
    Login { password: u64 },
    ReadRecords { k: u64 },
    TableInfo,
    RemoveRecords,
    EmptyRecords,
}

impl Request {
    pub fn control(&self) -> u8 {
        match self {
            Request::Baud { .. } => 0x52,
            Request::CpuReset => 0x63,
            Request::SystemReset => 0x64,
            Request::ReadBlock { .. } => 0x80,
            Request::WriteBlock { .. } => 0x81,
            Request::SaveBlocks { .. } => 0x82,
            Request::SetDefaults { .. } => 0x83,
            Request::SetTimer { .. } => 0x85,
            Request::GetTimer => 0x86,
            Request::Login { .. } => 0xA0,
            Request::ReadRecords { .. } => 0x22,
            Request::TableInfo => 0x31,
            Request::RemoveRecords => 0x32,
            Request::EmptyRecords => 0x33,
        }
    }

    /// The data octets; nothing when a field can't hold its value.
    pub fn data(&self) -> Option<Vec<u8>> {
        match *self {
            Request::Baud { value } => field(value, 1),
            Request::ReadBlock { adr } => field(adr, 1),
            Request::SaveBlocks { adr } => field(adr, 1),
            Request::SetDefaults { adr } => field(adr, 1),
            Request::WriteBlock { adr, bytes } => Some([field(adr, 1)?, bytes.to_vec()].concat()),
            Request::SetTimer { hour, minute, ms } => {
                Some([field(hour, 1)?, field(minute, 1)?, field(ms, 2)?].concat())
            }
            Request::Login { password } => field(password, 4),
            Request::ReadRecords { k } => field(k, 2),
            _ => Some(Vec::new()),
        }
    }
}

/// MSB first.
fn field(value: u64, width: usize) -> Option<Vec<u8>> {
    let octets = value.to_be_bytes();
    let (above, held) = octets.split_at(8 - width);
    above.iter().all(|&octet| octet == 0).then(|| held.to_vec())
}

/// The maker: how long the request is that now stands at the start of `out`.
pub fn make(kind: Kind, desk: u64, request: &Request, out: &mut [u8]) -> Result<usize, Refusal> {
    if desk >= DESKS as u64 {
        return Err(Refusal::Desk);
    }
    let data = request.data().ok_or(Refusal::Argument)?;
    if status_logged_in(request.control(), &data) == command::PARAMETER {
        return Err(Refusal::Argument);
    }
    let frame = seal(kind, desk as u8, request.control(), &data);
    let room = out.get_mut(..frame.len()).ok_or(Refusal::Room)?;
    room.copy_from_slice(&frame);
    Ok(frame.len())
}

/// What a logged-in desk answers. 0x11 never hangs on what a desk holds.
fn status_logged_in(control: u8, data: &[u8]) -> u8 {
    let mut desk = Desk::fresh();
    desk.logged_in = true;
    command::answer(&mut desk, Kind::Standard, control, data).status
}

/// A reply that was read.
#[derive(Clone, Copy, PartialEq, Eq, Debug)]
pub struct Read<'a> {
    pub status: u8,
    pub data: &'a [u8],
}

/// The reader: 3, 31, 32, 33, 4, then 8.
pub fn read<'a>(kind: Kind, desk: u64, request: &Request, reply: &'a [u8]) -> Result<Read<'a>, Refusal> {
    let frame = judge_reply(reply)?;
    let (&status, data) = frame.rest.split_first().ok_or(Refusal::TooShort)?;
    let same = frame.kind == kind && u64::from(frame.address) == desk && frame.control == request.control();
    let answered = same && desk < DESKS as u64 && possible(kind, request, status, data.len());
    if !answered || !count_agrees(request, data) {
        return Err(Refusal::Reply);
    }
    Ok(Read { status, data })
}

/// Whether some sound store makes the box answer with this status and length.
pub fn possible(kind: Kind, request: &Request, status: u8, length: usize) -> bool {
    if request.data().is_none() {
        return false;
    }
    match *request {
        Request::Baud { value } => (status, length) == (status_if(value == 0), 0),
        Request::SetTimer { hour, minute, ms } => {
            (status, length) == (status_if(hour < 24 && minute < 60 && ms < 60000), 0)
        }
        Request::GetTimer => (status, length) == (command::OK, 4),
        Request::TableInfo => (status, length) == (command::OK, 6),
        Request::Login { .. } => [command::OK, command::LOGIN_FAILED].contains(&status) && length == 0,
        Request::ReadRecords { k } => records_possible(kind, k, status, length),
        Request::CpuReset | Request::SystemReset | Request::RemoveRecords | Request::EmptyRecords => {
            (status, length) == (command::OK, 0)
        }
        _ => (status, length) == (command::LOGIN_NEEDED, 0) || block_possible(request, status, length),
    }
}

fn status_if(legal: bool) -> u8 {
    if legal {
        command::OK
    } else {
        command::PARAMETER
    }
}

/// The one answer that a logged-in desk gives to a command on blocks.
fn block_possible(request: &Request, status: u8, length: usize) -> bool {
    let one = |adr: u64| blocks::one_block(adr as u8);
    let expected = match *request {
        Request::ReadBlock { adr } => match one(adr) {
            None => (command::PARAMETER, 0),
            Some((_, 0)) => (command::READ_PROTECTED, 0),
            Some(_) => (command::OK, BLOCK_BYTES),
        },
        Request::WriteBlock { adr, bytes } => match one(adr) {
            None => (command::PARAMETER, 0),
            Some((Loc::Ram, 0)) => (command::WRITE_PROTECTED, 0),
            Some((_, block)) => (status_if(blocks::write_legal(block, &bytes)), 0),
        },
        Request::SaveBlocks { adr } => (status_if(blocks::saved_blocks(adr as u8).is_some()), 0),
        Request::SetDefaults { adr } => (status_if(blocks::cfg_adr(adr as u8).is_some()), 0),
        _ => return false,
    };
    (status, length) == expected
}

/// The mark stands only where 64 records are held, so 0x93 fixes the count;
/// 0x94 means that the reply was full and that more were wanted.
fn records_possible(kind: Kind, k: u64, status: u8, length: usize) -> bool {
    let most = fitting(kind).min(k as usize);
    let sent = (0..=fitting(kind)).find(|sent| 2 + RECORD * sent == length).unwrap_or(0);
    match status {
        command::PARAMETER => k == 0 && length == 0,
        command::NO_DATA => k > 0 && length == 0,
        command::OK => 1 <= sent && sent <= most,
        command::OVERFLOW => 1 <= sent && sent == most,
        command::MORE_DATA => sent == fitting(kind) && sent < TAB_SIZE && k as usize > sent,
        _ => false,
    }
}

/// The count in a reply with records is the count that its length gives.
fn count_agrees(request: &Request, data: &[u8]) -> bool {
    match (request, data) {
        (Request::ReadRecords { .. }, [high, low, records @ ..]) => {
            usize::from(*high) * 256 + usize::from(*low) == records.len() / RECORD
        }
        _ => true,
    }
}
