//! The host side: requests are made, replies are read.
use crate::answer::{told, written, Refusal, Told};
use crate::raw::{self, Asked};
use crate::{Block, Desk};

/// The two kinds of frame.
#[derive(Clone, Copy, Debug, PartialEq, Eq, Hash)]
pub enum Kind {
    /// At most 255 octets.
    Standard,
    /// At most [`REPLY_SIZE`](crate::REPLY_SIZE) octets.
    Advanced,
}

/// What is asked of a desk, in the paper's order. An address is CFG-ADR: a block, and [`EEPROM`], [`ALL_BLOCKS`] as bits.
#[derive(Clone, Copy, Debug, PartialEq, Eq, Hash)]
pub enum Ask {
    Baud,
    Reset,
    SystemReset,
    ReadBlock(u8),
    /// A desk's password is the first four bytes of block 0 in EEPROM. Block 0 without [`EEPROM`] is answered 0x16 and changes
    /// nothing. With it the password counts from the next login on; RAM has the old one until [`Ask::Reset`].
    WriteBlock(u8, Block),
    /// From RAM to EEPROM: of all blocks, or of block 0, it puts the old password back where no reset came since the new one.
    SaveBlocks(u8),
    RestoreBlocks(u8),
    SetTimer { hour: u8, minute: u8, milliseconds: u16 },
    SendTimer,
    Login(u32),
    ReadRecords(u16),
    SendTable,
    RemoveRecords,
    ClearRecords,
}

/// Bit 7 of CFG-ADR: the EEPROM blocks, and not those in RAM.
pub const EEPROM: u8 = 0x80;

/// Bit 6 of CFG-ADR: all blocks, in `SaveBlocks` and `RestoreBlocks`.
pub const ALL_BLOCKS: u8 = 0x40;

impl Ask {
    /// The control byte and three numbers.
    fn numbers(&self) -> (u64, u64, u64, u64) {
        match *self {
            Ask::Baud => (0x52, 0, 0, 0),
            Ask::Reset => (0x63, 0, 0, 0),
            Ask::SystemReset => (0x64, 0, 0, 0),
            Ask::ReadBlock(adr) => (0x80, adr.into(), 0, 0),
            Ask::WriteBlock(adr, _) => (0x81, adr.into(), 0, 0),
            Ask::SaveBlocks(adr) => (0x82, adr.into(), 0, 0),
            Ask::RestoreBlocks(adr) => (0x83, adr.into(), 0, 0),
            Ask::SetTimer { hour, minute, milliseconds } => (0x85, hour.into(), minute.into(), milliseconds.into()),
            Ask::SendTimer => (0x86, 0, 0, 0),
            Ask::Login(password) => (0xA0, password.into(), 0, 0),
            Ask::ReadRecords(k) => (0x22, k.into(), 0, 0),
            Ask::SendTable => (0x31, 0, 0, 0),
            Ask::RemoveRecords => (0x32, 0, 0, 0),
            Ask::ClearRecords => (0x33, 0, 0, 0),
        }
    }

    fn bytes(&self) -> &[u8] {
        match self {
            Ask::WriteBlock(_, bytes) => bytes,
            _ => &[],
        }
    }
}

/// A request to a desk.
///
/// ```
/// use depot::{Ask, Desk, Kind, Refusal, Request};
/// let reset = Request { kind: Kind::Standard, desk: Desk::ALL[0], ask: Ask::SystemReset };
/// let mut out = [0; depot::REPLY_SIZE];
/// assert_eq!(reset.make(&mut out), Ok(&[0x05, 0x00, 0x64, 0xAC, 0x25][..]));
/// let reply = [0x06, 0x00, 0x64, 0x00, 0x8E, 0x4A];
/// assert_eq!(reset.read(&reply).unwrap().status, 0x00);
/// // Not even the octets of another reply are taken for this one's.
/// let other = Request { ask: Ask::Reset, ..reset };
/// assert_eq!(other.read(&reply), Err(Refusal::NotTheReply));
/// ```
#[derive(Clone, Copy, Debug, PartialEq, Eq, Hash)]
pub struct Request {
    pub kind: Kind,
    pub desk: Desk,
    pub ask: Ask,
}

impl Request {
    fn asked(&self) -> Asked<'_> {
        let (control, a, b, c) = self.ask.numbers();
        let kind = match self.kind {
            Kind::Standard => 0,
            Kind::Advanced => 1,
        };
        Asked { kind, desk: self.desk.number().into(), control, a, b, c, bytes: self.ask.bytes() }
    }

    /// Makes the frame of the request at the start of the output, and returns it; the octets behind it stay.
    ///
    /// Refused: `OutOfRange` where a logged-in desk would answer 0x11; `NoRoom`. The output is then as before.
    pub fn make<'a>(&self, out: &'a mut [u8]) -> Result<&'a [u8], Refusal> {
        let code = raw::make(self.asked(), out);
        written(code, out)
    }

    /// Reads the reply to the request: its status, and its data.
    ///
    /// Refused, the first that fits: `NoOctets`, `TooShort`, `TooLong`, `LengthDiffers`, `WrongCheck`; `NotTheReply` where the frame is
    /// sound and no box answers this request so.
    pub fn read<'a>(&self, reply: &'a [u8]) -> Result<Told<'a>, Refusal> {
        told(raw::read(self.asked(), reply), reply)
    }
}
