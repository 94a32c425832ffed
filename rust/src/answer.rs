//! What the calls answer, and how a code is read.
use std::fmt;

use crate::numbers::{length, DONE, IGNORED, LOST, RECORDED, TOLD};

/// Why a call is refused, by the paper's number. A refused call leaves every octet that it was lent as it was.
#[derive(Clone, Copy, Debug, PartialEq, Eq, Hash)]
pub enum Refusal {
    /// The store has the wrong size, or is not sound.
    Unsound = 1,
    /// The reply buffer is shorter than [`REPLY_SIZE`](crate::REPLY_SIZE).
    SmallBuffer = 2,
    /// A frame of no octets at all: look at plug, cable and power, then at a driver that calls without having read.
    NoOctets = 3,
    /// A frame is shorter than its kind allows, 5 octets to the box and 6 to the reader, 7 and 8 after a first octet of 2: look at a
    /// loose plug, then at a driver that waits too short a time for the next octet.
    TooShort = 31,
    /// A frame is longer than its kind allows, 255 octets, [`REPLY_SIZE`](crate::REPLY_SIZE) after a first octet of 2: look at a driver
    /// that joins frames, or that loses the first octet of a long one.
    TooLong = 32,
    /// The length field says another number of octets than were received: look at a wrong driver, or, where it comes now and then
    /// only, at octets that are lost or added on the way.
    LengthDiffers = 33,
    /// The CRC is wrong.
    WrongCheck = 4,
    /// A desk above 7.
    NoDesk = 5,
    /// An argument out of range.
    OutOfRange = 6,
    /// The output has too little room.
    NoRoom = 7,
    /// A sound frame that does not answer the request, or data that no reply to the command carries.
    NotTheReply = 8,
}

impl Refusal {
    /// The paper's number.
    ///
    /// ```
    /// assert_eq!(depot::Refusal::NoDesk.number(), 5);
    /// ```
    pub fn number(self) -> u8 {
        self as u8
    }

    /// The refusal of that number.
    pub fn of(code: u64) -> Option<Refusal> {
        Some(match code {
            1 => Refusal::Unsound,
            2 => Refusal::SmallBuffer,
            3 => Refusal::NoOctets,
            31 => Refusal::TooShort,
            32 => Refusal::TooLong,
            33 => Refusal::LengthDiffers,
            4 => Refusal::WrongCheck,
            5 => Refusal::NoDesk,
            6 => Refusal::OutOfRange,
            7 => Refusal::NoRoom,
            8 => Refusal::NotTheReply,
            _ => return None,
        })
    }
}

impl fmt::Display for Refusal {
    fn fmt(&self, f: &mut fmt::Formatter) -> fmt::Result {
        let why = match self {
            Refusal::Unsound => "the store has the wrong size or is not sound",
            Refusal::SmallBuffer => "the reply buffer is shorter than the longest frame",
            Refusal::NoOctets => "there are no octets at all",
            Refusal::TooShort => "the frame is shorter than its kind allows",
            Refusal::TooLong => "the frame is longer than its kind allows",
            Refusal::LengthDiffers => "the frame's length field differs from the length received",
            Refusal::WrongCheck => "the frame's CRC is wrong",
            Refusal::NoDesk => "there is no desk above 7",
            Refusal::OutOfRange => "an argument is out of range",
            Refusal::NoRoom => "the output has too little room",
            Refusal::NotTheReply => "this is no reply to the request, or no data of such a reply",
        };
        write!(f, "refused {}: {}", self.number(), why)
    }
}

impl std::error::Error for Refusal {}

/// What a sighting came to.
#[derive(Clone, Copy, Debug, PartialEq, Eq, Hash)]
pub enum Seen {
    /// The UID is locked at this desk, and its lock has so many ticks of 100 ms left: from 1 to VALID-TIME in force. Nothing changes.
    /// The lock can end sooner: a reset and 0x33 end all locks of a desk, and where 64 stand a new one ends the oldest.
    Ignored(u16),
    /// The desk holds 64 records, and its overflow mark is set.
    Lost,
    Recorded,
}

/// No code of this library is any other than those that its header names: that is proved.
pub(crate) fn unnamed(code: u64) -> ! {
    unreachable!("the proved library gives no such code: {code}")
}

/// Nothing to say, or a refusal.
pub(crate) fn done(code: u64) -> Result<(), Refusal> {
    if code == DONE {
        return Ok(());
    }
    Err(Refusal::of(code).unwrap_or_else(|| unnamed(code)))
}

pub(crate) fn seen(code: u64) -> Result<Seen, Refusal> {
    match code {
        RECORDED => Ok(Seen::Recorded),
        LOST => Ok(Seen::Lost),
        _ if code >> 16 == IGNORED >> 16 => Ok(Seen::Ignored((code - IGNORED) as u16)),
        _ => Err(Refusal::of(code).unwrap_or_else(|| unnamed(code))),
    }
}

/// What stands at the start of the output, or a refusal.
pub(crate) fn written<T>(code: u64, out: &[T]) -> Result<&[T], Refusal> {
    match length(code) {
        Some(n) => Ok(&out[..n]),
        None => Err(Refusal::of(code).unwrap_or_else(|| unnamed(code))),
    }
}

/// What a reply says: its status, and its data where they stand in the reply.
#[derive(Clone, Copy, Debug, PartialEq, Eq)]
pub struct Told<'a> {
    pub status: u8,
    pub data: &'a [u8],
}

pub(crate) fn told(code: u64, reply: &[u8]) -> Result<Told<'_>, Refusal> {
    if code < TOLD {
        return Err(Refusal::of(code).unwrap_or_else(|| unnamed(code)));
    }
    let start = (code >> 16 & 255) as usize;
    let len = (code & 65535) as usize;
    Ok(Told { status: (code >> 24 & 255) as u8, data: &reply[start..start + len] })
}
