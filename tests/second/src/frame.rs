//! Frames of both kinds: judged when they arrive, sealed when they are sent.

use crate::crc;

/// The octets of the longest frame, an advanced one.
pub const LONGEST: usize = 842;

/// Why a call is refused, by the paper's numbers.
#[derive(Clone, Copy, PartialEq, Eq, Debug)]
pub enum Refusal {
    Store = 1,
    ReplyBuffer = 2,
    NoOctets = 3,
    TooShort = 31,
    TooLong = 32,
    LengthField = 33,
    Crc = 4,
    Desk = 5,
    Argument = 6,
    Room = 7,
    Reply = 8,
}

impl Refusal {
    pub fn number(self) -> u8 {
        self as u8
    }
}

#[derive(Clone, Copy, PartialEq, Eq, Debug)]
pub enum Kind {
    Standard,
    Advanced,
}

const CRC_OCTETS: usize = 2;
const STATUS_OCTET: usize = 1;

impl Kind {
    pub const BOTH: [Kind; 2] = [Kind::Standard, Kind::Advanced];

    /// A first octet of 2 always means advanced.
    pub fn of(first: u8) -> Kind {
        if first == 2 {
            Kind::Advanced
        } else {
            Kind::Standard
        }
    }

    /// Octets before COM-ADR.
    pub fn head(self) -> usize {
        match self {
            Kind::Standard => 1,
            Kind::Advanced => 3,
        }
    }

    pub fn longest(self) -> usize {
        match self {
            Kind::Standard => 255,
            Kind::Advanced => LONGEST,
        }
    }

    /// Head, COM-ADR, control byte and CRC: 5 and 7.
    pub fn shortest_request(self) -> usize {
        self.head() + 2 + CRC_OCTETS
    }

    /// One status octet more: 6 and 8.
    pub fn shortest_reply(self) -> usize {
        self.shortest_request() + STATUS_OCTET
    }

    /// What the length field says; nothing when it is cut off.
    fn length_field(self, octets: &[u8]) -> Option<usize> {
        match self {
            Kind::Standard => octets.first().map(|&n| usize::from(n)),
            Kind::Advanced => {
                let field = octets.get(1..3)?;
                Some(usize::from(field[0]) * 256 + usize::from(field[1]))
            }
        }
    }

    fn head_octets(self, length: usize) -> Vec<u8> {
        match self {
            Kind::Standard => vec![length as u8],
            Kind::Advanced => vec![2, (length / 256) as u8, (length % 256) as u8],
        }
    }
}

/// A well-formed frame; `rest` lies between control byte and CRC.
#[derive(Clone, Copy, PartialEq, Eq, Debug)]
pub struct Frame<'a> {
    pub kind: Kind,
    pub address: u8,
    pub control: u8,
    pub rest: &'a [u8],
}

pub fn judge_request(octets: &[u8]) -> Result<Frame<'_>, Refusal> {
    judge(octets, Kind::shortest_request)
}

pub fn judge_reply(octets: &[u8]) -> Result<Frame<'_>, Refusal> {
    judge(octets, Kind::shortest_reply)
}

fn judge(octets: &[u8], shortest: fn(Kind) -> usize) -> Result<Frame<'_>, Refusal> {
    let first = *octets.first().ok_or(Refusal::NoOctets)?;
    let kind = Kind::of(first);
    let length = octets.len();
    if length < shortest(kind) {
        return Err(Refusal::TooShort);
    }
    if length > kind.longest() {
        return Err(Refusal::TooLong);
    }
    if kind.length_field(octets) != Some(length) {
        return Err(Refusal::LengthField);
    }
    let (body, sent) = octets.split_at(length - CRC_OCTETS);
    if crc::of(body).to_le_bytes() != sent {
        return Err(Refusal::Crc);
    }
    let at = kind.head();
    Ok(Frame { kind, address: body[at], control: body[at + 1], rest: &body[at + 2..] })
}

/// The CRC of the octets before the last two, put there.
pub fn reseal(octets: &mut [u8]) {
    let (body, sum) = octets.split_at_mut(octets.len() - CRC_OCTETS);
    sum.copy_from_slice(&crc::of(body).to_le_bytes());
}

/// The caller keeps within the longest length of the kind.
pub fn seal(kind: Kind, address: u8, control: u8, rest: &[u8]) -> Vec<u8> {
    let length = kind.shortest_request() + rest.len();
    let mut octets = kind.head_octets(length);
    octets.push(address);
    octets.push(control);
    octets.extend_from_slice(rest);
    let sum = crc::of(&octets);
    octets.extend_from_slice(&sum.to_le_bytes());
    octets
}
