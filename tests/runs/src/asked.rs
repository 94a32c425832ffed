//! What C can ask of maker, reader and line writer. Where the second program's types shut it out, include/depot.h says what it gets.

use crate::calls::{octets_code, refused};
use depot::numbers::TOLD;
use second::blocks::BLOCK_BYTES;
use second::frame::{judge_reply, Kind, Refusal};
use second::host::{self, Request};
use second::lines;
use second::model::DESKS;
use second::random::Random;

#[derive(Debug)]
pub struct Asked {
    pub kind: u64,
    pub desk: u64,
    pub control: u64,
    pub numbers: [u64; 3],
    pub bytes: Vec<u8>,
}

impl Asked {
    /// A request in numbers; those that the command does not have are anything, and so are the bytes beside a write.
    pub fn of(random: &Random, kind: Kind, desk: u64, request: &Request) -> Asked {
        let mut numbers = [random.next(), random.next(), random.next()];
        let mut bytes = random.octets(random.below(20));
        match *request {
            Request::WriteBlock { adr, bytes: block } => (numbers[0], bytes) = (adr, block.to_vec()),
            Request::SetTimer { hour, minute, ms } => numbers = [hour, minute, ms],
            Request::ReadBlock { adr } | Request::SaveBlocks { adr } | Request::SetDefaults { adr } => numbers[0] = adr,
            Request::Baud { value } => numbers[0] = value,
            Request::Login { password } => numbers[0] = password,
            Request::ReadRecords { k } => numbers[0] = k,
            _ => {}
        }
        Asked { kind: kind_number(kind), desk, control: request.control().into(), numbers, bytes }
    }

    /// Now and then a kind or a control that there is not, or bytes of another length. Cut to an octet, some would be right.
    pub fn beyond(mut self, random: &Random) -> Asked {
        match random.below(12) {
            0 => self.kind = random.pick(&[2, 3, 255, 256, 257, 1 << 32, (1 << 32) + 1, u64::MAX]),
            1 => self.control = random.octet().into(),
            2 => self.control += random.pick(&[1 << 8, 1 << 16, 1 << 32, 1 << 63]),
            3 => self.control = random.pick(&[256, 1 << 32, u64::MAX]),
            4 | 5 => self.bytes.resize(random.pick(&[0, 1, BLOCK_BYTES - 1, BLOCK_BYTES + 1, 2 * BLOCK_BYTES, 300]), 0),
            _ => {}
        }
        self
    }

    pub fn raw(&self) -> depot::raw::Asked<'_> {
        let [a, b, c] = self.numbers;
        depot::raw::Asked { kind: self.kind, desk: self.desk, control: self.control, a, b, c, bytes: &self.bytes }
    }

    /// The request that is named; of what is none, the reason.
    pub fn request(&self) -> Result<(Kind, Request), &'static str> {
        let [a, b, c] = self.numbers;
        let request = match self.control {
            0x52 => Request::Baud { value: a },
            0x63 => Request::CpuReset,
            0x64 => Request::SystemReset,
            0x80 => Request::ReadBlock { adr: a },
            0x81 => Request::WriteBlock { adr: a, bytes: self.bytes[..].try_into().map_err(|_| "bytes of another length")? },
            0x82 => Request::SaveBlocks { adr: a },
            0x83 => Request::SetDefaults { adr: a },
            0x85 => Request::SetTimer { hour: a, minute: b, ms: c },
            0x86 => Request::GetTimer,
            0xA0 => Request::Login { password: a },
            0x22 => Request::ReadRecords { k: a },
            0x31 => Request::TableInfo,
            0x32 => Request::RemoveRecords,
            0x33 => Request::EmptyRecords,
            256.. => return Err("a control above 255"),
            _ => return Err("no command"),
        };
        Ok((kind_of(self.kind).ok_or("no kind")?, request))
    }

    /// The maker: "5 a desk above 7, whatever the rest is", then 6 for what is no request.
    pub fn made(&self, out: &mut [u8]) -> u64 {
        if self.desk >= DESKS as u64 {
            return refused(Refusal::Desk);
        }
        match self.request() {
            Ok((kind, request)) => octets_code(host::make(kind, self.desk, &request, out)),
            Err(_) => refused(Refusal::Argument),
        }
    }

    /// The reader: 8 "to what is no request", after what is wrong with the frame itself.
    pub fn read(&self, reply: &[u8]) -> u64 {
        match self.request() {
            Ok((kind, request)) => host::read(kind, self.desk, &request, reply).map_or_else(refused, |read| told(kind, &read)),
            Err(_) => refused(judge_reply(reply).err().unwrap_or(Refusal::Reply)),
        }
    }
}

fn told(kind: Kind, read: &host::Read) -> u64 {
    let start = kind.head() as u64 + 3;
    TOLD + (u64::from(read.status) << 24) + (start << 16) + read.data.len() as u64
}

fn kind_number(kind: Kind) -> u64 {
    match kind {
        Kind::Standard => 0,
        Kind::Advanced => 1,
    }
}

fn kind_of(number: u64) -> Option<Kind> {
    Kind::BOTH.into_iter().find(|&kind| kind_number(kind) == number)
}

/// `depot_line`: a block or a record of another length is refused 6.
pub fn line(block: &[u8], record: &[u8], out: &mut [u8]) -> u64 {
    match (block.try_into(), record.try_into()) {
        (Ok(block), Ok(record)) => octets_code(lines::line(block, record, out)),
        _ => refused(Refusal::Argument),
    }
}

/// `depot_lines`: so is a block.
pub fn lines(block: &[u8], sent: &[u8], out: &mut [u8]) -> u64 {
    match block.try_into() {
        Ok(block) => octets_code(lines::lines(block, sent, out)),
        Err(_) => refused(Refusal::Argument),
    }
}
