//! Random calls of what the listing does not reach: the store on octets, sound
//! or damaged, the host's maker and reader, what data say, the line writer. One
//! line a call.

use crate::blocks::{Block, BLOCK_BYTES};
use crate::config_stories::any_block7;
use crate::crc;
use crate::data;
use crate::frame::{seal, Kind, Refusal};
use crate::gen::Gen;
use crate::host::{make, read, Request};
use crate::lengths;
use crate::lines::{line, lines};
use crate::listing::{capital_hex, event, text, Answer, Event};
use crate::model::{Depot, Record, RECORD, TAB_SIZE};
use crate::place::{self, REPLY_BUFFER};
use crate::random::Random;
use crate::store::*;

pub struct Sides {
    gen: Gen,
    store: Vec<u8>,
}

impl Sides {
    pub fn new(seed: u64) -> Sides {
        let mut store = vec![0; SIZE];
        _ = place::fresh(&mut store);
        Sides { gen: Gen::new(seed), store }
    }

    pub fn next_line(&mut self) -> String {
        match self.gen.random.below(72) {
            0..8 => self.maker(),
            8..24 => self.reader(),
            24..32 => self.line_writer(),
            32..40 => self.damaged(),
            40 => self.sum(),
            41..49 => self.teller(),
            _ => self.event(),
        }
    }

    /// An event at the store on octets.
    fn event(&mut self) -> String {
        let line = self.gen.next_line();
        format!("store: {}", text(&served(&mut self.store, &event(&line))))
    }

    /// The CRC of every octet of the store.
    fn sum(&self) -> String {
        format!("store {:04X}", crc::of(&self.store))
    }

    fn damaged(&mut self) -> String {
        let random = &self.gen.random;
        let mut store = self.store.clone();
        if random.one_in(4) {
            lock_twice(random, &mut store);
        }
        let at = interesting(random, &store);
        let (at, octet) = match random.below(3) {
            0 => at_its_edge(random, &store),
            _ => (at, any_octet(random, store[at])),
        };
        store[at] = octet;
        if random.one_in(3) {
            store = zeros(random);
        }
        let length = random.pick(&[0, SIZE - 1, SIZE, SIZE, SIZE, SIZE, SIZE]);
        let short = random.below(REPLY_BUFFER + 1);
        let mut out = vec![0; random.pick(&[short, REPLY_BUFFER - 1, REPLY_BUFFER, REPLY_BUFFER, REPLY_BUFFER])];
        let frame = seal(random.pick(&Kind::BOTH), 8, 0x63, &[]);
        let answer = place::frame(&mut store[..length], &frame, &mut out);
        format!("damage at {at}: {:?}", answer.map_err(Refusal::number))
    }

    fn maker(&mut self) -> String {
        let request = any_request(&mut self.gen);
        let random = &self.gen.random;
        let (kind, desk) = (random.pick(&Kind::BOTH), any_desk(random));
        let mut out = [0xEE; 24];
        let room = random.pick(&[random.below(24), 24, 24]);
        let made = make(kind, desk, &request, &mut out[..room]);
        format!("make {kind:?} {desk} {request:?}: {:?} {}", made.map_err(Refusal::number), capital_hex(&out))
    }

    fn reader(&mut self) -> String {
        let request = any_request(&mut self.gen);
        let random = &self.gen.random;
        let (kind, desk) = (random.pick(&Kind::BOTH), any_desk(random));
        let reply = any_reply(random, kind, desk as u8, &request);
        let answer = read(kind, desk, &request, &reply).map_err(Refusal::number);
        let answer = answer.map(|read| (read.status, read.data.len()));
        format!("read {kind:?} {desk} {request:?}: {answer:?}")
    }

    fn line_writer(&mut self) -> String {
        let block = any_shape(&mut self.gen);
        let random = &self.gen.random;
        let mut out = [0xEE; 2200];
        let room = random.pick(&[random.below(90), 90, 2200]);
        let record: Record = std::array::from_fn(|_| random.octet());
        let data = any_records(random);
        let made = match random.below(2) {
            0 => line(&block, &record, &mut out[..room]),
            _ => lines(&block, &data, &mut out[..room]),
        };
        format!("line {:?} {:04X} {}", made.map_err(Refusal::number), crc::of(&out), capital_hex(&out[..90]))
    }

    fn teller(&mut self) -> String {
        let random = &self.gen.random;
        let room = random.pick(&[random.below(7), 7]);
        let mut numbers = [0xEE; 7];
        let out = &mut numbers[..room];
        let (data, i) = (any_records(random), any_place(random));
        let told = match random.below(6) {
            0 => return self.block(),
            1 => data::timer(&any_data(random, 4), out),
            2 => data::sizes(&any_data(random, 6), out),
            _ => data::record(&data, i, out),
        };
        format!("told {:?} {numbers:?}", told.map_err(Refusal::number))
    }

    fn block(&self) -> String {
        let random = &self.gen.random;
        let mut out = [0xEE; 16];
        let told = data::block(&any_data(random, BLOCK_BYTES), &mut out[..random.pick(&[13, 14, 15, 16])]);
        format!("block {:?} {}", told.map_err(Refusal::number), capital_hex(&out))
    }
}

/// Data of that length, or of another.
pub fn any_data(random: &Random, length: usize) -> Vec<u8> {
    let other = random.pick(&[0, 1, length - 1, length + 1, 4, 6, BLOCK_BYTES, 2 * length]);
    random.octets(random.pick(&[length, length, other]))
}

/// The number of a record, of few or of many.
pub fn any_place(random: &Random) -> usize {
    random.pick(&[0, 0, 1, 1, 2, 18, 62, 63, 64, 65, random.below(64), usize::MAX])
}

/// The data of a reply to 0x22; now and then with another count, an octet more
/// or less, or any octets.
pub fn any_records(random: &Random) -> Vec<u8> {
    let held = random.pick(&[0, 1, 1, 2, 2, 3, 19, 63, 64, 65]);
    let count = match random.below(6) {
        0 => held + random.pick(&[1, 256, 65535]),
        1 => random.pick(&[0, 1, 2, 64, 65, 256]),
        _ => held,
    };
    let mut data = [&(count as u16).to_be_bytes()[..], &random.octets(held * RECORD)].concat();
    match random.below(12) {
        0 => data.clear(),
        1 => data.truncate(random.below(data.len() + 1)),
        2 => data.push(0),
        3 => data = random.octets(random.pick(&[1, 2, 14, 15, 28, 834, 1000])),
        _ => {}
    }
    data
}

pub fn served(store: &mut [u8], event: &Event) -> Answer {
    match event {
        Event::Frame(octets) => {
            let mut out = [0; place::REPLY_BUFFER];
            place::frame(store, octets, &mut out)
                .map_or_else(Answer::Refused, |length| Answer::Reply(out[..length].to_vec()))
        }
        Event::Sighting { desk, uid, mask } => {
            place::sighting(store, u64::from(*desk), *uid, *mask).map_or_else(Answer::Refused, Answer::Seen)
        }
        Event::Tick => place::tick(store).map_or_else(Answer::Refused, |()| Answer::Ok),
        Event::NotRead => Answer::NotRead,
    }
}

/// An octet of the store that the soundness test looks at, mostly.
pub fn interesting(random: &Random, store: &[u8]) -> usize {
    let row = rows_at(store) + random.below(8) * ROW;
    let locks = LOCK_LIST + LOCK * random.below(3);
    let block7 = random.pick(&[RAM, EEPROM]) + 7 * BLOCK_BYTES + random.pick(&[0, 1, 3, 13]);
    let fields = [LOGGED_IN, TIMER, TIMER + 1, TIMER + 2, MARK, DUE, TAB_START, LOCK_COUNT];
    match random.below(6) {
        0 => random.below(HEADER),
        1 => entries_at(store) + ENTRY * random.below(used(store) + 1),
        2 => row + random.pick(&[locks + 8, locks + 9, VALID_TIME, VALID_TIME + 1]),
        3 => row + block7,
        _ => row + random.pick(&fields),
    }
}

/// A field of some row, with the last number that may stand there or the first that may not; the ticks of a lock, with none or one.
fn at_its_edge(random: &Random, store: &[u8]) -> (usize, u8) {
    let row = rows_at(store) + random.below(8) * ROW;
    let ticks = LOCK_LIST + LOCK * random.below(3) + 9;
    let last = [(LOGGED_IN, 1), (TIMER, 23), (TIMER + 1, 59), (MARK, 1), (TAB_START, 63), (LOCK_COUNT, 64), (ticks, 0)];
    let (field, last) = random.pick(&last);
    (row + field, last + random.below(2) as u8)
}

/// The second lock of some desk gets the UID of the first. Where fewer than two
/// stand, the store stays sound.
pub fn lock_twice(random: &Random, store: &mut [u8]) {
    let first = rows_at(store) + random.below(8) * ROW + LOCK_LIST;
    store.copy_within(first..first + 8, first + LOCK);
}

/// A store of zeros, so that it is sound wherever its areas lie; they lie at
/// the edges of what is legal, or one octet beyond.
pub fn zeros(random: &Random) -> Vec<u8> {
    let mut store = vec![0; SIZE];
    let rows = random.pick(&[5, 6, 6, 5 + ENTRIES, 6 + ENTRIES, SIZE - ROWS, SIZE - ROWS + 1]);
    let entries = random.pick(&[5, 6, 6, 5 + ROWS, 6 + ROWS, SIZE - ENTRIES, SIZE - ENTRIES + 1]);
    let used = random.pick(&[0, 1, 511, 512, 513]);
    for (at, number) in [(0, rows), (2, entries), (4, used)] {
        store[at..at + 2].copy_from_slice(&(number as u16).to_be_bytes());
    }
    for index in 0..MOST_ENTRIES {
        own(&mut store, entries + index * ENTRY, index % 8);
    }
    if random.one_in(2) {
        own(&mut store, entries + ENTRY * random.below(MOST_ENTRIES), random.below(9));
    }
    store
}

fn own(store: &mut [u8], at: usize, desk: usize) {
    if let Some(owner) = store.get_mut(at) {
        *owner = desk as u8;
    }
}

pub fn any_octet(random: &Random, old: u8) -> u8 {
    match random.below(3) {
        0 => random.octet(),
        1 => old.wrapping_add(random.pick(&[1, 255])),
        _ => random.pick(&[0, 1, 2, 7, 8, 23, 24, 59, 60, 63, 64, 65, 234, 255]),
    }
}

pub fn any_desk(random: &Random) -> u64 {
    match random.below(6) {
        0 => random.pick(&[7, 8, 9, 255, 256, 263, 1 << 32, u64::MAX]),
        _ => random.below(8) as u64,
    }
}

fn any_number(random: &Random) -> u64 {
    match random.below(3) {
        0 => random.below(70) as u64,
        1 => random.pick(&[0, 1, 15, 16, 64, 0x87, 0xC0, 255, 256, 59999, 60000, 65535, 65536, 0xFFFF_FFFF, 1 << 32]),
        _ => random.next() >> random.below(64),
    }
}

/// A block 7 that often asks for TAB or for the user's octets, and these are
/// often the bell and the tabulator.
pub fn any_shape(gen: &mut Gen) -> Block {
    let mut block = any_block7(gen);
    let random = &gen.random;
    for at in [1, 3].into_iter().filter(|_| random.one_in(3)) {
        block[at] = random.pick(&[0x08, 0x80]);
    }
    for at in [2, 4, 5, 6].into_iter().filter(|_| random.one_in(2)) {
        block[at] = random.pick(&[0x07, 0x09]);
    }
    block
}

pub fn any_request(gen: &mut Gen) -> Request {
    let bytes = any_block7(gen);
    let random = &gen.random;
    let number = any_number(random);
    let adr = match random.below(8) {
        0 => number,
        _ => u64::from(random.octet() & random.pick(&[0xFF, 0xCF, 0x8F, 0x87, 0x80])),
    };
    match random.below(18) {
        0 => Request::Baud { value: number & random.pick(&[0, 1, 0xFFFF]) },
        1 => Request::CpuReset,
        2 => Request::SystemReset,
        3 => Request::ReadBlock { adr },
        4 if random.one_in(2) => Request::WriteBlock { adr: random.pick(&[0x00, 0x00, 0x40, 0x80]), bytes },
        4 => Request::WriteBlock { adr, bytes },
        5 => Request::SaveBlocks { adr },
        6 => Request::SetDefaults { adr },
        7 => Request::SetTimer {
            hour: random.pick(&[0, 23, 24, 255, 256]),
            minute: random.pick(&[0, 59, 60, 255, 256]),
            ms: random.pick(&[0, 59999, 60000, 65535, 65536]),
        },
        8 => Request::GetTimer,
        9 => Request::Login { password: number },
        10..16 => Request::ReadRecords { k: random.pick(&[number, number % 70, 0, 19, 19, 20, 64, 65]) },
        16 => Request::TableInfo,
        _ => random.pick(&[Request::RemoveRecords, Request::EmptyRecords]),
    }
}

/// What a desk answers, now and then with one thing changed; or a frame at an edge of the table of lengths.
pub fn any_reply(random: &Random, kind: Kind, desk: u8, request: &Request) -> Vec<u8> {
    if random.one_in(5) {
        return lengths::at_an_edge(random, Kind::shortest_reply);
    }
    let mut rest = box_answer(random, kind, request);
    let (mut kind, mut address, mut control) = (kind, desk, request.control());
    match random.below(16) {
        0..2 => rest[0] = random.pick(&[0, 0x11, 0x13, 0x14, 0x15, 0x16, 0x80, 0x81]),
        2..4 => rest[0] = random.pick(&[0, 0x11, 0x92, 0x93, 0x94, 0x94]),
        4 => rest.truncate(random.below(rest.len() + 1)),
        5 => rest.push(0),
        6 => rest.extend([7; RECORD]),
        7 => kind = random.pick(&Kind::BOTH),
        8 => address ^= 1,
        9 => control ^= 1,
        11 => rest[0] = 0x94,
        10 if rest.len() > 2 => rest[2] = rest[2].wrapping_add(random.pick(&[1, 255])),
        _ => {}
    }
    rest.truncate(kind.longest() - kind.shortest_request());
    let mut reply = seal(kind, address, control, &rest);
    if random.one_in(12) {
        let at = random.below(reply.len());
        reply[at] ^= 1 << random.below(8);
    }
    reply
}

fn box_answer(random: &Random, kind: Kind, request: &Request) -> Vec<u8> {
    let mut depot = Depot::fresh();
    let held = random.pick(&[0, 1, 18, 19, 20, 64, 64, 64]);
    depot.desks[0].records = vec![[7; RECORD]; held];
    depot.desks[0].mark = held == TAB_SIZE && random.one_in(2);
    depot.desks[0].logged_in = random.one_in(2);
    let data = request.data().unwrap_or_default();
    let reply = depot.frame(&seal(kind, 0, request.control(), &data));
    let head = kind.head() + 2;
    reply.map_or(vec![0], |reply| reply[head..reply.len() - 2].to_vec())
}
