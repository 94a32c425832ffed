//! Random events as listing lines. The generator keeps a box of its own, so
//! that it knows the passwords and what each desk holds, and steers by that.

use crate::blocks::Block;
use crate::frame::{seal, Kind};
use crate::listing::{capital_hex, event, serve, Event};
use crate::model::{Depot, Desk, Uid, DESKS};
use crate::random::Random;
use crate::stories;
use std::collections::VecDeque;

pub struct Gen {
    pub random: Random,
    depot: Depot,
    queue: VecDeque<Vec<u8>>,
    serial: usize,
    length: usize,
}

impl Gen {
    pub fn new(seed: u64) -> Gen {
        Gen { random: Random::new(seed), depot: Depot::fresh(), queue: VecDeque::new(), serial: 0, length: 0 }
    }

    /// The next line, without its LF.
    pub fn next_line(&mut self) -> Vec<u8> {
        loop {
            match self.queue.pop_front() {
                Some(line) => return line,
                None => stories::tell(self),
            }
        }
    }

    /// Whether all that was played at the own box has been handed out.
    pub fn told(&self) -> bool {
        self.queue.is_empty()
    }

    /// Plays a line at the own box and hands it out.
    pub fn line(&mut self, line: Vec<u8>) {
        serve(&mut self.depot, &event(&line));
        self.queue.push_back(line);
    }

    /// Plays a line only if it is one that is not read.
    pub fn bad_line(&mut self, line: Vec<u8>) {
        if event(&line) == Event::NotRead {
            self.line(line);
        }
    }

    pub fn desk(&self, desk: usize) -> &Desk {
        &self.depot.desks[desk]
    }

    /// Low desks more often, so that one of them grows rich.
    pub fn any_desk(&self) -> usize {
        match self.random.below(3) {
            0 => self.random.below(2),
            _ => self.random.below(DESKS),
        }
    }

    pub fn other_desk(&self, desk: usize) -> usize {
        (desk + 1 + self.random.below(DESKS - 1)) % DESKS
    }

    pub fn any_kind(&self) -> Kind {
        self.random.pick(&Kind::BOTH)
    }

    /// Capital, small or mixed digits.
    pub fn hex(&self, octets: &[u8]) -> Vec<u8> {
        let text = capital_hex(octets);
        match self.random.below(3) {
            0 => text.into_bytes(),
            1 => text.to_ascii_lowercase().into_bytes(),
            _ => text.bytes().map(|digit| self.mixed(digit)).collect(),
        }
    }

    fn mixed(&self, digit: u8) -> u8 {
        if self.random.one_in(2) {
            digit.to_ascii_lowercase()
        } else {
            digit
        }
    }

    pub fn octets(&mut self, octets: &[u8]) {
        let line = self.hex(octets);
        self.line(line);
    }

    pub fn request_as(&mut self, kind: Kind, desk: usize, control: u8, data: &[u8]) {
        self.octets(&seal(kind, desk as u8, control, data));
    }

    pub fn request(&mut self, desk: usize, control: u8, data: &[u8]) {
        let kind = self.any_kind();
        self.request_as(kind, desk, control, data);
    }

    pub fn login(&mut self, desk: usize) {
        let password = self.desk(desk).eeprom[0][..4].to_vec();
        self.request(desk, 0xA0, &password);
    }

    pub fn logged_in(&mut self, desk: usize) {
        if !self.desk(desk).logged_in {
            self.login(desk);
        }
    }

    pub fn write(&mut self, desk: usize, adr: u8, bytes: &Block) {
        self.request(desk, 0x81, &[&[adr], &bytes[..]].concat());
    }

    /// A new VALID-TIME, brought in force by a reset.
    pub fn valid_time(&mut self, desk: usize, ticks: u16, reset: u8) {
        self.logged_in(desk);
        let mut block = self.any_block();
        block[..2].copy_from_slice(&ticks.to_be_bytes());
        self.write(desk, 0x8C, &block);
        self.request(desk, reset, &[]);
    }

    pub fn any_block(&self) -> Block {
        std::array::from_fn(|_| self.random.octet())
    }

    /// UIDs that differ in one octet only, in each of the eight places.
    pub fn uid(index: usize) -> Uid {
        let mut uid = [0xE0, 0x07, 0x00, 0x00, 0x01, 0x64, 0x5E, 0x37];
        uid[index % 8] ^= 1 + (index / 8 % 255) as u8;
        uid
    }

    pub fn new_uid(&mut self) -> Uid {
        self.serial += 1;
        Gen::uid(self.serial)
    }

    pub fn old_uid(&self) -> Uid {
        let back = self.random.below(150);
        Gen::uid(self.serial.saturating_sub(back))
    }

    /// Every length from 0 to 900 in its turn.
    pub fn next_length(&mut self) -> usize {
        self.length = (self.length + 1) % 901;
        self.length
    }

    pub fn sight(&mut self, desk: usize, uid: Uid) {
        let mask = self.random.pick(&[1, 2, 0x80, 0xFF, 0x3F]);
        self.sight_by(desk, uid, mask);
    }

    pub fn sight_by(&mut self, desk: usize, uid: Uid, mask: u8) {
        let mut line = vec![b's', b'0' + desk as u8];
        line.extend(self.hex(&[&uid[..], &[mask]].concat()));
        self.line(line);
    }

    pub fn sight_new(&mut self, desk: usize, count: usize) {
        for _ in 0..count {
            let uid = self.new_uid();
            self.sight(desk, uid);
        }
    }

    pub fn ticks(&mut self, count: usize) {
        for _ in 0..count {
            self.line(b"t".to_vec());
        }
    }

    /// Asks for k records.
    pub fn read(&mut self, kind: Kind, desk: usize, k: u16) {
        self.request_as(kind, desk, 0x22, &k.to_be_bytes());
    }
}
