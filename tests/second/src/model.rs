//! The plain box in memory: eight desks; a frame, a sighting, a tick.

use crate::blocks::{self, Memory, DEFAULTS};
use crate::command;
use crate::frame::{judge_request, seal, Refusal};
use crate::timer::Timer;

pub const DESKS: usize = 8;
pub const TAB_SIZE: usize = 64;
pub const LOCKS: usize = 64;

pub type Uid = [u8; 8];

/// UID 8, timer 4, antenna mask 1.
pub const RECORD: usize = 13;
pub type Record = [u8; RECORD];

#[derive(Clone, Copy, PartialEq, Eq, Debug)]
pub struct Lock {
    pub uid: Uid,
    pub left: u16,
}

/// What became of a sighting.
#[derive(Clone, Copy, PartialEq, Eq, Debug)]
pub enum Seen {
    /// With the ticks that the lock has left.
    Ignored(u16),
    Lost,
    Recorded,
}

/// Everything that is kept for a desk. Records and locks: oldest first.
#[derive(Clone, PartialEq, Eq, Debug)]
pub struct Desk {
    pub ram: Memory,
    pub eeprom: Memory,
    pub valid_time: u16,
    pub logged_in: bool,
    pub timer: Timer,
    pub records: Vec<Record>,
    pub locks: Vec<Lock>,
    pub mark: bool,
    pub due: usize,
    pub tab_start: usize,
}

impl Desk {
    pub fn fresh() -> Desk {
        Desk {
            ram: DEFAULTS,
            eeprom: DEFAULTS,
            valid_time: blocks::valid_time(&DEFAULTS[12]),
            logged_in: false,
            timer: Timer::default(),
            records: Vec::new(),
            locks: Vec::new(),
            mark: false,
            due: 0,
            tab_start: 0,
        }
    }

    /// The first rule that fits.
    pub fn sighting(&mut self, uid: Uid, mask: u8) -> Seen {
        if let Some(lock) = self.locks.iter().find(|lock| lock.uid == uid) {
            return Seen::Ignored(lock.left);
        }
        if self.records.len() == TAB_SIZE {
            self.mark = true;
            return Seen::Lost;
        }
        self.records.push(record(uid, self.timer, mask));
        if self.valid_time > 0 {
            self.lock(uid);
        }
        Seen::Recorded
    }

    fn lock(&mut self, uid: Uid) {
        if self.locks.len() == LOCKS {
            self.locks.remove(0);
        }
        let left = self.valid_time;
        self.locks.push(Lock { uid, left });
    }

    pub fn tick(&mut self) {
        for lock in &mut self.locks {
            lock.left -= 1;
        }
        self.locks.retain(|lock| lock.left > 0);
        self.timer.tick();
    }

    /// 0x33, and a part of 0x64: the records and all that goes with them.
    pub fn empty_records(&mut self) {
        self.records.clear();
        self.mark = false;
        self.due = 0;
        self.tab_start = 0;
    }

    /// 0x32: what the last 0x22 sent goes, once; the mark falls in any case.
    pub fn remove_sent(&mut self) {
        self.records.drain(..self.due);
        self.tab_start = (self.tab_start + self.due) % TAB_SIZE;
        self.due = 0;
        self.mark = false;
    }
}

pub fn record(uid: Uid, timer: Timer, mask: u8) -> Record {
    let mut octets = [0; RECORD];
    octets[..8].copy_from_slice(&uid);
    octets[8..12].copy_from_slice(&timer.octets());
    octets[12] = mask;
    octets
}

#[derive(Clone, PartialEq, Eq, Debug)]
pub struct Depot {
    pub desks: [Desk; DESKS],
}

impl Depot {
    pub fn fresh() -> Depot {
        Depot { desks: std::array::from_fn(|_| Desk::fresh()) }
    }

    pub fn frame(&mut self, octets: &[u8]) -> Result<Vec<u8>, Refusal> {
        let frame = judge_request(octets)?;
        let desk = self.desk(u64::from(frame.address))?;
        let reply = command::answer(desk, frame.kind, frame.control, frame.rest);
        let rest = reply.octets();
        Ok(seal(frame.kind, frame.address, frame.control, &rest))
    }

    pub fn sighting(&mut self, desk: u64, uid: Uid, mask: u8) -> Result<Seen, Refusal> {
        let desk = self.desk(desk)?;
        if mask == 0 {
            return Err(Refusal::Argument);
        }
        Ok(desk.sighting(uid, mask))
    }

    pub fn tick(&mut self) {
        self.desks.iter_mut().for_each(Desk::tick);
    }

    fn desk(&mut self, desk: u64) -> Result<&mut Desk, Refusal> {
        let index = usize::try_from(desk).map_err(|_| Refusal::Desk)?;
        self.desks.get_mut(index).ok_or(Refusal::Desk)
    }
}
