//! Which situations a run of events reaches, and which it must reach.

use crate::command::{fitting, known};
use crate::frame::{judge_request, Frame, Kind, Refusal};
use crate::lengths;
use crate::listing::{event, serve, Answer, Event};
use crate::model::{Depot, Desk, Seen, Uid, DESKS, LOCKS, TAB_SIZE};
use crate::situations::{self, not_read_shape};
use crate::tally::Tally;

pub struct Coverage {
    depot: Depot,
    tally: Tally,
    last_control: [u8; DESKS],
    /// The UIDs whose locks ended with the last tick.
    ended: [Vec<Uid>; DESKS],
    /// The reset that took another VALID-TIME, while it is in force.
    taken_by: [u8; DESKS],
}

impl Coverage {
    /// Every situation must be reached once.
    pub fn new() -> Coverage {
        Coverage {
            depot: Depot::fresh(),
            tally: Tally::new(situations::required().into_iter().map(|name| (name, 1))),
            last_control: [0; DESKS],
            ended: Default::default(),
            taken_by: [0; DESKS],
        }
    }

    pub fn tally(&self) -> &Tally {
        &self.tally
    }

    fn count(&mut self, name: &str) {
        self.tally.count(name);
    }

    fn count_if(&mut self, reached: bool, name: &str) {
        self.tally.count_if(reached, name);
    }

    pub fn line(&mut self, line: &[u8]) {
        match event(line) {
            Event::NotRead => self.count(&format!("not read: {}", not_read_shape(line))),
            Event::Tick => self.tick(),
            Event::Sighting { desk, uid, mask } => self.sighting(desk, uid, mask),
            Event::Frame(octets) => self.frame(line, &octets),
        }
    }

    fn tick(&mut self) {
        let before = self.depot.clone();
        self.depot.tick();
        for (at, (old, new)) in before.desks.iter().zip(&self.depot.desks.clone()).enumerate() {
            let ended = new.locks.len() < old.locks.len();
            self.ended[at] = old.locks.iter().filter(|lock| lock.left == 1).map(|lock| lock.uid).collect();
            self.count_if(ended, "tick: a lock ended");
            self.count_if(ended && !new.locks.is_empty(), "tick: a lock ended and others stand");
            self.count_if(ended && old.valid_time == 1, "tick: a lock of one tick ended");
            self.count_if(ended && old.valid_time > 255, "tick: a lock of more than 255 ticks ended");
            let minute = new.timer.minute != old.timer.minute;
            let hour = new.timer.hour != old.timer.hour;
            self.count_if(minute, "tick: 60000 ms rolled over");
            self.count_if(minute && new.timer.ms > 0, "tick: 60000 ms rolled over with a rest");
            self.count_if(hour, "tick: 60 min rolled over");
            self.count_if(hour && new.timer.hour == 0, "tick: 24 h rolled over");
        }
    }

    fn sighting(&mut self, desk: u8, uid: Uid, mask: u8) {
        let before = self.depot.clone();
        match self.depot.sighting(u64::from(desk), uid, mask) {
            Ok(seen) => self.seen(&before, usize::from(desk), uid, seen),
            Err(Refusal::Desk) if mask == 0 => self.count("sighting: refused 5, mask 0 as well"),
            Err(Refusal::Desk) => self.count(&format!("sighting: refused 5, desk {desk}")),
            Err(_) => self.count("sighting: refused 6"),
        }
    }

    fn seen(&mut self, before: &Depot, at: usize, uid: Uid, seen: Seen) {
        let desk = &before.desks[at];
        let locked = |other: &Desk| other.locks.iter().any(|lock| lock.uid == uid);
        let elsewhere = (0..DESKS).any(|other| other != at && locked(&before.desks[other]));
        let full = desk.records.len() == TAB_SIZE;
        let given_way = desk.locks.len() == LOCKS && desk.valid_time > 0;
        let again = desk.records.iter().any(|record| record[..8] == uid);
        let pending = crate::blocks::valid_time(&desk.eeprom[12]) != desk.valid_time;
        match seen {
            Seen::Ignored(left) => {
                self.count("sighting: ignored");
                self.count_if(full && !desk.mark, "sighting: ignored, 64 held, no mark");
                self.ignored(before, at, uid, left);
            }
            Seen::Lost => {
                self.count("sighting: lost");
                self.count_if(!desk.mark, "mark set");
                self.count_if(desk.mark, "sighting: lost again");
                self.count_if(elsewhere, "sighting: lost, locked at another desk");
                let all = before.desks.iter().all(|desk| desk.records.len() == TAB_SIZE);
                self.count_if(all, "sighting: lost, 512 records held");
            }
            Seen::Recorded => {
                self.count("sighting: recorded");
                self.count_if(self.ended[at].contains(&uid), "sighting: recorded, its lock ended with the last tick");
                self.count_if(given_way, "sighting: the oldest lock gave way");
                self.count_if(desk.valid_time == 0, "sighting: recorded, VALID-TIME 0");
                self.count_if(desk.valid_time == 65535, "sighting: recorded, VALID-TIME 65535");
                self.count_if(pending, "sighting: recorded, new VALID-TIME not in force");
                self.count_if(elsewhere, "sighting: recorded, locked at another desk");
                self.count_if(again, "sighting: recorded, UID held already");
                self.count_if(desk.records.len() == 63, "sighting: the 64th record");
                self.count_if(desk.due > 0, "sighting: recorded after a 0x22");
            }
        }
    }

    fn ignored(&mut self, before: &Depot, at: usize, uid: Uid, left: u16) {
        let valid = before.desks[at].valid_time;
        let name = |what: &str| format!("sighting: ignored, {what}");
        self.count_if(left == valid, &name("all ticks left"));
        self.count_if(valid - left == 1, &name("one tick passed"));
        self.count_if(left == 1, &name("one tick left"));
        self.count_if(left > 255 && left != valid, &name("more than 255 ticks left"));
        self.count_if(left >= 65534, &name(&format!("{left} ticks left")));
        self.count_if(valid == 1, &name("VALID-TIME 1"));
        self.count_if(self.taken_by[at] > 0, &name(&format!("VALID-TIME taken by {:#04X}", self.taken_by[at])));
        let pending = crate::blocks::valid_time(&before.desks[at].eeprom[12]) != valid;
        self.count_if(pending, &name("new VALID-TIME not in force"));
        let others = (0..DESKS).filter(|&other| other != at).flat_map(|other| &before.desks[other].locks);
        for lock in others.filter(|lock| lock.uid == uid) {
            self.count_if(lock.left > left, &name("locked longer at another desk"));
            self.count_if(lock.left < left, &name("locked shorter at another desk"));
        }
        let first = before.desks[at].locks[0];
        self.count_if(first.uid != uid && first.left != left, &name("not the oldest lock"));
    }

    fn frame(&mut self, line: &[u8], octets: &[u8]) {
        self.count(&format!("hex: {}", situations::case(line)));
        if let Some(cell) = lengths::cell(octets, Kind::shortest_request) {
            self.count(&format!("frame: {cell}"));
        }
        match judge_request(octets) {
            Err(refusal) => self.refused(octets, refusal),
            Ok(frame) if usize::from(frame.address) >= DESKS => {
                self.count(&format!("frame: refused 5, {:?}", frame.kind))
            }
            Ok(frame) => self.answered(octets, &frame),
        }
    }

    fn refused(&mut self, octets: &[u8], refusal: Refusal) {
        let name = situations::refused_shape(octets, refusal);
        self.count(&format!("frame: refused {}, {name}", refusal.number()));
    }

    fn answered(&mut self, octets: &[u8], frame: &Frame) {
        let at = usize::from(frame.address);
        let before = self.depot.desks[at].clone();
        let Answer::Reply(reply) = serve(&mut self.depot, &Event::Frame(octets.to_vec())) else {
            return;
        };
        let status = reply[frame.kind.head() + 2];
        let control = known(frame.control).map_or("unknown".into(), |_| format!("{:#04X}", frame.control));
        self.count(&format!("{control} answers {status:#04X}, {:?}", frame.kind));
        match frame.control {
            0x22 => self.read_records(&before, frame, status),
            0x32 | 0x33 | 0x63 | 0x64 if status == 0 => self.record_command(&before, frame.control, at),
            0x80..=0x83 if frame.rest.len() == known(frame.control).map_or(0, |row| row.length) => {
                self.blocks(&before, frame, status)
            }
            0xA0 if frame.rest.len() == 4 => self.login(&before, frame, status),
            _ => {}
        }
        self.last_control[at] = frame.control;
    }

    fn read_records(&mut self, before: &Desk, frame: &Frame, status: u8) {
        let [high, low] = *frame.rest else {
            return;
        };
        let k = usize::from(high) * 256 + usize::from(low);
        let held = before.records.len();
        self.count_if([0, 1, 19, 20, 63, 64, 65, 65535].contains(&k), &format!("0x22: k = {k}"));
        self.count_if(k == 0 && held == 0, "0x22: k = 0 and none held");
        self.count_if(k > 0 && k < held, "0x22: fewer asked than held");
        self.count_if(k > held && held > 0, "0x22: more asked than held");
        self.count_if(held == TAB_SIZE && status == 0, "0x22: 64 held, no mark");
        let cut = k.min(held) > fitting(frame.kind);
        self.count_if(cut && status == 0x93, "0x22: 0x93 where 0x94 would be");
        self.count_if(held > 0 && k > 0 && before.due > 0, "0x22: read again before a removal");
        self.count_if(status == 0x11 && before.due > 0, "0x22: 0x11 while a removal is due");
        self.count_if(k > 0 && held == 64 && frame.kind == Kind::Advanced && k >= 64, "0x22: 64 records in a reply");
    }

    fn record_command(&mut self, before: &Desk, control: u8, at: usize) {
        let name = format!("{control:#04X}");
        self.count_if(before.mark && control != 0x63, &format!("mark dropped by {name}"));
        self.count_if(before.mark && control == 0x63, "mark kept by 0x63");
        self.count_if(before.due > 0 && [0x33, 0x64].contains(&control), &format!("removal cancelled by {name}"));
        self.count_if(before.due > 0 && control == 0x63, "removal due kept by 0x63");
        self.count_if(!before.locks.is_empty(), &format!("{name} while locks stand"));
        if self.depot.desks[at].valid_time != before.valid_time {
            self.taken_by[at] = control;
        }
        if control == 0x32 {
            self.removal(before, at);
        }
    }

    fn removal(&mut self, before: &Desk, at: usize) {
        let due = before.due;
        self.count_if(due == 0 && !before.records.is_empty(), "0x32: nothing due, records held");
        self.count_if(self.last_control[at] == 0x32, "0x32: twice");
        self.count_if(due > 0 && due < before.records.len(), "0x32: some records stay");
        self.count_if(before.mark && due == 0, "0x32: mark dropped, nothing due");
        self.count_if(before.tab_start + due >= TAB_SIZE, "0x32: TAB-START beyond 63");
        self.count_if(due == TAB_SIZE, "0x32: 64 records removed");
    }

    fn blocks(&mut self, before: &Desk, frame: &Frame, status: u8) {
        let name = format!("{:#04X}", frame.control);
        let shape = situations::adr_shape(frame.rest[0]);
        self.count_if(before.logged_in, &format!("{name}: {shape}"));
        if frame.control == 0x81 && before.logged_in && frame.rest[0] & 0x7F == 7 {
            let legal = if status == 0 { "legal" } else { "illegal" };
            self.count(&format!("0x81: {legal} block 7, LOC {}", frame.rest[0] >> 7));
        }
        self.passwords(before, frame, status);
    }

    /// RAM and EEPROM have two passwords, as from a write to EEPROM until a reset.
    fn passwords(&mut self, before: &Desk, frame: &Frame, status: u8) {
        let two = before.ram[0][..4] != before.eeprom[0][..4];
        let all = frame.rest[0] & 0x7F == 0x40;
        let named = all || frame.rest[0] & 0x7F == 0;
        let unasked = frame.control == 0x81 && frame.rest[0] == 0 && !before.logged_in;
        self.count_if(unasked, "0x81: RAM block 0, nobody logged in");
        self.count_if(status == 0x16 && two, "0x81: 0x16, EEPROM has another password");
        self.count_if(status == 0x16 && !two, "0x81: 0x16, EEPROM has the same password");
        if frame.control == 0x82 && status == 0 && two && named {
            let how = if all { "all blocks" } else { "block 0" };
            self.count(&format!("0x82: {how}, RAM's password put back"));
        }
    }

    fn login(&mut self, before: &Desk, frame: &Frame, status: u8) {
        let ram = frame.rest == &before.ram[0][..4];
        self.count_if(status == 0x14 && before.logged_in, "0xA0: logged out by a wrong password");
        self.count_if(status == 0x14 && ram, "0xA0: the password of RAM is wrong");
        self.count_if(status == 0 && !ram, "0xA0: the password of RAM is another");
        self.count_if(status == 0 && frame.rest != [0, 0, 0, 0], "0xA0: right and not zero");
    }
}

impl Default for Coverage {
    fn default() -> Coverage {
        Coverage::new()
    }
}
