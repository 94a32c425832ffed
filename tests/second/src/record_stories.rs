//! Stories about sightings, locks, records and resets.

use crate::blocks::Block;
use crate::config_stories::{both_memories, write_any};
use crate::frame::Kind;
use crate::gen::Gen;
use crate::model::{DESKS, TAB_SIZE};
use crate::stories::{any_command, any_timer};

/// A lock to its last tick.
pub fn valid_time(gen: &mut Gen) {
    let desk = gen.any_desk();
    let ticks = gen.random.pick(&[0, 1, 2, 3, 10, 55, 256, 300, 65535]);
    let reset = gen.random.pick(&[0x63, 0x64]);
    gen.valid_time(desk, ticks, reset);
    let (uid, later) = (gen.new_uid(), gen.new_uid());
    gen.sight(desk, uid);
    gen.sight(desk, uid);
    gen.ticks(1);
    gen.sight(desk, later);
    gen.ticks(usize::from(ticks.min(400)).saturating_sub(2));
    gen.sight(desk, uid);
    gen.ticks(1);
    gen.sight(desk, later);
    gen.sight(desk, uid);
    gen.ticks(1);
    gen.sight(desk, later);
    gen.sight(desk, uid);
    probe(gen, desk);
}

/// A new VALID-TIME that no reset has brought in force; RAM does not count.
pub fn unused_valid_time(gen: &mut Gen) {
    let desk = gen.any_desk();
    gen.logged_in(desk);
    let short: Block = std::array::from_fn(|i| if i == 1 { 3 } else { 0 });
    let memory = gen.random.pick(&[0x0C, 0x8C]);
    gen.write(desk, memory, &short);
    let uid = gen.new_uid();
    gen.sight(desk, uid);
    gen.ticks(5);
    gen.sight(desk, uid);
    if gen.random.one_in(2) {
        gen.request(desk, gen.random.pick(&[0x63, 0x64]), &[]);
        gen.sight(desk, uid);
        gen.ticks(4);
        gen.sight(desk, uid);
    }
    probe(gen, desk);
}

pub fn fill(gen: &mut Gen, desk: usize) {
    let room = TAB_SIZE - gen.desk(desk).records.len();
    for _ in 0..room + 30 {
        if gen.desk(desk).records.len() < TAB_SIZE {
            gen.sight_new(desk, 1);
        }
    }
}

/// 64 records, then locked and unlocked UIDs, then one way to drop the mark.
pub fn overflow(gen: &mut Gen) {
    let desk = gen.any_desk();
    fill(gen, desk);
    let locked = gen.desk(desk).locks.last().map(|lock| lock.uid);
    if let Some(uid) = locked {
        gen.sight(desk, uid);
        any_read(gen, desk);
    }
    if gen.random.one_in(2) {
        let kind = gen.any_kind();
        gen.read(kind, desk, 64);
    }
    let lost = gen.random.below(4);
    gen.sight_new(desk, lost);
    gen.request(desk, 0x31, &[]);
    any_read(gen, desk);
    let other = gen.other_desk(desk);
    any_read(gen, other);
    if gen.random.one_in(3) {
        gen.request(desk, 0x63, &[]);
        any_read(gen, desk);
    }
    let control = gen.random.pick(&[0x32, 0x32, 0x33, 0x64]);
    gen.request(desk, control, &[]);
    probe(gen, desk);
    gen.sight_new(desk, 2);
    any_read(gen, desk);
}

/// A mark that falls at 0x32, 0x33 or 0x64 although nothing was read.
pub fn unread_overflow(gen: &mut Gen) {
    let desk = gen.any_desk();
    gen.request(desk, 0x32, &[]);
    fill(gen, desk);
    gen.sight_new(desk, 1);
    gen.request(desk, gen.random.pick(&[0x32, 0x32, 0x33, 0x64]), &[]);
    any_read(gen, desk);
    fill(gen, desk);
    any_read(gen, desk);
}

/// More than 64 locks: the oldest gives way.
pub fn many_locks(gen: &mut Gen) {
    let desk = gen.any_desk();
    let ticks = gen.random.pick(&[70, 255, 1000, 65535]);
    gen.valid_time(desk, ticks, 0x64);
    let first = gen.new_uid();
    gen.sight(desk, first);
    let second = gen.new_uid();
    gen.sight(desk, second);
    gen.ticks(gen.random.below(3));
    gen.sight_new(desk, 62);
    gen.sight(desk, first);
    gen.read(Kind::Advanced, desk, 64);
    gen.request(desk, 0x32, &[]);
    gen.sight(desk, first);
    gen.sight_new(desk, 1);
    gen.sight(desk, second);
    gen.sight(desk, first);
    gen.sight(desk, second);
    let more = gen.random.below(40);
    gen.sight_new(desk, more);
    if ticks == 70 {
        gen.ticks(64 + gen.random.below(8));
    }
    for _ in 0..20 {
        let uid = gen.old_uid();
        gen.sight(desk, uid);
    }
    probe(gen, desk);
}

/// One UID at several desks, some of them twice; now and then a tick passes between.
pub fn several_desks(gen: &mut Gen) {
    let uid = gen.new_uid();
    for _ in 0..6 {
        let desk = gen.random.below(DESKS);
        gen.sight(desk, uid);
        gen.ticks(gen.random.below(2));
    }
    let desk = gen.any_desk();
    probe(gen, desk);
}

pub fn every_desk_full(gen: &mut Gen) {
    for desk in 0..DESKS {
        fill(gen, desk);
    }
    for desk in 0..DESKS {
        let count = gen.random.below(3);
        gen.sight_new(desk, count);
        any_read(gen, desk);
    }
    let desk = gen.any_desk();
    gen.request(desk, gen.random.pick(&[0x32, 0x33, 0x64]), &[]);
    (0..DESKS).for_each(|desk| probe(gen, desk));
}

pub fn any_read(gen: &mut Gen, desk: usize) {
    let held = gen.desk(desk).records.len() as u16;
    let k = match gen.random.below(3) {
        0 => gen.random.pick(&[0, 1, 18, 19, 20, 21, 63, 64, 65, 255, 256, 65535]),
        1 => held.saturating_add(gen.random.pick(&[0, 1])),
        _ => gen.random.below(70) as u16,
    };
    let kind = gen.any_kind();
    gen.read(kind, desk, k);
}

/// Reads, records that come after a read, removals once and again.
pub fn reading(gen: &mut Gen) {
    let desk = gen.any_desk();
    let count = gen.random.pick(&[0, 1, 5, 18, 19, 20, 25]);
    gen.sight_new(desk, count);
    for _ in 0..gen.random.below(3) {
        any_read(gen, desk);
        let count = gen.random.below(4);
        gen.sight_new(desk, count);
    }
    for _ in 0..1 + gen.random.below(3) {
        gen.request(desk, 0x32, &[]);
        if gen.random.one_in(2) {
            gen.request(desk, 0x31, &[]);
        }
    }
    gen.request(desk, 0x31, &[]);
    any_read(gen, desk);
}

/// A removal due, then something that cancels it or must not.
pub fn removal(gen: &mut Gen) {
    let desk = gen.any_desk();
    gen.sight_new(desk, 4);
    gen.read(Kind::Standard, desk, 1 + gen.random.below(6) as u16);
    match gen.random.below(6) {
        0 => gen.request(desk, 0x33, &[]),
        1 => gen.request(desk, 0x64, &[]),
        2 => gen.request(desk, 0x63, &[]),
        3 => gen.read(Kind::Standard, desk, 0),
        4 => gen.ticks(1),
        _ => any_command(gen),
    }
    gen.sight_new(desk, 3);
    gen.request(desk, 0x32, &[]);
    probe(gen, desk);
}

pub fn bad_sightings(gen: &mut Gen) {
    let uid = gen.old_uid();
    let desk = gen.any_desk();
    let octet = gen.random.octet();
    match gen.random.below(4) {
        0 => gen.sight_by(desk, uid, 0),
        1 => gen.sight_by(8 + gen.random.below(2), uid, 0),
        2 => gen.sight_by(8 + gen.random.below(2), uid, 1),
        _ => gen.sight_by(desk, uid, octet),
    }
    gen.sight(desk, uid);
}

pub fn some_sightings(gen: &mut Gen) {
    let desk = gen.any_desk();
    for _ in 0..1 + gen.random.below(8) {
        let uid = if gen.random.one_in(3) { gen.new_uid() } else { gen.old_uid() };
        gen.sight(desk, uid);
        if gen.random.one_in(4) {
            gen.ticks(1);
        }
    }
}

/// What the host can see of a desk.
pub fn probe(gen: &mut Gen, desk: usize) {
    gen.request(desk, 0x31, &[]);
    if gen.random.one_in(2) {
        gen.request(desk, 0x86, &[]);
    }
    any_read(gen, desk);
    if gen.random.one_in(4) {
        gen.request(desk, 0x32, &[]);
        gen.request(desk, 0x31, &[]);
    }
}

pub fn probe_any(gen: &mut Gen) {
    let desk = gen.any_desk();
    probe(gen, desk);
}
/// A reset of a desk that has something to lose, and what it kept.
pub fn reset(gen: &mut Gen) {
    let desk = gen.any_desk();
    gen.logged_in(desk);
    let adr = gen.random.below(16) as u8;
    write_any(gen, desk, adr);
    let uid = gen.new_uid();
    gen.sight(desk, uid);
    any_timer(gen, desk);
    let control = gen.random.pick(&[0x63, 0x64, 0x33]);
    gen.request(desk, control, &[]);
    gen.request(desk, 0x80, &[adr]);
    gen.request(desk, 0x86, &[]);
    gen.sight(desk, uid);
    probe(gen, desk);
    both_memories(gen, desk);
    let other = gen.other_desk(desk);
    probe(gen, other);
}
