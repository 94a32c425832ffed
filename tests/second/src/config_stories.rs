//! Stories about blocks, CFG-ADR and login.

use crate::blocks::Block;
use crate::gen::Gen;

pub fn any_adr(gen: &mut Gen) -> u8 {
    match gen.random.below(3) {
        0 => gen.random.octet(),
        1 => gen.random.pick(&EDGES),
        _ => gen.random.below(16) as u8 | gen.random.pick(&[0, 0x80]),
    }
}

const EDGES: [u8; 17] =
    [0x00, 0x01, 0x07, 0x0F, 0x10, 0x3F, 0x40, 0x41, 0x4F, 0x7F, 0x80, 0x8F, 0x90, 0xBF, 0xC0, 0xC1, 0xFF];

pub fn any_block_command(gen: &mut Gen, desk: usize) {
    let adr = any_adr(gen);
    match gen.random.below(4) {
        0 => write_any(gen, desk, adr),
        n => gen.request(desk, [0, 0x80, 0x82, 0x83][n], &[adr]),
    }
}

/// Legal bytes for block 7 more often than not; VALID-TIMEs that stay short.
pub fn write_any(gen: &mut Gen, desk: usize, adr: u8) {
    let mut block = gen.any_block();
    match adr & 0x3F {
        7 => block = any_block7(gen),
        12 => block[0] = 0,
        _ => {}
    }
    gen.write(desk, adr, &block);
}

pub fn any_block7(gen: &mut Gen) -> Block {
    let mut block = gen.any_block();
    let bit = [0, 1, 2, 4, 8, 0x10, 0x20, 0x40, 0x80];
    block[0] = gen.random.pick(&[0, 2]);
    block[1] = gen.random.pick(&bit);
    block[3] = gen.random.pick(&bit);
    block[13] = gen.random.below(5) as u8 * 16 + gen.random.below(4) as u8;
    match gen.random.below(8) {
        0 => block[0] = gen.random.pick(&[1, 3, 4, 0x12, 0x20, 0x80, 0xFF]),
        1 => block[1] = gen.random.pick(&[0x21, 0x03, 0x81, 0xFF, 0xC0]),
        2 => block[3] = gen.random.pick(&[0x21, 0x03, 0x81, 0xFF, 0xC0]),
        3 => block[13] = gen.random.pick(&[0x44, 0x50, 0x04, 0x4F, 0xF0, 0x53]),
        _ => {}
    }
    block
}

/// Block 7 in both memories, right and wrong bytes, read back.
pub fn block7(gen: &mut Gen) {
    let desk = gen.any_desk();
    gen.logged_in(desk);
    for _ in 0..4 {
        let adr = gen.random.pick(&[0x07, 0x87]);
        let block = any_block7(gen);
        gen.write(desk, adr, &block);
        gen.request(desk, 0x80, &[adr]);
    }
}

/// CFG-ADR of every shape, logged in.
pub fn addresses(gen: &mut Gen) {
    let desk = gen.any_desk();
    gen.logged_in(desk);
    for _ in 0..8 {
        any_block_command(gen, desk);
    }
    both_memories(gen, desk);
}

pub fn every_address(gen: &mut Gen) {
    let desk = gen.any_desk();
    gen.logged_in(desk);
    let control = gen.random.pick(&[0x80, 0x81, 0x82, 0x83]);
    for adr in 0..=255 {
        match control {
            0x81 => write_any(gen, desk, adr),
            _ => gen.request(desk, control, &[adr]),
        }
    }
}

/// Reads some blocks from RAM and from EEPROM.
pub fn both_memories(gen: &mut Gen, desk: usize) {
    gen.logged_in(desk);
    for _ in 0..3 {
        let block = gen.random.below(16) as u8;
        gen.request(desk, 0x80, &[block]);
        gen.request(desk, 0x80, &[0x80 | block]);
    }
}

/// A new password, now and then into RAM, and what logins, a reset, a save and
/// defaults then make of the two memories.
pub fn passwords(gen: &mut Gen) {
    let desk = gen.any_desk();
    gen.logged_in(desk);
    let old = gen.desk(desk).eeprom[0];
    let mut new = old;
    new[gen.random.below(4)] ^= 1 << gen.random.below(8);
    let memory = gen.random.pick(&[0x00, 0x00, 0x40, 0x80, 0x80, 0x80]);
    gen.write(desk, memory, &new);
    if gen.random.one_in(4) {
        gen.request(desk, 0x63, &[]);
        gen.write(desk, 0x00, &new);
    }
    gen.request(desk, 0x80, &[0x0C]);
    gen.request(desk, 0xA0, &new[..4]);
    any_block_command(gen, desk);
    gen.request(desk, 0xA0, &old[..4]);
    any_block_command(gen, desk);
    gen.login(desk);
    let named = gen.random.pick(&[0x00, 0x40, 0x01]);
    gen.request(desk, 0x82, &[named]);
    gen.request(desk, 0xA0, &new[..4]);
    gen.request(desk, 0x80, &[0x87]);
    gen.login(desk);
    if gen.random.one_in(2) {
        gen.request(desk, 0x83, &[gen.random.pick(&[0x80, 0xC0])]);
        gen.request(desk, 0x80, &[0x07]);
        gen.request(desk, 0xA0, &[0, 0, 0, 0]);
    }
}

pub fn configuration(gen: &mut Gen) {
    let desk = gen.any_desk();
    gen.logged_in(desk);
    for _ in 0..3 {
        let adr = gen.random.below(16) as u8 | gen.random.pick(&[0, 0x80]);
        write_any(gen, desk, adr);
        gen.request(desk, 0x80, &[adr]);
        gen.request(desk, 0x80, &[adr ^ 0x80]);
    }
    let other = gen.other_desk(desk);
    both_memories(gen, other);
    if gen.random.one_in(2) {
        gen.request(desk, 0x63, &[]);
    }
    both_memories(gen, desk);
}

pub fn save_and_defaults(gen: &mut Gen) {
    let desk = gen.any_desk();
    gen.logged_in(desk);
    for block in [gen.random.below(16) as u8, 7, 12, 15] {
        write_any(gen, desk, block);
        write_any(gen, desk, 0x80 | gen.random.below(16) as u8);
        let named = gen.random.pick(&[block, block, 0x40]);
        match gen.random.below(2) {
            0 => gen.request(desk, 0x82, &[named]),
            _ => gen.request(desk, 0x83, &[named | gen.random.pick(&[0, 0x80])]),
        }
        gen.logged_in(desk);
        gen.request(desk, 0x80, &[block]);
        gen.request(desk, 0x80, &[0x80 | block]);
        both_memories(gen, desk);
    }
}
