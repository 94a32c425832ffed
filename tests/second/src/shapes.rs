//! Lines that no desk answers, or that it answers with 0x80 or 0x81.

use crate::command::known;
use crate::frame::{reseal, seal, Kind, LONGEST};
use crate::gen::Gen;
use crate::lengths;

/// A request that is sound but for its length, which may be any up to 900;
/// now and then with more behind it.
pub fn any_length(gen: &mut Gen) {
    let length = match gen.random.below(3) {
        0 => gen.random.pick(&[253, 254, 255, 256, LONGEST - 2, LONGEST - 1, LONGEST, LONGEST + 1, LONGEST + 2]),
        _ => gen.next_length(),
    };
    let mut octets = of_length(gen, length);
    if gen.random.one_in(4) {
        octets.extend(gen.random.octets(1 + gen.random.below(3)));
    }
    gen.octets(&octets);
}

fn of_length(gen: &mut Gen, length: usize) -> Vec<u8> {
    let kind = if length > 255 { Kind::Advanced } else { gen.any_kind() };
    if length < kind.shortest_request() {
        return gen.random.octets(length);
    }
    let (desk, control) = (gen.any_desk(), any_control(gen));
    let data = gen.random.octets(length - kind.shortest_request());
    seal(kind, desk as u8, control, &data)
}

pub fn any_control(gen: &mut Gen) -> u8 {
    match gen.random.below(8) {
        0 => gen.random.octet(),
        _ => gen.random.pick(&CONTROLS),
    }
}

pub const CONTROLS: [u8; 14] = [0x52, 0x63, 0x64, 0x80, 0x81, 0x82, 0x83, 0x85, 0x86, 0xA0, 0x22, 0x31, 0x32, 0x33];

pub fn unknown_control(gen: &mut Gen) {
    let near = gen.random.pick(&CONTROLS).wrapping_add(gen.random.pick(&[1, 255, 0x80, 0x10]));
    let control = if gen.random.one_in(2) { near } else { gen.random.octet() };
    if known(control).is_none() {
        let (desk, length) = (gen.any_desk(), gen.random.below(5));
        let data = gen.random.octets(length);
        gen.request(desk, control, &data);
    }
}

/// A known command whose data is too short or too long, logged in or not.
pub fn wrong_length(gen: &mut Gen) {
    let control = gen.random.pick(&CONTROLS);
    let listed = known(control).map_or(0, |row| row.length);
    let length = match gen.random.below(3) {
        0 => listed + 1,
        1 => listed.saturating_sub(1),
        _ => gen.random.below(24),
    };
    if length != listed {
        let desk = gen.any_desk();
        let data = gen.random.octets(length);
        gen.request(desk, control, &data);
    }
}

/// A sound request, then one thing about it made wrong.
pub fn broken_frame(gen: &mut Gen) {
    let mut octets = short_request(gen);
    if gen.random.one_in(4) {
        let length = 7 + gen.random.below(894);
        octets = of_length(gen, length);
    }
    match gen.random.below(11) {
        0 => octets.truncate(gen.random.below(octets.len())),
        1 => octets.truncate(octets.len() - 1),
        2 => octets.push(gen.random.pick(&[0, 2, 0xFF])),
        3 => flip(gen, &mut octets),
        4 => swap_crc(&mut octets),
        5 => invert_crc(&mut octets),
        6 => false_length(gen, &mut octets),
        7 => swap_length(&mut octets),
        8 => foreign(gen, &mut octets),
        9 => other_kind(gen, &mut octets),
        _ => flip_crc(gen, &mut octets),
    }
    gen.octets(&octets);
}

fn short_request(gen: &mut Gen) -> Vec<u8> {
    let kind = gen.any_kind();
    let control = gen.random.pick(&CONTROLS);
    let data = gen.random.octets(known(control).map_or(0, |row| row.length));
    seal(kind, gen.any_desk() as u8, control, &data)
}

fn flip(gen: &mut Gen, octets: &mut [u8]) {
    let at = gen.random.below(octets.len());
    octets[at] ^= 1 << gen.random.below(8);
}

fn flip_crc(gen: &mut Gen, octets: &mut [u8]) {
    let at = octets.len() - 1 - gen.random.below(2);
    octets[at] ^= 1 << gen.random.below(8);
}

fn swap_crc(octets: &mut [u8]) {
    let end = octets.len();
    octets.swap(end - 1, end - 2);
}

fn invert_crc(octets: &mut [u8]) {
    let end = octets.len();
    octets[end - 1] ^= 0xFF;
    octets[end - 2] ^= 0xFF;
}

/// The length field lies, the CRC is right.
fn false_length(gen: &mut Gen, octets: &mut [u8]) {
    let at = if octets[0] == 2 { gen.random.pick(&[1, 2]) } else { 0 };
    octets[at] = octets[at].wrapping_add(gen.random.pick(&[1, 255, 0x80]));
    reseal(octets);
}

fn swap_length(octets: &mut [u8]) {
    if octets[0] == 2 {
        octets.swap(1, 2);
    }
    reseal(octets);
}

/// A first octet that does not fit the rest.
fn other_kind(gen: &Gen, octets: &mut [u8]) {
    octets[0] = gen.random.pick(&[0, 1, 2, 3, 4, 0x82]);
    reseal(octets);
}

/// An address above 7; now and then with a wrong CRC too.
fn foreign(gen: &mut Gen, octets: &mut [u8]) {
    let at = if octets[0] == 2 { 3 } else { 1 };
    octets[at] = match gen.random.below(2) {
        0 => gen.random.pick(&[8, 9, 16, 127, 128, 255]),
        _ => 8 + gen.random.below(248) as u8,
    };
    reseal(octets);
    if gen.random.one_in(3) {
        flip_crc(gen, octets);
    }
}

/// A frame at an edge of the table of lengths.
pub fn at_an_edge(gen: &mut Gen) {
    let octets = lengths::at_an_edge(&gen.random, Kind::shortest_request);
    gen.octets(&octets);
}

/// Frames with a right CRC that are too short to be frames.
pub fn too_short(gen: &mut Gen) {
    let length = gen.random.below(8);
    let mut octets = gen.random.octets(length);
    if let Some(first) = octets.first_mut() {
        *first = if gen.random.one_in(2) { 2 } else { length as u8 };
    }
    if length >= 3 && octets[0] == 2 {
        octets[1..3].copy_from_slice(&[0, length as u8]);
    }
    if length > 2 {
        reseal(&mut octets);
    }
    gen.octets(&octets);
}

/// Any octets at all, of any length up to 900.
pub fn noise(gen: &mut Gen) {
    let length = gen.next_length();
    let octets = gen.random.octets(length);
    gen.octets(&octets);
}

/// A frame whose length, cut to 16 bits, is that of a sound one. Also lines
/// of that size with one digit too many, or one bad digit at the end.
pub fn giant(gen: &mut Gen) {
    let mut octets = seal(Kind::Advanced, 0, 0x33, &[]);
    octets.resize(65536 + 7, 0x5A);
    let mut line = gen.hex(&octets);
    match gen.random.below(3) {
        0 => line.push(b'0'),
        1 => line.extend_from_slice(b"0x"),
        _ => {}
    }
    gen.line(line);
}

/// Lines that are not read.
pub fn malformed(gen: &mut Gen) {
    let frame = short_request(gen);
    let mut line = gen.hex(&frame);
    let sighting = format!("s0{}", "E007000001645E3701").into_bytes();
    match gen.random.below(18) {
        0 => line.truncate(line.len() - 1),
        1 => line.push(b'0'),
        2 => line.insert(gen.random.below(frame.len() * 2), b' '),
        3 => line.push(b'\r'),
        4 => line = vec![gen.random.pick(b"TTSs xg\r\0\xFF\xC3")],
        5 => line = gen.random.pick(&[&b"t "[..], b" t", b"tt", b"t\r", b"t0", b"st", b"s0", b"0"]).to_vec(),
        6 => line = [b"S", &sighting[1..]].concat(),
        7 => line = sighting[..sighting.len() - 1 - gen.random.below(4)].to_vec(),
        8 => line = [&sighting[..], &b"00"[..1 + gen.random.below(2)]].concat(),
        9 => line = replaced(sighting, 1, gen.random.pick(b"aAF:/ -+")),
        10 => line = replaced(sighting, 2 + gen.random.below(18), gen.random.pick(b"gG@`:/ x")),
        11 => line = [&sighting[..2], b" ", &sighting[2..]].concat(),
        12 => line = replaced(line, gen.random.below(frame.len() * 2), gen.random.pick(b"gG@`:/OlxsT")),
        13..16 => line = long_line(gen),
        16 => line = replaced(line, gen.random.below(frame.len() * 2), 0x80 | gen.random.octet()),
        _ => line = [b"0x", &line[..]].concat(),
    }
    gen.bad_line(line);
}

fn replaced(mut line: Vec<u8>, at: usize, octet: u8) -> Vec<u8> {
    line[at] = octet;
    line
}

/// About as long as the longest frame or longer; bad only at its end, by an
/// odd digit or by a bad one.
fn long_line(gen: &Gen) -> Vec<u8> {
    let octets = gen.random.below(80) + 820;
    let mut line = vec![b'0'; 2 * octets];
    match gen.random.below(2) {
        0 => line.push(b'F'),
        _ => line.extend([b'0', gen.random.pick(b"gZ\r s")]),
    }
    line
}
