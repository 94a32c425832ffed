//! The situations that random events must reach, and the names of shapes.

use crate::frame::{Kind, Refusal, LONGEST};
use crate::lengths;
use crate::shapes::CONTROLS;

/// The status octets of each command beside 0x81.
pub fn statuses(control: u8) -> &'static [u8] {
    match control {
        0x52 | 0x85 => &[0x00, 0x11],
        0x80 => &[0x00, 0x11, 0x13, 0x15],
        0x81 => &[0x00, 0x11, 0x13, 0x16],
        0x82 | 0x83 => &[0x00, 0x11, 0x13],
        0xA0 => &[0x00, 0x14],
        0x22 => &[0x00, 0x11, 0x92, 0x93, 0x94],
        _ => &[0x00],
    }
}

pub fn required() -> Vec<String> {
    let mut names: Vec<String> = FIXED.iter().map(|&name| name.into()).collect();
    for kind in Kind::BOTH {
        names.push(format!("unknown answers 0x80, {kind:?}"));
        names.push(format!("frame: refused 5, {kind:?}"));
        names.extend(["31", "32", "33"].map(|number| format!("frame: refused {number}, {kind:?}")));
        for control in CONTROLS {
            let own = statuses(control).iter().chain(&[0x81]);
            let possible = own.filter(|&&status| kind == Kind::Standard || status != 0x94);
            names.extend(possible.map(|status| format!("{control:#04X} answers {status:#04X}, {kind:?}")));
        }
        names.extend(CRC_SHAPES.map(|shape| format!("frame: refused 4, {kind:?}{shape}")));
    }
    for control in [0x80, 0x81, 0x82, 0x83] {
        names.extend(ADR_SHAPES.map(|shape| format!("{control:#04X}: {shape}")));
    }
    names.extend([0, 1, 19, 20, 63, 64, 65, 65535].map(|k| format!("0x22: k = {k}")));
    names.extend(lengths::cells(Kind::shortest_request).iter().map(|cell| format!("frame: {cell}")));
    names.extend(NOT_READ.map(|shape| format!("not read: {shape}")));
    names
}

const CRC_SHAPES: [&str; 2] = ["", ", desk above 7 as well"];

const ADR_SHAPES: [&str; 10] = [
    "RAM block 0",
    "RAM block",
    "RAM beyond 15",
    "RAM all",
    "RAM all and a block",
    "EEPROM block 0",
    "EEPROM block",
    "EEPROM beyond 15",
    "EEPROM all",
    "EEPROM all and a block",
];

pub fn adr_shape(adr: u8) -> String {
    let memory = if adr >= 0x80 { "EEPROM" } else { "RAM" };
    let shape = match adr & 0x7F {
        0 => "block 0",
        1..=15 => "block",
        16..=63 => "beyond 15",
        64 => "all",
        _ => "all and a block",
    };
    format!("{memory} {shape}")
}

const NOT_READ: [&str; 12] = [
    "odd digits",
    "space",
    "CR",
    "small s, wrong length",
    "small s, bad desk",
    "small s, bad digit",
    "capital S",
    "capital T",
    "t and more",
    "octet above 127",
    "longer than a frame",
    "other",
];

pub fn not_read_shape(line: &[u8]) -> &'static str {
    let has = |octet| line.contains(&octet);
    match line {
        _ if line.len() > 2 * LONGEST => "longer than a frame",
        _ if has(b'\r') => "CR",
        _ if has(b' ') => "space",
        _ if line.iter().any(|&octet| octet > 127) => "octet above 127",
        [b's', rest @ ..] if rest.len() != 19 => "small s, wrong length",
        [b's', desk, ..] if !desk.is_ascii_digit() => "small s, bad desk",
        [b's', ..] => "small s, bad digit",
        [b'S', ..] => "capital S",
        [b'T'] => "capital T",
        [b't', ..] => "t and more",
        _ if line.iter().all(u8::is_ascii_hexdigit) => "odd digits",
        _ => "other",
    }
}

pub fn case(line: &[u8]) -> &'static str {
    let small = line.iter().any(u8::is_ascii_lowercase);
    let capital = line.iter().any(u8::is_ascii_uppercase);
    match (small, capital) {
        _ if line.is_empty() => "empty line",
        (true, true) => "both cases",
        (true, false) => "small",
        (false, true) => "capital",
        (false, false) => "digits only",
    }
}

/// What a frame that is refused for its length or its CRC shows.
pub fn refused_shape(octets: &[u8], refusal: Refusal) -> String {
    let Some(&first) = octets.first() else {
        return "empty".into();
    };
    let kind = Kind::of(first);
    if refusal == Refusal::Crc {
        let foreign = octets[kind.head()] > 7;
        return format!("{kind:?}{}", CRC_SHAPES[usize::from(foreign)]);
    }
    format!("{kind:?}")
}

const FIXED: [&str; 85] = [
    "frame: refused 3, empty",
    "hex: empty line",
    "hex: small",
    "hex: capital",
    "hex: both cases",
    "sighting: recorded",
    "sighting: ignored",
    "sighting: lost",
    "sighting: lost again",
    "sighting: lost, locked at another desk",
    "sighting: lost, 512 records held",
    "sighting: ignored, 64 held, no mark",
    "sighting: ignored, all ticks left",
    "sighting: ignored, one tick passed",
    "sighting: ignored, one tick left",
    "sighting: ignored, more than 255 ticks left",
    "sighting: ignored, 65534 ticks left",
    "sighting: ignored, 65535 ticks left",
    "sighting: ignored, VALID-TIME 1",
    "sighting: ignored, VALID-TIME taken by 0x63",
    "sighting: ignored, VALID-TIME taken by 0x64",
    "sighting: ignored, new VALID-TIME not in force",
    "sighting: ignored, locked longer at another desk",
    "sighting: ignored, locked shorter at another desk",
    "sighting: ignored, not the oldest lock",
    "sighting: recorded, its lock ended with the last tick",
    "sighting: the oldest lock gave way",
    "sighting: recorded, VALID-TIME 0",
    "sighting: recorded, VALID-TIME 65535",
    "sighting: recorded, new VALID-TIME not in force",
    "sighting: recorded, locked at another desk",
    "sighting: recorded, UID held already",
    "sighting: recorded after a 0x22",
    "sighting: the 64th record",
    "sighting: refused 5, desk 8",
    "sighting: refused 5, desk 9",
    "sighting: refused 5, mask 0 as well",
    "sighting: refused 6",
    "mark set",
    "mark kept by 0x63",
    "mark dropped by 0x32",
    "mark dropped by 0x33",
    "mark dropped by 0x64",
    "removal cancelled by 0x33",
    "removal cancelled by 0x64",
    "removal due kept by 0x63",
    "0x32: nothing due, records held",
    "0x32: twice",
    "0x32: some records stay",
    "0x32: mark dropped, nothing due",
    "0x32: TAB-START beyond 63",
    "0x32: 64 records removed",
    "0x22: k = 0 and none held",
    "0x22: fewer asked than held",
    "0x22: more asked than held",
    "0x22: 64 held, no mark",
    "0x22: 64 records in a reply",
    "0x22: 0x93 where 0x94 would be",
    "0x22: read again before a removal",
    "0x22: 0x11 while a removal is due",
    "tick: a lock ended",
    "tick: a lock ended and others stand",
    "tick: a lock of one tick ended",
    "tick: a lock of more than 255 ticks ended",
    "tick: 60000 ms rolled over",
    "tick: 60000 ms rolled over with a rest",
    "tick: 60 min rolled over",
    "tick: 24 h rolled over",
    "0x32 while locks stand",
    "0x33 while locks stand",
    "0x63 while locks stand",
    "0x64 while locks stand",
    "0x81: RAM block 0, nobody logged in",
    "0x81: 0x16, EEPROM has another password",
    "0x81: 0x16, EEPROM has the same password",
    "0x82: all blocks, RAM's password put back",
    "0x82: block 0, RAM's password put back",
    "0x81: legal block 7, LOC 0",
    "0x81: legal block 7, LOC 1",
    "0x81: illegal block 7, LOC 0",
    "0x81: illegal block 7, LOC 1",
    "0xA0: logged out by a wrong password",
    "0xA0: the password of RAM is wrong",
    "0xA0: the password of RAM is another",
    "0xA0: right and not zero",
];
