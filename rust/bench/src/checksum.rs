//! The checksum: a reader of the longest reply beside a table-driven CRC over as many octets.

use crate::time;
use depot::numbers::{RECORD_SIZE, REPLY_SIZE, TOLD};
use depot::raw::{self, Asked};
use second::frame::{seal, Kind};
use std::hint::black_box;

fn table() -> [u16; 256] {
    std::array::from_fn(|octet| (0..8).fold(octet as u16, |crc, _| if crc & 1 == 1 { crc >> 1 ^ 0x8408 } else { crc >> 1 }))
}

fn by_table(table: &[u16; 256], octets: &[u8]) -> u16 {
    octets.iter().fold(0xFFFF, |crc, octet| crc >> 8 ^ table[usize::from(crc as u8 ^ octet)])
}

pub fn rows() {
    let table = table();
    let mut rest = vec![0; 1 + 2 + 64 * RECORD_SIZE];
    rest[2] = 64;
    let reply = seal(Kind::Advanced, 0, 0x22, &rest);
    assert_eq!(reply.len(), REPLY_SIZE);
    let q = Asked { kind: 1, desk: 0, control: 0x22, a: 64, b: 0, c: 0, bytes: &[] };
    assert!(raw::read(q, &reply) >= TOLD);
    let mine = time(&reply, 100, |r, _| _ = black_box(raw::read(q, r))) / (REPLY_SIZE - 2) as f64;
    let other = time(&reply, 100, |r, _| _ = black_box(by_table(&table, &r[..REPLY_SIZE - 2]))) / (REPLY_SIZE - 2) as f64;
    println!("{:34} {mine:9.2} {other:9.2} {:6.2}", "CRC, ns an octet (by table)", mine / other);
}
