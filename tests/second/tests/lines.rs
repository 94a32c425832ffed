//! Scan lines beyond the paper's M12.

use second::blocks::{Block, DEFAULTS};
use second::frame::Refusal;
use second::lines::{line, lines};
use second::model::Record;

const RECORD: Record = [0xE0, 7, 0, 0, 1, 0x64, 0x5E, 0x37, 1, 2, 3, 0xE8, 0xFF];

fn raw(change: impl Fn(&mut Block)) -> Vec<u8> {
    let mut block = DEFAULTS[7];
    block[0] = 0;
    block[2] = b'|';
    block[4..7].copy_from_slice(b"xyz");
    block[8..12].copy_from_slice(b"HEAD");
    change(&mut block);
    let mut out = [0xAA; 40];
    let length = line(&block, &RECORD, &mut out).unwrap();
    assert!(out[length..].iter().all(|&octet| octet == 0xAA));
    out[..length].to_vec()
}

fn framed(header: &[u8], separator: &[u8], end: &[u8]) -> Vec<u8> {
    [header, &RECORD[..8], separator, &RECORD[8..12], end].concat()
}

#[test]
fn separators_and_ends() {
    let octets: [&[u8]; 8] = [b"\r\n", b"\n", b"\r", b"\t", b";", b",", b" ", b"|"];
    for (bit, separator) in octets.iter().enumerate() {
        let made = raw(|block| (block[1], block[3]) = (1 << bit, 0));
        assert_eq!(made, framed(b"", separator, b""));
    }
    assert_eq!(raw(|block| (block[1], block[3]) = (0, 8)), framed(b"", b"", b"\t"));
}

#[test]
fn user_octets_stay() {
    for octet in 0..=255 {
        let between = raw(|block| (block[1], block[2], block[3]) = (0x80, octet, 0));
        assert_eq!(between, framed(b"", &[octet], b""));
        let end = raw(|block| (block[1], block[3], block[5], block[13]) = (0, 0x80, octet, 2));
        assert_eq!(end, framed(b"", b"", &[b'x', octet]));
    }
}

#[test]
fn header_and_user_end() {
    let ends: [(u8, &[u8]); 4] = [(0, b"x"), (1, b"x"), (2, b"xy"), (3, b"xyz")];
    for (low, end) in ends {
        let made = raw(|block| (block[1], block[3], block[13]) = (0, 0x80, low));
        assert_eq!(made, framed(b"", b"", end));
    }
    for length in 0..=4 {
        let made = raw(|block| (block[1], block[3], block[13]) = (0, 0, length as u8 * 16 + 3));
        assert_eq!(made, framed(&b"HEAD"[..length], b"", b""));
    }
}

#[test]
fn each_line_goes_into_the_rest() {
    let data = [&[0, 2][..], &RECORD, &RECORD].concat();
    let mut out = [0xAA; 60];
    assert_eq!(lines(&DEFAULTS[7], &data, &mut out[..53]), Err(Refusal::Room));
    assert!(out.iter().all(|&octet| octet == 0xAA));
    assert_eq!(lines(&DEFAULTS[7], &data, &mut out[..54]), Ok(54));
    assert_eq!(out[..27], out[27..54]);
    let mut illegal = DEFAULTS[7];
    illegal[1] = 0x21;
    assert_eq!(lines(&illegal, &data, &mut []), Err(Refusal::Argument));
}

#[test]
fn only_what_a_reply_carries() {
    let mut out = [0xAA; 2000];
    assert_eq!(lines(&DEFAULTS[7], &[], &mut []), Ok(0));
    for count in [1, 2, 64] {
        let data = [&[0, count][..], &RECORD.repeat(count.into())].concat();
        assert_eq!(lines(&DEFAULTS[7], &data, &mut out), Ok(27 * usize::from(count)));
        assert_eq!(lines(&DEFAULTS[7], &data, &mut []), Err(Refusal::Room));
    }
    let of = |count: [u8; 2], records| [&count[..], &RECORD.repeat(records)].concat();
    for data in [vec![0], of([0, 0], 0), of([0, 1], 0), of([0, 0], 1), of([1, 1], 1), of([0, 1], 2), of([0, 65], 65)] {
        assert_eq!(lines(&DEFAULTS[7], &data, &mut []), Err(Refusal::Argument));
    }
}
