//! Maker, reader and line writer beside those of the second program.

use crate::{row, time};
use depot::numbers::{RECORD_SIZE, TOLD};
use depot::raw::{self, Asked};
use depot::{Block, DEFAULT_BLOCK_7};
use second::frame::{seal, Kind};
use second::host::{self, Request};
use second::lines;
use std::hint::black_box;

const BLOCK_7: Block = DEFAULT_BLOCK_7;

fn maker_row() {
    let request = Request::WriteBlock { adr: 7, bytes: BLOCK_7 };
    let q = Asked { kind: 0, desk: 7, control: 0x81, a: 7, b: 0, c: 0, bytes: &BLOCK_7 };
    let mine = time(&[0; 32], 500, |out, _| _ = black_box(raw::make(q, out)));
    let other = time(&[0; 32], 500, |out, _| _ = black_box(host::make(Kind::Standard, 7, &request, out)));
    row("maker, write of block 7", mine, other, f64::NAN);
}

fn reader_row(records: usize) {
    let mut rest = vec![0; 1 + 2 + records * RECORD_SIZE];
    rest[2] = records as u8;
    let reply = seal(Kind::Advanced, 3, 0x22, &rest);
    let request = Request::ReadRecords { k: 64 };
    let q = Asked { kind: 1, desk: 3, control: 0x22, a: 64, b: 0, c: 0, bytes: &[] };
    assert!(raw::read(q, &reply) >= TOLD);
    let mine = time(&reply, 200, |r, _| _ = black_box(raw::read(q, r)));
    let other = time(&reply, 200, |r, _| _ = black_box(host::read(Kind::Advanced, 3, &request, r).is_ok()));
    row(&format!("reader, {records} records"), mine, other, f64::NAN);
}

fn lines_row() {
    let mut data = vec![0; 2 + 64 * RECORD_SIZE];
    data[1] = 64;
    let mine = time(&[0; 2000], 100, |out, _| _ = black_box(raw::lines(&BLOCK_7, &data, out)));
    let other = time(&[0; 2000], 100, |out, _| _ = black_box(lines::lines(&BLOCK_7, &data, out)));
    row("64 scan lines", mine, other, f64::NAN);
}

pub fn rows() {
    maker_row();
    reader_row(1);
    reader_row(64);
    lines_row();
}
