//! Scan lines: block 7 shapes the line of a record.

use crate::blocks::{block7_legal, Block};
use crate::data::{carried, records};
use crate::frame::Refusal;
use crate::listing::capital_hex;
use crate::model::Record;

/// Writes one line at the start of `out`: how long it is, or refusal 6 or 7.
pub fn line(block7: &Block, record: &Record, out: &mut [u8]) -> Result<usize, Refusal> {
    if !block7_legal(block7) {
        return Err(Refusal::Argument);
    }
    put(out, &shaped(block7, record))
}

/// Writes a line for each record in the data of a 0x22 reply. Data that no
/// such reply carries are an argument out of range.
pub fn lines(block7: &Block, data: &[u8], out: &mut [u8]) -> Result<usize, Refusal> {
    if !block7_legal(block7) || !carried(data) {
        return Err(Refusal::Argument);
    }
    let text: Vec<u8> = records(data).flat_map(|record| shaped(block7, record)).collect();
    put(out, &text)
}

/// A refused call leaves the output as it is; what lies behind the text stays.
fn put(out: &mut [u8], text: &[u8]) -> Result<usize, Refusal> {
    let room = out.get_mut(..text.len()).ok_or(Refusal::Room)?;
    room.copy_from_slice(text);
    Ok(text.len())
}

fn shaped(block7: &Block, record: &[u8]) -> Vec<u8> {
    let mut text = header(block7).to_vec();
    text.extend(value(block7, &record[..8]));
    text.extend_from_slice(chosen(block7[1], &block7[2..3]));
    text.extend(value(block7, &record[8..12]));
    text.extend_from_slice(chosen(block7[3], user_end(block7)));
    text
}

fn header(block7: &Block) -> &[u8] {
    let length = usize::from(block7[13] >> 4);
    &block7[8..8 + length]
}

/// 0 counts as 1.
fn user_end(block7: &Block) -> &[u8] {
    let length = usize::from(block7[13] & 0x0F).max(1);
    &block7[4..4 + length]
}

fn value(block7: &Block, octets: &[u8]) -> Vec<u8> {
    match block7[0] {
        2 => capital_hex(octets).into_bytes(),
        _ => octets.to_vec(),
    }
}

/// The octets that SEP-CHAR or END-CHAR choose. TAB is that of ASCII since
/// request (iii); what the user gives is written as given.
fn chosen(bits: u8, user: &[u8]) -> &[u8] {
    match bits {
        0x80 => user,
        0x40 => &[0x20],
        0x20 => &[0x2C],
        0x10 => &[0x3B],
        0x08 => &[0x09],
        0x04 => &[0x0D],
        0x02 => &[0x0A],
        0x01 => &[0x0D, 0x0A],
        _ => &[],
    }
}
