//! What the data of a reply say, put at the start of a lent output. A refused
//! call leaves the output as it is; what lies behind what is put stays.

use crate::blocks::BLOCK_BYTES;
use crate::frame::Refusal;
use crate::model::{RECORD, TAB_SIZE};
use crate::store::word;
use crate::timer::Timer;

/// 0x80: the fourteen bytes.
pub fn block(data: &[u8], out: &mut [u8]) -> Result<usize, Refusal> {
    let room = out.get_mut(..BLOCK_BYTES).ok_or(Refusal::Room)?;
    room.copy_from_slice(of_length(BLOCK_BYTES, data)?);
    Ok(room.len())
}

/// 0x86: hour, minute, milliseconds.
pub fn timer(data: &[u8], out: &mut [u64]) -> Result<usize, Refusal> {
    let room = out.get_mut(..3).ok_or(Refusal::Room)?;
    room.copy_from_slice(&timer_numbers(of_length(4, data)?));
    Ok(room.len())
}

/// 0x31: TAB-SIZE, TAB-START, TAB-LEN.
pub fn sizes(data: &[u8], out: &mut [u64]) -> Result<usize, Refusal> {
    let room = out.get_mut(..3).ok_or(Refusal::Room)?;
    let octets = of_length(6, data)?;
    room.copy_from_slice(&[0, 2, 4].map(|at| word(octets, at) as u64));
    Ok(room.len())
}

/// 0x22: UID, hour, minute, milliseconds, mask of record `i`, the oldest is 0.
pub fn record(data: &[u8], i: usize, out: &mut [u64]) -> Result<usize, Refusal> {
    let octets = records(data).nth(i).ok_or(Refusal::Argument)?;
    let room = out.get_mut(..5).ok_or(Refusal::Room)?;
    if !carried(data) {
        return Err(Refusal::Reply);
    }
    room[0] = octets[..8].iter().fold(0, |uid, &octet| uid << 8 | u64::from(octet));
    room[1..4].copy_from_slice(&timer_numbers(&octets[8..12]));
    room[4] = octets[12].into();
    Ok(room.len())
}

/// Whether a reply to 0x22 carries these data: none at all, or a count from
/// 1 to 64 and exactly as many records.
pub fn carried(data: &[u8]) -> bool {
    match data {
        [] => true,
        [high, low, records @ ..] => {
            let count = usize::from(*high) * 256 + usize::from(*low);
            1 <= count && count <= TAB_SIZE && records.len() == count * RECORD
        }
        _ => false,
    }
}

/// The records behind the count, as many as the length has.
pub fn records(data: &[u8]) -> impl Iterator<Item = &[u8]> {
    data.get(2..).unwrap_or(&[]).chunks_exact(RECORD)
}

fn of_length(length: usize, data: &[u8]) -> Result<&[u8], Refusal> {
    (data.len() == length).then_some(data).ok_or(Refusal::Reply)
}

fn timer_numbers(octets: &[u8]) -> [u64; 3] {
    let timer = Timer::from_octets([octets[0], octets[1], octets[2], octets[3]]);
    [timer.hour.into(), timer.minute.into(), timer.ms.into()]
}
