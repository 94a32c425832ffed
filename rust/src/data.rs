//! What the data of a reply say. Each is `NotTheReply` where no reply to that command carries such data.
use crate::answer::{written, Refusal};
use crate::numbers::{BLOCK_SIZE, RECORD_FIELDS, RECORD_SIZE, SIZES_FIELDS, TIMER_FIELDS};
use crate::raw;

/// The bytes of a configuration block.
pub type Block = [u8; BLOCK_SIZE];

/// A desk's clock.
#[derive(Clone, Copy, Debug, PartialEq, Eq, Hash)]
pub struct Timer {
    pub hour: u8,
    pub minute: u8,
    pub milliseconds: u16,
}

/// TAB-SIZE, TAB-START and TAB-LEN.
#[derive(Clone, Copy, Debug, PartialEq, Eq, Hash)]
pub struct Sizes {
    pub size: u16,
    pub start: u16,
    pub len: u16,
}

/// A sighting that was recorded.
#[derive(Clone, Copy, Debug, PartialEq, Eq, Hash)]
pub struct Record {
    pub uid: u64,
    pub timer: Timer,
    /// The antennas that saw the tag.
    pub mask: u8,
}

impl Record {
    /// The octets of a record, as [`raw::line()`] takes them.
    pub fn octets(&self) -> [u8; RECORD_SIZE] {
        let Timer { hour, minute, milliseconds } = self.timer;
        let parts = [&self.uid.to_be_bytes()[..], &[hour, minute], &milliseconds.to_be_bytes(), &[self.mask]];
        parts.concat().try_into().expect("UID 8, timer 4, antenna mask 1")
    }
}

/// What a call puts into an output that has just the room for it.
fn filled<T: Copy + Default, const N: usize>(call: impl FnOnce(&mut [T]) -> u64) -> Result<[T; N], Refusal> {
    let mut out = [T::default(); N];
    let code = call(&mut out);
    written(code, &out)?;
    Ok(out)
}

/// Each of the three comes from a field of just as many octets.
fn timer_of(hour: u64, minute: u64, milliseconds: u64) -> Timer {
    Timer { hour: hour as u8, minute: minute as u8, milliseconds: milliseconds as u16 }
}

/// The block in the data of a reply to `ReadBlock`.
pub fn block(data: &[u8]) -> Result<Block, Refusal> {
    filled::<_, BLOCK_SIZE>(|out| raw::block(data, out))
}

/// The timer in the data of a reply to `SendTimer`.
///
/// ```
/// use depot::{timer, Refusal, Timer};
/// assert_eq!(timer(&[23, 59, 0xEA, 0x5F]), Ok(Timer { hour: 23, minute: 59, milliseconds: 59999 }));
/// assert_eq!(timer(&[]), Err(Refusal::NotTheReply));
/// ```
pub fn timer(data: &[u8]) -> Result<Timer, Refusal> {
    let [hour, minute, milliseconds] = filled::<_, TIMER_FIELDS>(|out| raw::timer(data, out))?;
    Ok(timer_of(hour, minute, milliseconds))
}

/// The sizes in the data of a reply to `SendTable`.
pub fn sizes(data: &[u8]) -> Result<Sizes, Refusal> {
    let [size, start, len] = filled::<_, SIZES_FIELDS>(|out| raw::sizes(data, out))?;
    Ok(Sizes { size: size as u16, start: start as u16, len: len as u16 })
}

/// Record `i` in the data of a reply to `ReadRecords`; the oldest is record 0. Refused also: `OutOfRange`, beyond the last.
///
/// ```
/// use depot::{record, Refusal};
/// let data = [0, 1, 0xE0, 0x07, 0, 0, 0x01, 0x64, 0x5E, 0x37, 1, 2, 0x03, 0xE8, 5];
/// let oldest = record(&data, 0)?;
/// assert_eq!((oldest.uid, oldest.timer.milliseconds, oldest.mask), (0xE007_0000_0164_5E37, 1000, 5));
/// assert_eq!(record(&data, 1), Err(Refusal::OutOfRange));
/// # Ok::<(), Refusal>(())
/// ```
pub fn record(data: &[u8], i: usize) -> Result<Record, Refusal> {
    let [uid, hour, minute, milliseconds, mask] = filled::<_, RECORD_FIELDS>(|out| raw::record(data, i, out))?;
    Ok(Record { uid, timer: timer_of(hour, minute, milliseconds), mask: mask as u8 })
}

/// The records in the data of a reply to `ReadRecords`, the oldest first; of no data, none.
pub fn records(data: &[u8]) -> Result<impl Iterator<Item = Record> + '_, Refusal> {
    match record(data, 0) {
        Ok(_) => {}
        Err(Refusal::OutOfRange) if data.is_empty() => {}
        // No record 0, and yet there are data: no reply carries them.
        Err(_) => return Err(Refusal::NotTheReply),
    }
    Ok((0..).map_while(|i| record(data, i).ok()))
}
