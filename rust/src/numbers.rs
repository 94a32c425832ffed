//! The numbers of `include/depot.h`: sizes in octets and in numbers, and the ranges of the codes.

/// The octets of a store.
pub const STORE_SIZE: usize = 40960;

/// The octets of the longest frame, and so of the buffer for a reply.
pub const REPLY_SIZE: usize = 842;

/// The octets of a configuration block.
pub const BLOCK_SIZE: usize = 14;

/// The octets of a record: UID 8, timer 4, antenna mask 1.
pub const RECORD_SIZE: usize = 13;

/// The numbers of a timer: hour, minute, milliseconds.
pub const TIMER_FIELDS: usize = 3;

/// The numbers of the sizes: TAB-SIZE, TAB-START, TAB-LEN.
pub const SIZES_FIELDS: usize = 3;

/// The numbers of a record: UID, hour, minute, milliseconds, antenna mask.
pub const RECORD_FIELDS: usize = 5;

/// Desks 0 to 7.
pub const DESKS: u8 = 8;

/// Done, and there is nothing to say.
pub const DONE: u64 = 0;

/// A sighting was recorded.
pub const RECORDED: u64 = 64;

/// A sighting was lost.
pub const LOST: u64 = 65;

/// A sighting was ignored: this and the ticks that the lock has left, from 1 to VALID-TIME in force.
pub const IGNORED: u64 = 1 << 16;

/// What the reader found: this and status * 2^24 + start * 2^16 + len.
pub const TOLD: u64 = 1 << 32;

/// Octets, or numbers, stand at the start of the output: this and how many.
pub const WRITTEN: u64 = 1 << 63;

/// How many octets, or numbers, a code says were written.
pub fn length(code: u64) -> Option<usize> {
    (code & WRITTEN != 0).then_some((code & !WRITTEN) as usize)
}
