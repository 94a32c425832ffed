//! The calls over slices: any numbers and any octets are fine, and the answer is a code.
//!
//! A slice has as many octets, or numbers, as it says, and the borrow checker keeps an output apart from all other buffers: that is all that
//! the library asks of its caller.
use crate::sys;

pub fn fresh(store: &mut [u8]) -> u64 {
    unsafe { sys::depot_fresh(store.as_mut_ptr(), store.len()) }
}

pub fn test(store: &[u8]) -> u64 {
    unsafe { sys::depot_test(store.as_ptr(), store.len()) }
}

pub fn frame(store: &mut [u8], frame: &[u8], out: &mut [u8]) -> u64 {
    unsafe { sys::depot_frame(store.as_mut_ptr(), store.len(), frame.as_ptr(), frame.len(), out.as_mut_ptr(), out.len()) }
}

pub fn sighting(store: &mut [u8], desk: u64, uid: u64, mask: u64) -> u64 {
    unsafe { sys::depot_sighting(store.as_mut_ptr(), store.len(), desk, uid, mask) }
}

pub fn tick(store: &mut [u8]) -> u64 {
    unsafe { sys::depot_tick(store.as_mut_ptr(), store.len()) }
}

/// What is asked of a desk, in numbers.
#[derive(Clone, Copy, Debug)]
pub struct Asked<'a> {
    /// 0 standard, 1 advanced.
    pub kind: u64,
    pub desk: u64,
    pub control: u64,
    pub a: u64,
    pub b: u64,
    pub c: u64,
    /// The block of a write.
    pub bytes: &'a [u8],
}

pub fn make(q: Asked, out: &mut [u8]) -> u64 {
    unsafe { sys::depot_make(q.kind, q.desk, q.control, q.a, q.b, q.c, q.bytes.as_ptr(), q.bytes.len(), out.as_mut_ptr(), out.len()) }
}

pub fn read(q: Asked, reply: &[u8]) -> u64 {
    unsafe { sys::depot_read(q.kind, q.desk, q.control, q.a, q.b, q.c, q.bytes.as_ptr(), q.bytes.len(), reply.as_ptr(), reply.len()) }
}

pub fn block(sent: &[u8], out: &mut [u8]) -> u64 {
    unsafe { sys::depot_block(sent.as_ptr(), sent.len(), out.as_mut_ptr(), out.len()) }
}

pub fn timer(sent: &[u8], out: &mut [u64]) -> u64 {
    unsafe { sys::depot_timer(sent.as_ptr(), sent.len(), out.as_mut_ptr(), out.len()) }
}

pub fn sizes(sent: &[u8], out: &mut [u64]) -> u64 {
    unsafe { sys::depot_sizes(sent.as_ptr(), sent.len(), out.as_mut_ptr(), out.len()) }
}

pub fn record(sent: &[u8], i: usize, out: &mut [u64]) -> u64 {
    unsafe { sys::depot_record(sent.as_ptr(), sent.len(), i, out.as_mut_ptr(), out.len()) }
}

pub fn line(block: &[u8], record: &[u8], out: &mut [u8]) -> u64 {
    unsafe { sys::depot_line(block.as_ptr(), block.len(), record.as_ptr(), record.len(), out.as_mut_ptr(), out.len()) }
}

pub fn lines(block: &[u8], sent: &[u8], out: &mut [u8]) -> u64 {
    unsafe { sys::depot_lines(block.as_ptr(), block.len(), sent.as_ptr(), sent.len(), out.as_mut_ptr(), out.len()) }
}
