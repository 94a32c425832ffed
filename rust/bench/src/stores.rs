//! The stores that are measured on.

use depot::numbers::{length, DONE, RECORDED, REPLY_SIZE};
use depot::raw;
use second::frame::{seal, Kind};

/// A tag that is locked at every desk of the full store.
pub const UID: u64 = 0xE007_0000_0164_5E37;

pub fn empty() -> Vec<u8> {
    let mut store = vec![0; depot::STORE_SIZE];
    assert_eq!(raw::fresh(&mut store), DONE);
    store
}

/// 512 records and 512 locks, 64 of each at every desk, of tags whose numbers lie so far apart.
fn filled(step: u64) -> Vec<u8> {
    let mut store = empty();
    for desk in 0..8 {
        for index in 0..64 {
            assert_eq!(raw::sighting(&mut store, desk, UID - step * (63 - index), 1), RECORDED);
        }
    }
    store
}

/// Tags of one series, as they are bought. A new tag is lost.
pub fn full() -> Vec<u8> {
    filled(1)
}

/// Tags that share one bucket of the library's soundness test: the worst that a stranger can write.
pub fn alike() -> Vec<u8> {
    filled(251)
}

/// The full store after desk 7 sent its records and removed them: its 64 locks stand, so that each new tag is recorded and the
/// oldest lock gives way.
pub fn read_out() -> Vec<u8> {
    let mut store = full();
    let mut out = [0; REPLY_SIZE];
    for (control, data) in [(0x22, &[0, 64][..]), (0x32, &[])] {
        assert!(length(raw::frame(&mut store, &seal(Kind::Advanced, 7, control, data), &mut out)).is_some());
    }
    assert_eq!(raw::sighting(&mut store.clone(), 7, 1 << 40, 1), RECORDED);
    store
}
