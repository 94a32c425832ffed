//! Document 02 (vii), through the wrapper: how long a tag is held back.
use std::num::NonZeroU8;

use depot::{Ask, Block, Desk, Kind, Request, Seen, Store, EEPROM, REPLY_SIZE};

const UID: u64 = 0xE007_0000_0164_5E37;
const DESK: Desk = Desk::ALL[5];

type Owned = Store<Box<[u8]>>;

fn ask(store: &mut Owned, ask: Ask) {
    let (mut out, mut reply) = ([0; REPLY_SIZE], [0; REPLY_SIZE]);
    let request = Request { kind: Kind::Standard, desk: DESK, ask };
    let answer = store.frame(request.make(&mut out).unwrap(), &mut reply).unwrap();
    assert_eq!(request.read(answer).unwrap().status, 0x00);
}

/// VALID-TIME is bytes 0 and 1 of block 12.
fn write_valid_time(store: &mut Owned, ticks: u16) {
    let [high, low] = ticks.to_be_bytes();
    let block: Block = std::array::from_fn(|i| *[high, low].get(i).unwrap_or(&0));
    ask(store, Ask::Login(0));
    ask(store, Ask::WriteBlock(EEPROM | 12, block));
}

fn sight(store: &mut Owned) -> Seen {
    store.sighting(DESK, UID, NonZeroU8::MIN)
}

#[test]
fn from_valid_time_to_1_and_then_recorded() {
    for valid in [1, 2, 55, 256, 65535] {
        let mut store = Store::fresh();
        write_valid_time(&mut store, valid);
        ask(&mut store, Ask::Reset);
        assert_eq!(sight(&mut store), Seen::Recorded);
        for left in (1..=valid).rev() {
            assert_eq!(sight(&mut store), Seen::Ignored(left));
            store.tick();
        }
        assert_eq!(sight(&mut store), Seen::Recorded);
        assert_eq!(sight(&mut store), Seen::Ignored(valid));
    }
}

#[test]
fn a_new_valid_time_counts_from_the_reset_on() {
    let mut store = Store::fresh();
    assert_eq!(sight(&mut store), Seen::Recorded);
    write_valid_time(&mut store, 3);
    assert_eq!(sight(&mut store), Seen::Ignored(55));
    ask(&mut store, Ask::Reset);
    assert_eq!((sight(&mut store), sight(&mut store)), (Seen::Recorded, Seen::Ignored(3)));
}

#[test]
fn another_desk_tells_of_its_own_lock() {
    let mut store = Store::fresh();
    assert_eq!(sight(&mut store), Seen::Recorded);
    store.tick();
    assert_eq!(store.sighting(Desk::ALL[6], UID, NonZeroU8::MIN), Seen::Recorded);
    assert_eq!((sight(&mut store), store.sighting(Desk::ALL[6], UID, NonZeroU8::MIN)), (Seen::Ignored(54), Seen::Ignored(55)));
}
