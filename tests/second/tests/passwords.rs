//! Document 02 (ix): no password into RAM.

use second::frame::{seal, Kind};
use second::model::Depot;

const PASSWORD: [u8; 14] = [1, 2, 3, 4, 5, 6, 7, 8, 9, 10, 11, 12, 13, 14];

fn status(depot: &mut Depot, control: u8, data: &[u8]) -> u8 {
    depot.frame(&seal(Kind::Standard, 0, control, data)).unwrap()[3]
}

fn write(depot: &mut Depot, adr: u8) -> u8 {
    status(depot, 0x81, &[&[adr], &PASSWORD[..]].concat())
}

fn logged_in() -> Depot {
    let mut depot = Depot::fresh();
    assert_eq!(status(&mut depot, 0xA0, &[0; 4]), 0x00);
    depot
}

#[test]
fn after_length_login_and_address() {
    let mut depot = Depot::fresh();
    assert_eq!(status(&mut depot, 0x81, &[0; 14]), 0x81);
    assert_eq!(status(&mut depot, 0x81, &[0; 16]), 0x81);
    assert_eq!(write(&mut depot, 0x00), 0x13);
    let mut depot = logged_in();
    assert_eq!(write(&mut depot, 0x40), 0x11);
    assert_eq!(write(&mut depot, 0x00), 0x16);
    assert_eq!(depot, logged_in());
}

#[test]
fn into_eeprom_it_goes_on() {
    let mut depot = logged_in();
    assert_eq!(write(&mut depot, 0x80), 0x00);
    assert_eq!(status(&mut depot, 0xA0, &[0; 4]), 0x14);
    assert_eq!(status(&mut depot, 0xA0, &PASSWORD[..4]), 0x00);
}

/// 0x82 goes on as before: of all blocks or of block 0 it puts RAM's password back, unless a reset brought the new one there.
#[test]
fn a_save_puts_the_old_one_back() {
    for (named, reset) in [(0x40, false), (0x00, false), (0x40, true), (0x00, true)] {
        let mut depot = logged_in();
        assert_eq!(write(&mut depot, 0x80), 0x00);
        if reset {
            assert_eq!(status(&mut depot, 0x63, &[]), 0x00);
            assert_eq!(status(&mut depot, 0xA0, &PASSWORD[..4]), 0x00);
        }
        assert_eq!(status(&mut depot, 0x82, &[named]), 0x00);
        let (now, before) = if reset { (0x00, 0x14) } else { (0x14, 0x00) };
        assert_eq!(status(&mut depot, 0xA0, &PASSWORD[..4]), now);
        assert_eq!(status(&mut depot, 0xA0, &[0; 4]), before);
    }
}
