//! Document 02 (vii): an ignored sighting carries the ticks that its lock has left.

use second::frame::{seal, Kind};
use second::listing::{event, serve, text};
use second::model::{Depot, Seen};

const UID: [u8; 8] = [0xE0, 0x07, 0x00, 0x00, 0x01, 0x64, 0x5E, 0x37];

fn ask(depot: &mut Depot, control: u8, data: &[u8]) {
    assert_eq!(depot.frame(&seal(Kind::Standard, 0, control, data)).unwrap()[3], 0x00);
}

/// A box whose desk 0 has this VALID-TIME in force, by 0x63.
fn with_valid_time(ticks: u16) -> Depot {
    let mut depot = Depot::fresh();
    let block = [&[0x8C][..], &ticks.to_be_bytes(), &[0; 12]].concat();
    ask(&mut depot, 0xA0, &[0; 4]);
    ask(&mut depot, 0x81, &block);
    ask(&mut depot, 0x63, &[]);
    depot
}

fn seen(depot: &mut Depot) -> Seen {
    depot.sighting(0, UID, 1).unwrap()
}

fn ticks(depot: &mut Depot, count: usize) {
    (0..count).for_each(|_| depot.tick());
}

#[test]
fn from_valid_time_to_1_and_then_recorded() {
    for valid in [1, 2, 55, 256, 65535] {
        let mut depot = with_valid_time(valid);
        assert_eq!(seen(&mut depot), Seen::Recorded);
        for left in (1..=valid).rev() {
            assert_eq!(seen(&mut depot), Seen::Ignored(left));
            ticks(&mut depot, 1);
        }
        assert_eq!(seen(&mut depot), Seen::Recorded);
        assert_eq!(seen(&mut depot), Seen::Ignored(valid));
    }
}

#[test]
fn an_ignored_sighting_changes_nothing() {
    let mut depot = with_valid_time(9);
    assert_eq!(seen(&mut depot), Seen::Recorded);
    ticks(&mut depot, 4);
    let before = depot.clone();
    assert_eq!((seen(&mut depot), seen(&mut depot)), (Seen::Ignored(5), Seen::Ignored(5)));
    assert_eq!(depot, before);
}

/// A write alone moves no lock; 0x63 empties the locks, and then the new VALID-TIME counts.
#[test]
fn a_new_valid_time_counts_from_0x63_on() {
    let mut depot = with_valid_time(9);
    assert_eq!(seen(&mut depot), Seen::Recorded);
    ask(&mut depot, 0xA0, &[0; 4]);
    ask(&mut depot, 0x81, &[&[0x8C, 0x12, 0x34][..], &[0; 12]].concat());
    ticks(&mut depot, 1);
    assert_eq!(seen(&mut depot), Seen::Ignored(8));
    ask(&mut depot, 0x63, &[]);
    assert_eq!((seen(&mut depot), seen(&mut depot)), (Seen::Recorded, Seen::Ignored(0x1234)));
}

#[test]
fn each_desk_tells_of_its_own_lock() {
    let mut depot = Depot::fresh();
    for desk in 0..8 {
        assert_eq!(depot.sighting(desk, UID, 1), Ok(Seen::Recorded));
        depot.tick();
    }
    for desk in 0..8 {
        assert_eq!(depot.sighting(desk, UID, 1), Ok(Seen::Ignored(47 + desk as u16)));
    }
}

/// Decimal, one space, no leading zeros.
#[test]
fn the_listing_prints_them() {
    for valid in [1, 9, 10, 99, 100, 999, 1000, 9999, 10000, 65535] {
        let mut depot = with_valid_time(valid);
        let line = event(b"s0e007000001645e3701");
        assert_eq!(text(&serve(&mut depot, &line)), "recorded");
        assert_eq!(text(&serve(&mut depot, &line)), format!("ignored {valid}"));
    }
}
