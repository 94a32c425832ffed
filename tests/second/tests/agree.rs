//! The box on octets and the box in memory give equal answers and stay equal.

use second::gen::Gen;
use second::listing::{event, serve, Answer, Event};
use second::model::Depot;
use second::place::{self, REPLY_BUFFER};
use second::store::{self, ENTRIES, ROWS, SIZE};

const FILL: u8 = 0xC7;

fn served(store: &mut [u8], event: &Event) -> Answer {
    match event {
        Event::Frame(octets) => framed(store, octets),
        Event::Sighting { desk, uid, mask } => {
            place::sighting(store, u64::from(*desk), *uid, *mask).map_or_else(Answer::Refused, Answer::Seen)
        }
        Event::Tick => place::tick(store).map_or_else(Answer::Refused, |()| Answer::Ok),
        Event::NotRead => Answer::NotRead,
    }
}

/// The octets behind a reply stay, and after a refusal all of them.
fn framed(store: &mut [u8], octets: &[u8]) -> Answer {
    let mut out = [FILL; REPLY_BUFFER];
    let answer = place::frame(store, octets, &mut out);
    let written = answer.unwrap_or(0);
    assert!(out[written..].iter().all(|&octet| octet == FILL));
    answer.map_or_else(Answer::Refused, |length| Answer::Reply(out[..length].to_vec()))
}

/// A fresh store whose areas lie elsewhere, with gaps that hold something.
fn moved(rows: usize, entries: usize) -> Vec<u8> {
    let mut fresh = vec![0; SIZE];
    place::fresh(&mut fresh).unwrap();
    let mut store = vec![FILL; SIZE];
    let header = [rows / 256, rows % 256, entries / 256, entries % 256, 0, 0];
    store[..6].copy_from_slice(&header.map(|n| n as u8));
    store[rows..rows + ROWS].copy_from_slice(&fresh[6..6 + ROWS]);
    store
}

fn agree(mut store: Vec<u8>, seed: u64, count: usize) {
    let mut depot = Depot::fresh();
    let mut gen = Gen::new(seed);
    for _ in 0..count {
        let event = event(&gen.next_line());
        let before = store.clone();
        let answer = served(&mut store, &event);
        assert_eq!(answer, serve(&mut depot, &event), "{event:?}");
        if let Answer::Refused(_) = answer {
            assert_eq!(store, before);
        }
        assert_eq!(store::load(&store).as_ref(), Some(&depot), "{event:?}");
    }
}

#[test]
fn on_a_fresh_store() {
    let mut store = vec![0x5A; SIZE];
    place::fresh(&mut store).unwrap();
    agree(store, 1, 12000);
}

#[test]
fn wherever_the_areas_lie() {
    agree(moved(6 + ENTRIES, 6), 2, 6000);
    agree(moved(SIZE - ROWS, 100), 3, 6000);
    agree(moved(200, SIZE - ENTRIES), 4, 6000);
}
