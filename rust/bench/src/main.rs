//! Times of the calls, side by side: the proved library, the second program on the same store octets with the same soundness
//! test, and the second program's plain model in memory. A time is the least of many batches, in nanoseconds a call.

mod checksum;
mod sides;
mod stores;

use depot::{raw, REPLY_SIZE};
use second::frame::{seal, Kind};
use second::gen::Gen;
use second::listing::{event, Event};
use second::model::Depot;
use second::{place, store::load};
use std::hint::black_box;
use std::time::Instant;
use stores::{alike, empty, full, read_out, UID};

const BATCHES: usize = 40;

/// Nanoseconds a call: the least of many batches, each on its own copy of what is worked on.
pub fn time<T: Clone>(start: &T, calls: usize, mut call: impl FnMut(&mut T, usize)) -> f64 {
    let batch = |_| {
        let mut value = start.clone();
        let begin = Instant::now();
        (0..calls).for_each(|index| call(&mut value, index));
        let spent = begin.elapsed().as_nanos() as f64 / calls as f64;
        black_box(&mut value);
        spent
    };
    (0..BATCHES).map(batch).fold(f64::INFINITY, f64::min)
}

pub fn row(name: &str, mine: f64, octets: f64, memory: f64) {
    print!("{name:34} {mine:9.0} {octets:9.0} {:6.2}", mine / octets);
    if memory.is_nan() {
        println!();
    } else {
        println!(" {memory:9.0} {:6.2}", mine / memory);
    }
}

fn frame_row(name: &str, store: &[u8], control: u8, data: &[u8]) {
    let frame = seal(Kind::Advanced, 0, control, data);
    let model = load(store).expect("sound");
    let mut out = [0; REPLY_SIZE];
    let mine = time(&store.to_vec(), 200, |s, _| _ = black_box(raw::frame(s, &frame, &mut out)));
    let octets = time(&store.to_vec(), 200, |s, _| _ = black_box(place::frame(s, &frame, &mut out)));
    let memory = time(&model, 200, |m, _| _ = black_box(m.frame(&frame)));
    row(name, mine, octets, memory);
}

fn sighting_row(name: &str, store: &[u8], first: u64, step: u64) {
    let model = load(store).expect("sound");
    let uid = |index: usize| first + step * index as u64;
    let mine = time(&store.to_vec(), 60, |s, i| _ = black_box(raw::sighting(s, 7, uid(i), 1)));
    let octets = time(&store.to_vec(), 60, |s, i| _ = black_box(place::sighting(s, 7, uid(i).to_be_bytes(), 1)));
    let memory = time(&model, 60, |m, i| _ = black_box(m.sighting(7, uid(i).to_be_bytes(), 1)));
    row(name, mine, octets, memory);
}

fn tick_row(name: &str, store: &[u8]) {
    let model = load(store).expect("sound");
    let mine = time(&store.to_vec(), 40, |s, _| _ = black_box(raw::tick(s)));
    let octets = time(&store.to_vec(), 40, |s, _| _ = black_box(place::tick(s)));
    let memory = time(&model, 40, |m, _| m.tick());
    row(name, mine, octets, memory);
}

/// A desk above 7 is refused right after the soundness test.
fn soundness_row(name: &str, store: &[u8]) {
    let mine = time(&store.to_vec(), 200, |s, _| _ = black_box(raw::sighting(s, 8, 0, 1)));
    let octets = time(&store.to_vec(), 200, |s, _| _ = black_box(place::sighting(s, 8, [0; 8], 1)));
    row(name, mine, octets, f64::NAN);
}

fn serve_mine(store: &mut [u8], event: &Event, out: &mut [u8]) -> u64 {
    match event {
        Event::Frame(octets) => raw::frame(store, octets, out),
        Event::Sighting { desk, uid, mask } => raw::sighting(store, u64::from(*desk), u64::from_be_bytes(*uid), u64::from(*mask)),
        Event::Tick => raw::tick(store),
        Event::NotRead => 0,
    }
}

fn serve_octets(store: &mut [u8], event: &Event, out: &mut [u8]) {
    match event {
        Event::Frame(octets) => _ = black_box(place::frame(store, octets, out)),
        Event::Sighting { desk, uid, mask } => _ = black_box(place::sighting(store, u64::from(*desk), *uid, *mask)),
        Event::Tick => _ = black_box(place::tick(store)),
        Event::NotRead => {}
    }
}

fn serve_memory(model: &mut Depot, event: &Event) {
    match event {
        Event::Frame(octets) => _ = black_box(model.frame(octets)),
        Event::Sighting { desk, uid, mask } => _ = black_box(model.sighting(u64::from(*desk), *uid, *mask)),
        Event::Tick => model.tick(),
        Event::NotRead => {}
    }
}

/// Random events from the fresh store, as the runs have them.
fn mix_row(name: &str, store: &[u8], seed: u64, skip: usize) {
    let mut gen = Gen::new(seed);
    let events: Vec<Event> = (0..skip + 4000).map(|_| event(&gen.next_line())).collect();
    let (before, events) = events.split_at(skip);
    let mut start = store.to_vec();
    let mut out = [0; REPLY_SIZE];
    before.iter().for_each(|event| _ = serve_mine(&mut start, event, &mut out));
    let model = load(&start).expect("sound");
    let mine = time(&start, events.len(), |s, i| _ = black_box(serve_mine(s, &events[i], &mut out)));
    let octets = time(&start, events.len(), |s, i| serve_octets(s, &events[i], &mut out));
    let memory = time(&model, events.len(), |m, i| serve_memory(m, &events[i]));
    row(name, mine, octets, memory);
}

fn main() {
    let (empty, full) = (empty(), full());
    println!("{:34} {:>9} {:>9} {:>6} {:>9} {:>6}", "ns a call", "library", "octets", "ratio", "memory", "ratio");
    for (state, store) in [("empty", &empty), ("full", &full)] {
        soundness_row(&format!("soundness test, {state}"), store);
        frame_row(&format!("0x86 send timer, {state}"), store, 0x86, &[]);
        frame_row(&format!("0x22 read 64 records, {state}"), store, 0x22, &[0, 64]);
        frame_row(&format!("0x32 remove, {state}"), store, 0x32, &[]);
        frame_row(&format!("0x63 reset, {state}"), store, 0x63, &[]);
        sighting_row(&format!("sighting of a locked tag, {state}"), store, UID, 0);
        sighting_row(&format!("sightings of new tags, {state}"), store, 1 << 40, 1);
        tick_row(&format!("tick, {state}"), store);
    }
    sighting_row("new tags where 64 locks stand", &read_out(), 1 << 40, 1);
    frame_row("0x22 read 64 records, worst UIDs", &alike(), 0x22, &[0, 64]);
    tick_row("tick, worst UIDs", &alike());
    mix_row("random events, from the start", &empty, 7, 0);
    mix_row("random events, after 200000", &empty, 7, 200_000);
    let fresh = time(&empty, 50, |s, _| _ = black_box(raw::fresh(s)));
    let fresh_octets = time(&empty, 50, |s, _| _ = black_box(place::fresh(s)));
    row("fresh", fresh, fresh_octets, f64::NAN);
    sides::rows();
    checksum::rows();
}
