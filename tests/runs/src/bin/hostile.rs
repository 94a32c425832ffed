//! `hostile SEED COUNT`: COUNT random calls of the library on sound and damaged stores, with any frames, numbers and buffers.
//! The second program decides what each must answer and leave; it ends with status 101 at the first difference, and with 1 where
//! an outcome was met too seldom (`floors`).

use runs::asked::{self, Asked};
use runs::calls::*;
use runs::floors::{answers, floors};
use runs::guarded::Guarded;
use runs::numbers;
use second::blocks::{block7_legal, BLOCK_BYTES};
use second::data;
use second::frame::Kind;
use second::gen::Gen;
use second::host::Request;
use second::lengths;
use second::model::{DESKS, RECORD};
use second::place::{self, REPLY_BUFFER};
use second::random::Random;
use second::sides::{any_data, any_desk, any_octet, any_place, any_records, any_reply, any_request, any_shape, interesting, lock_twice, zeros};
use second::store::{load, SIZE};
use second::tally::Tally;
use std::hint::black_box;

/// A store and the generator of all that happens to it, which so knows the passwords and what each desk holds.
struct History {
    gen: Gen,
    store: Vec<u8>,
}

impl History {
    fn new(seed: u64) -> History {
        let mut store = vec![0; SIZE];
        place::fresh(&mut store).expect("the size is right");
        History { gen: Gen::new(seed), store }
    }

    /// Where a story ends the generator's box is what the store says: only so do its logins succeed.
    fn in_step(&self) {
        if self.gen.told() {
            let depot = load(&self.store).expect("a store left by events is sound");
            let known = (0..DESKS).all(|desk| depot.desks[desk] == *self.gen.desk(desk));
            assert!(known, "the generator does not know its store");
        }
    }
}

struct Hostile {
    /// For what no history asks: which call, which numbers, which buffers.
    gen: Gen,
    long: History,
    tried: History,
    tally: Tally,
}

impl Hostile {
    fn new(seed: u64, count: u64) -> Hostile {
        let gen = Gen::new(seed);
        let (long, tried) = (History::new(gen.random.next()), History::new(gen.random.next()));
        Hostile { gen, long, tried, tally: Tally::new(floors(count)) }
    }

    fn turn(&mut self) {
        match self.gen.random.below(18) {
            0..5 => self.history(),
            5..9 => self.any_store(),
            9 => self.wide_sighting(),
            10 => self.fresh(),
            11 | 12 => self.maker(),
            13 | 14 => self.reader(),
            15 => self.line_writer(),
            16 => self.test(),
            _ => self.teller(),
        }
    }

    /// The next event of a long history, in the library's own store.
    fn history(&mut self) {
        let call = next_call(&mut self.long.gen);
        let room = self.gen.random.pick(&[REPLY_BUFFER, REPLY_BUFFER, REPLY_BUFFER + 1, 1000]);
        let (code, store, out) = self.compared(&self.long.store, &call, room);
        self.long.store = store;
        self.long.in_step();
        let what = match &call {
            Call::Frame(octets) if !is_refusal(code) => answered(octets, &out),
            _ => outcome(code),
        };
        self.tally.count(&format!("history: {what}"));
    }

    /// Any event on a store that is damaged, of another size, or of noise; then the store itself goes on, undamaged.
    fn any_store(&mut self) {
        let call = next_call(&mut self.tried.gen);
        let random = &self.gen.random;
        let store = damaged(random, &self.tried.store);
        let room = random.pick(&[0, REPLY_BUFFER - 1, REPLY_BUFFER, REPLY_BUFFER, REPLY_BUFFER, REPLY_BUFFER + 1, 1000]);
        let (code, _, out) = self.compared(&store, &call, room);
        self.tally.count(&match &call {
            Call::Frame(octets) if !is_refusal(code) => format!("frame: status {:#04X}", status(octets, &out)),
            Call::Frame(_) => format!("frame: {}", outcome(code)),
            Call::Sighting { .. } => format!("sighting: {}", outcome(code)),
            Call::Tick => format!("tick: {}", outcome(code)),
        });
        second_box(&mut self.tried.store, &call, &mut [0; REPLY_BUFFER]);
        self.tried.in_step();
    }

    /// A sighting in numbers that no line can say.
    fn wide_sighting(&mut self) {
        let random = &self.gen.random;
        let desk = random.pick(&[0, 1, 5, 7, 8, 255, 256, 263, 1 << 32, (1 << 32) + 1, u64::MAX]);
        let mask = random.pick(&[0, 1, 255, 256, 257, 0x1FF, 1 << 32, (1 << 32) + 1, u64::MAX]);
        let call = Call::Sighting { desk, uid: self.tried.gen.old_uid(), mask };
        let store = match random.below(4) {
            0 => damaged(random, &self.tried.store),
            _ => self.tried.store.clone(),
        };
        let (code, _, _) = self.compared(&store, &call, 0);
        let why = match code {
            5 if mask == 0 || mask > 255 => ", a mask of 0 or above 255 as well",
            5 if desk > 255 => ", above 255",
            6 if mask > 255 => ", above 255",
            _ => "",
        };
        self.tally.count(&format!("sighting: {}{why}", outcome(code)));
    }

    fn compared(&self, store: &[u8], call: &Call, room: usize) -> (u64, Vec<u8>, Vec<u8>) {
        let out = self.gen.random.octets(room);
        let (mut wanted_store, mut wanted_out) = (store.to_vec(), out.clone());
        let wanted = second_box(&mut wanted_store, call, &mut wanted_out);
        let (mut mine, mut mine_out) = (Guarded::new(store), Guarded::new(&out));
        let code = library(mine.inner(), call, mine_out.inner());
        let (mine, mine_out) = (mine.taken("store"), mine_out.taken("output"));
        assert_eq!(code, wanted, "{call:?}");
        assert!(mine_out == wanted_out, "{call:?}: the output differs");
        if is_refusal(code) {
            assert!(mine == store, "{call:?}: a refused call wrote to the store");
        } else {
            assert!(load(&mine) == load(&wanted_store), "{call:?}: the stores say different boxes");
        }
        (code, mine, mine_out)
    }

    fn fresh(&mut self) {
        let random = &self.gen.random;
        let noise = random.octets(random.pick(&[0, 1, SIZE - 1, SIZE, SIZE, SIZE + 1]));
        let mut wanted = noise.clone();
        let code = done_code(place::fresh(&mut wanted));
        let mut mine = Guarded::new(&noise);
        assert_eq!(depot::raw::fresh(mine.inner()), code, "fresh of {}", noise.len());
        assert!(mine.taken("store") == wanted, "the fresh stores differ");
        self.tally.count(&format!("fresh: {}", outcome(code)));
    }

    /// The test alone, of a store that a history left, or of a damaged one. It writes nothing.
    fn test(&mut self) {
        let random = &self.gen.random;
        let store = match random.below(3) {
            0 => self.long.store.clone(),
            _ => damaged(random, &self.tried.store),
        };
        let mut mine = Guarded::new(&store);
        let code = depot::raw::test(mine.inner());
        // the compiler may not take it for granted that a lent `&[u8]` is unchanged
        assert!(black_box(mine).taken("store") == store, "the test wrote to the store");
        assert_eq!(code, done_code(place::test(&store)), "test of {} octets", store.len());
        self.tally.count(&format!("test: {}", outcome(code)));
    }

    fn maker(&mut self) {
        let request = any_request(&mut self.gen);
        let random = &self.gen.random;
        let q = Asked::of(random, random.pick(&Kind::BOTH), any_desk(random), &request).beyond(random);
        let out = random.octets(random.below(40));
        let code = both(("make", &q), &out, |out| q.made(out), |out| depot::raw::make(q.raw(), out));
        self.tally.count(&format!("make: {}{}", outcome(code), remark(&q)));
    }

    fn reader(&mut self) {
        let request = any_request(&mut self.gen);
        let random = &self.gen.random;
        let (kind, desk) = (random.pick(&Kind::BOTH), any_desk(random));
        let reply = any_reply(random, kind, desk as u8, &request);
        let q = Asked::of(random, kind, desk, &request).beyond(random);
        let code = q.read(&reply);
        assert_eq!(depot::raw::read(q.raw(), &reply), code, "read {q:?} {reply:02X?}");
        self.tally.count(&format!("read: {}{}", outcome(code), remark(&q)));
        if let Some(cell) = lengths::cell(&reply, Kind::shortest_reply) {
            self.tally.count(&format!("read: {cell}"));
        }
    }

    fn line_writer(&mut self) {
        let block = any_shape(&mut self.gen).to_vec();
        let random = &self.gen.random;
        let block = resized(random, block);
        let room = random.pick(&[40, 120, 120, 2100]);
        let out = random.octets(random.pick(&[random.below(room), room]));
        let met = match random.one_in(2) {
            true => one_line(random, &block, &out),
            false => many_lines(random, &block, &out),
        };
        if met.ends_with(": written") {
            tabs(&block).for_each(|with| self.tally.count(&format!("{met}, {with}")));
        }
        self.tally.count(&met);
    }

    fn teller(&mut self) {
        let random = &self.gen.random;
        self.tally.count(&match random.below(8) {
            0 => block_told(random),
            1 => timer_told(random),
            2 => sizes_told(random),
            _ => record_told(random),
        });
    }
}

fn one_line(random: &Random, block: &[u8], out: &[u8]) -> String {
    let record = resized(random, random.octets(RECORD));
    let library = |out: &mut [u8]| depot::raw::line(block, &record, out);
    let code = both(("line", block, &record), out, |out| asked::line(block, &record, out), library);
    let why = match (block.len(), record.len()) {
        (BLOCK_BYTES, RECORD) => "",
        (BLOCK_BYTES, _) => ", a record of another length",
        _ => ", a block of another length",
    };
    format!("line: {}{why}", outcome(code))
}

/// What a written line shows of document 02 (iii).
fn tabs(block: &[u8]) -> impl Iterator<Item = &'static str> {
    let (between, end) = (&block[1..3], &block[3..5]);
    let shown = [
        (between[0] == 0x08, "TAB between"),
        (end[0] == 0x08, "TAB as end"),
        (between == [0x80, 0x07], "the user's 0x07 between"),
        (end == [0x80, 0x07], "the user's 0x07 as end"),
    ];
    shown.into_iter().filter_map(|(shown, name)| shown.then_some(name))
}

fn many_lines(random: &Random, block: &[u8], out: &[u8]) -> String {
    let sent = any_records(random);
    let library = |out: &mut [u8]| depot::raw::lines(block, &sent, out);
    let code = both(("lines", block, &sent), out, |out| asked::lines(block, &sent, out), library);
    let why = match <&[u8; BLOCK_BYTES]>::try_from(block) {
        Err(_) => ", a block of another length",
        Ok(block) if block7_legal(block) && !data::carried(&sent) => NO_REPLY,
        Ok(block) if block7_legal(block) && sent.is_empty() => ", no data",
        Ok(_) => "",
    };
    format!("lines: {}{why}", outcome(code))
}

fn block_told(random: &Random) -> String {
    let (sent, out) = (any_data(random, BLOCK_BYTES), random.octets(any_room(random, BLOCK_BYTES)));
    let library = |out: &mut [u8]| depot::raw::block(&sent, out);
    let code = both(("block", &sent), &out, |out| octets_code(data::block(&sent, out)), library);
    format!("block: {}", outcome(code))
}

fn timer_told(random: &Random) -> String {
    let (sent, out) = (any_data(random, 4), any_numbers(random, 3));
    let library = |out: &mut [u64]| depot::raw::timer(&sent, out);
    let code = both(("timer", &sent), &out, |out| octets_code(data::timer(&sent, out)), library);
    format!("timer: {}", outcome(code))
}

fn sizes_told(random: &Random) -> String {
    let (sent, out) = (any_data(random, 6), any_numbers(random, 3));
    let library = |out: &mut [u64]| depot::raw::sizes(&sent, out);
    let code = both(("sizes", &sent), &out, |out| octets_code(data::sizes(&sent, out)), library);
    format!("sizes: {}", outcome(code))
}

fn record_told(random: &Random) -> String {
    let (sent, i, out) = (any_records(random), any_place(random), any_numbers(random, 5));
    let library = |out: &mut [u64]| depot::raw::record(&sent, i, out);
    let code = both(("record", i, &sent), &out, |out| octets_code(data::record(&sent, i, out)), library);
    let why = if data::carried(&sent) { "" } else { NO_REPLY };
    format!("record: {}{why}", outcome(code))
}

const NO_REPLY: &str = ", data that no reply carries";

/// An output for so many, or for fewer or more.
fn any_room(random: &Random, fields: usize) -> usize {
    random.pick(&[0, fields - 1, fields, fields, fields + 1, 100])
}

fn any_numbers(random: &Random, fields: usize) -> Vec<u64> {
    (0..any_room(random, fields)).map(|_| random.next()).collect()
}

/// Now and then of another length; the octets that stay are the same.
fn resized(random: &Random, mut octets: Vec<u8>) -> Vec<u8> {
    if random.one_in(8) {
        let length = octets.len();
        octets.resize(random.pick(&[0, 1, length - 1, length + 1, 2 * length]), 0);
    }
    octets
}

fn damaged(random: &Random, sound: &[u8]) -> Vec<u8> {
    let mut store = match random.below(8) {
        0 => zeros(random),
        1 => random.octets(SIZE),
        _ => sound.to_vec(),
    };
    if load(&store).is_some() && random.one_in(8) {
        lock_twice(random, &mut store);
    }
    for _ in 0..random.pick(&[0, 0, 1, 2]) {
        let at = interesting(random, &store).min(SIZE - 1);
        store[at] = any_octet(random, store[at]);
    }
    let length = match random.below(12) {
        0 => random.pick(&[0, 1, 6, SIZE - 1, SIZE + 1]),
        _ => SIZE,
    };
    store.resize(length, 0);
    store
}

/// The status octet of the reply to a request.
fn status(request: &[u8], reply: &[u8]) -> u8 {
    reply[Kind::of(request[0]).head() + 2]
}

fn answered(request: &[u8], reply: &[u8]) -> String {
    answers(request[Kind::of(request[0]).head() + 1], status(request, reply))
}

/// Why numbers name no request.
/// Of what is no request, the reason; of a password into RAM, that it is one.
fn remark(q: &Asked) -> String {
    match q.request() {
        Err(why) => format!(", {why}"),
        Ok((_, Request::WriteBlock { adr: 0, .. })) => ", a password into RAM".into(),
        Ok(_) => String::new(),
    }
}

fn main() {
    let [seed, count] = numbers("hostile SEED COUNT");
    let mut hostile = Hostile::new(seed, count);
    (0..count).for_each(|_| hostile.turn());
    println!("{count} calls as the second program has them");
    std::process::exit(i32::from(!hostile.tally.print()));
}
