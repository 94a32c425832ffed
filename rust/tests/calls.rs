//! Each call with each of its answers, over any numbers and octets. A refused call leaves every lent octet as it was, and a call
//! that writes leaves the octets behind what it wrote: the outputs are longer than they need to be, and filled with a guard.
use depot::numbers::{length, BLOCK_SIZE, DONE, IGNORED, LOST, RECORDED, RECORD_SIZE, TOLD, WRITTEN};
use depot::raw::{self, Asked};
use depot::{record, records, sound, Record, Refusal, Sizes, Store, Timer, DEFAULT_BLOCK_7, REPLY_SIZE, STORE_SIZE};

const GUARD: u8 = 0xA5;
const RESET: [u8; 5] = [0x05, 0x00, 0x64, 0xAC, 0x25];
const RESET_REPLY: [u8; 6] = [0x06, 0x00, 0x64, 0x00, 0x8E, 0x4A];
const UID: u64 = 0xE007_0000_0164_5E37;
const RECORD: [u8; RECORD_SIZE] = [0xE0, 0x07, 0, 0, 0x01, 0x64, 0x5E, 0x37, 0x01, 0x02, 0x03, 0xE8, 1];
const LINE: &[u8] = b"E007000001645E37,010203E8\r\n";

fn fresh() -> Vec<u8> {
    Store::fresh().octets().to_vec()
}

fn guard(n: usize) -> Vec<u8> {
    vec![GUARD; n]
}

fn refused(code: u64, wanted: Refusal) {
    assert_eq!(Refusal::of(code), Some(wanted), "code {code}");
    assert_eq!(code, wanted.number() as u64);
}

/// The octets that a call wrote at the start of a guarded output.
fn wrote(code: u64, out: &[u8]) -> &[u8] {
    let n = length(code).unwrap_or_else(|| panic!("code {code}"));
    assert!(out[n..].iter().all(|o| *o == GUARD), "the octets behind stay");
    &out[..n]
}

/// A call that must be refused, with store and output as before.
fn box_refuses(store: &[u8], out_len: usize, wanted: Refusal, call: impl Fn(&mut [u8], &mut [u8]) -> u64) {
    let (mut s, mut out) = (store.to_vec(), guard(out_len));
    refused(call(&mut s, &mut out), wanted);
    assert!(s == store, "the store stays");
    assert!(out == guard(out_len), "the output stays");
}

fn reset() -> Asked<'static> {
    Asked { kind: 0, desk: 0, control: 0x64, a: 0, b: 0, c: 0, bytes: &[] }
}

// ---- the box

#[test]
fn fresh_is_of_any_octets() {
    let mut s = guard(STORE_SIZE);
    assert_eq!(raw::fresh(&mut s), DONE);
    assert_eq!(s, fresh());
}

#[test]
fn fresh_refuses_another_size() {
    for n in [0, 1, STORE_SIZE - 1, STORE_SIZE + 1] {
        box_refuses(&guard(n), 0, Refusal::Unsound, |s, _| raw::fresh(s));
    }
}

#[test]
fn test_tells_a_sound_store() {
    let mut s = fresh();
    assert_eq!(raw::test(&s), DONE);
    assert_eq!(raw::sighting(&mut s, 7, UID, 255), RECORDED);
    assert_eq!((raw::test(&s), sound(&s)), (DONE, Ok(())));
    let longer = [&s[..], &[0]].concat();
    let mut damaged = s.clone();
    damaged[0] = 0xFF;
    for s in [&[][..], &guard(STORE_SIZE), &s[1..], &s[..STORE_SIZE - 1], &longer, &damaged] {
        refused(raw::test(s), Refusal::Unsound);
        assert_eq!((sound(s), Store::over(s.to_vec()).err()), (Err(Refusal::Unsound), Some(Refusal::Unsound)));
    }
}

#[test]
fn frame_is_answered() {
    let (mut s, mut out) = (fresh(), guard(REPLY_SIZE + 8));
    let code = raw::frame(&mut s, &RESET, &mut out);
    assert_eq!(wrote(code, &out), RESET_REPLY);
    assert_eq!(s, fresh());
}

#[test]
fn frame_refuses() {
    let s = fresh();
    box_refuses(&guard(STORE_SIZE), REPLY_SIZE, Refusal::Unsound, |s, out| raw::frame(s, &RESET, out));
    box_refuses(&s[1..], REPLY_SIZE, Refusal::Unsound, |s, out| raw::frame(s, &RESET, out));
    box_refuses(&s, REPLY_SIZE - 1, Refusal::SmallBuffer, |s, out| raw::frame(s, &RESET, out));
    box_refuses(&s, REPLY_SIZE, Refusal::NoOctets, |s, out| raw::frame(s, &[], out));
    box_refuses(&s, REPLY_SIZE, Refusal::TooShort, |s, out| raw::frame(s, &RESET[..4], out));
    box_refuses(&s, REPLY_SIZE, Refusal::TooLong, |s, out| raw::frame(s, &[5; 256], out));
    box_refuses(&s, REPLY_SIZE, Refusal::LengthDiffers, |s, out| raw::frame(s, &[6, 0, 0x64, 0xAC, 0x25], out));
    box_refuses(&s, REPLY_SIZE, Refusal::WrongCheck, |s, out| raw::frame(s, &[5, 0, 0x64, 0, 0], out));
    // A reset of desk 8, with the one check that is right: the maker would not make it.
    let checked = |n: u16| [5, 8, 0x64, n as u8, (n >> 8) as u8];
    let right = (0..=0xFFFF).find(|n| raw::frame(&mut s.clone(), &checked(*n), &mut guard(REPLY_SIZE)) != 4);
    let f = checked(right.expect("a check that is right"));
    box_refuses(&s, REPLY_SIZE, Refusal::NoDesk, |s, out| raw::frame(s, &f, out));
}

#[test]
fn sighting_is_recorded_ignored_lost() {
    let mut s = fresh();
    assert_eq!(raw::sighting(&mut s, 7, UID, 255), RECORDED);
    assert_eq!(raw::sighting(&mut s, 7, UID, 255), IGNORED + 55);
    for i in 1..64 {
        assert_eq!(raw::sighting(&mut s, 7, i, 1), RECORDED);
    }
    assert_eq!(raw::sighting(&mut s, 7, 64, 1), LOST);
    assert_eq!(raw::sighting(&mut s, 6, 64, 1), RECORDED);
}

#[test]
fn sighting_refuses() {
    let s = fresh();
    box_refuses(&guard(STORE_SIZE), 0, Refusal::Unsound, |s, _| raw::sighting(s, 8, UID, 0));
    box_refuses(&s, 0, Refusal::NoDesk, |s, _| raw::sighting(s, 8, UID, 0));
    box_refuses(&s, 0, Refusal::NoDesk, |s, _| raw::sighting(s, u64::MAX, UID, 1));
    for mask in [0, 256, 257, u64::MAX] {
        box_refuses(&s, 0, Refusal::OutOfRange, |s, _| raw::sighting(s, 7, UID, mask));
    }
}

#[test]
fn tick_ends_a_lock() {
    let mut s = fresh();
    assert_eq!(raw::sighting(&mut s, 0, UID, 1), RECORDED);
    for left in (1..=55).rev() {
        let before = s.clone();
        assert_eq!(raw::sighting(&mut s, 0, UID, 1), IGNORED + left);
        assert_eq!(s, before);
        assert_eq!(raw::tick(&mut s), DONE);
    }
    assert_eq!(raw::sighting(&mut s, 0, UID, 1), RECORDED);
    box_refuses(&guard(STORE_SIZE), 0, Refusal::Unsound, |s, _| raw::tick(s));
}

// ---- the host side

fn made(q: Asked) -> Vec<u8> {
    let mut out = guard(REPLY_SIZE);
    let code = raw::make(q, &mut out);
    wrote(code, &out).to_vec()
}

fn make_refuses(q: Asked, room: usize, wanted: Refusal) {
    box_refuses(&[], room, wanted, |_, out| raw::make(q, out));
}

#[test]
fn make_makes_each_command() {
    let q = reset();
    assert_eq!(made(q), RESET);
    assert_eq!(made(Asked { kind: 1, ..q }), [0x02, 0x00, 0x07, 0x00, 0x64, 0x27, 0x8F]);
    for (control, size) in [(0x52, 1), (0x63, 0), (0x86, 0), (0xA0, 4), (0x31, 0), (0x32, 0), (0x33, 0)] {
        let f = made(Asked { control, ..q });
        assert_eq!((f.len(), u64::from(f[2])), (5 + size, control));
    }
    for control in [0x80, 0x82, 0x83, 0x22] {
        assert_eq!(u64::from(made(Asked { control, a: 5, ..q })[2]), control);
    }
    assert_eq!(made(Asked { control: 0x85, a: 23, b: 59, c: 59999, ..q })[3..7], [23, 59, 0xEA, 0x5F]);
    let bytes = b"fourteen bytes";
    assert_eq!(made(Asked { control: 0x81, a: 0x83, bytes, ..q })[3..18], [&[0x83][..], bytes].concat());
}

#[test]
fn make_refuses_in_rising_number() {
    let q = reset();
    let none = Asked { kind: 2, control: 0, desk: 8, ..q };
    make_refuses(none, 0, Refusal::NoDesk);
    make_refuses(Asked { desk: 7, ..none }, 0, Refusal::OutOfRange);
    make_refuses(Asked { kind: 2, ..q }, REPLY_SIZE, Refusal::OutOfRange);
    make_refuses(Asked { kind: 256, ..q }, REPLY_SIZE, Refusal::OutOfRange);
    let known = [0x52, 0x63, 0x64, 0x80, 0x81, 0x82, 0x83, 0x85, 0x86, 0xA0, 0x22, 0x31, 0x32, 0x33];
    // A number above 255 is no control byte, whatever its last octet is.
    let above = known.map(|c| c + 256).into_iter().chain([256, u64::MAX]);
    for control in (0..=255).filter(|c| !known.contains(c)).chain(above) {
        make_refuses(Asked { control, ..q }, REPLY_SIZE, Refusal::OutOfRange);
    }
    for bytes in [&[][..], &[0; BLOCK_SIZE - 1], &[0; BLOCK_SIZE + 1]] {
        make_refuses(Asked { control: 0x81, a: 3, bytes, ..q }, REPLY_SIZE, Refusal::OutOfRange);
    }
    make_refuses(Asked { control: 0x81, a: 7, bytes: &[1; BLOCK_SIZE], ..q }, REPLY_SIZE, Refusal::OutOfRange);
    make_refuses(Asked { control: 0x52, a: 1, ..q }, REPLY_SIZE, Refusal::OutOfRange);
    make_refuses(Asked { control: 0x85, a: 59, b: 23, ..q }, REPLY_SIZE, Refusal::OutOfRange);
    make_refuses(Asked { control: 0xA0, a: 1 << 32, ..q }, REPLY_SIZE, Refusal::OutOfRange);
    make_refuses(q, 4, Refusal::NoRoom);
    assert_eq!(raw::make(q, &mut guard(5)), WRITTEN + 5);
}

#[test]
fn read_tells_status_and_data() {
    assert_eq!(raw::read(reset(), &RESET_REPLY), TOLD + (4 << 16));
    let q = Asked { kind: 1, desk: 2, control: 0x31, ..reset() };
    let mut out = guard(REPLY_SIZE);
    let code = raw::frame(&mut fresh(), &made(q), &mut out);
    let code = raw::read(q, wrote(code, &out));
    assert_eq!(code, TOLD + (6 << 16) + 6);
    assert_eq!(out[6..12], [0, 64, 0, 0, 0, 0]);
    let q = Asked { control: 0x80, a: 3, ..q };
    let mut out = guard(REPLY_SIZE);
    let code = raw::frame(&mut fresh(), &made(q), &mut out);
    assert_eq!(raw::read(q, wrote(code, &out)), TOLD + (0x13 << 24) + (6 << 16));
}

/// Document 02 (ix): the request is made, the box turns it down and changes nothing, and the reader takes 0x13 and 0x16 for it.
#[test]
fn no_password_into_ram() {
    let write = |a| Asked { control: 0x81, a, bytes: &[0x12; BLOCK_SIZE], ..reset() };
    let login = |a| Asked { control: 0xA0, a, ..reset() };
    let mut s = fresh();
    let mut told = |q: Asked| {
        let (before, mut out) = (s.clone(), guard(REPLY_SIZE));
        let code = raw::frame(&mut s, &made(q), &mut out);
        let code = raw::read(q, wrote(code, &out));
        ((code - TOLD - (4 << 16)) >> 24, s == before)
    };
    assert_eq!(told(write(0)), (0x13, true));
    assert_eq!(told(login(0)), (0x00, false));
    assert_eq!(told(write(0)), (0x16, true));
    assert_eq!(told(write(0x80)), (0x00, false));
    assert_eq!(told(login(0)), (0x14, false));
    assert_eq!(told(login(0x1212_1212)), (0x00, false));
    make_refuses(write(0x40), REPLY_SIZE, Refusal::OutOfRange);
    let done = [0x06, 0x00, 0x81, 0x00, 0xAF, 0xDD];
    refused(raw::read(write(0), &done), Refusal::NotTheReply);
    assert_eq!(raw::read(write(0x80), &done), TOLD + (4 << 16));
}

#[test]
fn read_refuses_in_order() {
    let q = reset();
    let none = Asked { kind: 2, control: 0, desk: 8, ..q };
    for q in [q, none] {
        refused(raw::read(q, &[]), Refusal::NoOctets);
        refused(raw::read(q, &RESET), Refusal::TooShort);
        refused(raw::read(q, &[6; 256]), Refusal::TooLong);
        refused(raw::read(q, &[7, 0, 0x64, 0, 0, 0]), Refusal::LengthDiffers);
        refused(raw::read(q, &[6, 0, 0x64, 0, 0, 0]), Refusal::WrongCheck);
    }
    let others = [none, Asked { kind: 1, ..q }, Asked { kind: 2, ..q }, Asked { desk: 1, ..q }, Asked { control: 0x63, ..q }, Asked { control: 0x81, ..q }, Asked { control: 0x164, ..q }];
    for q in others {
        refused(raw::read(q, &RESET_REPLY), Refusal::NotTheReply);
    }
}

// ---- what the data of a reply say

/// A call over an output of `room` numbers: what it answers, and what it left.
fn put(room: usize, call: impl Fn(&mut [u64]) -> u64) -> (u64, Vec<u64>) {
    let mut out = vec![u64::MAX; room];
    (call(&mut out), out)
}

fn puts(room: usize, wanted: &[u64], call: impl Fn(&mut [u64]) -> u64) {
    let behind = vec![u64::MAX; room - wanted.len()];
    assert_eq!(put(room, call), (WRITTEN + wanted.len() as u64, [wanted, &behind].concat()));
}

fn put_refuses(room: usize, wanted: Refusal, call: impl Fn(&mut [u64]) -> u64) {
    assert_eq!(put(room, call), (u64::from(wanted.number()), vec![u64::MAX; room]));
}

/// The data of a reply with so many records.
fn data(count: usize) -> Vec<u8> {
    [&[0, count as u8][..], &RECORD.repeat(count)].concat()
}

#[test]
fn block_is_told() {
    let sent = *b"fourteen bytes";
    let mut out = guard(BLOCK_SIZE + 1);
    let code = raw::block(&sent, &mut out);
    assert_eq!(wrote(code, &out), sent);
    assert_eq!(raw::block(&sent, &mut guard(BLOCK_SIZE)), WRITTEN + BLOCK_SIZE as u64);
    assert_eq!(depot::block(&sent), Ok(sent));
    let refuses = |sent: &[u8], room, wanted| box_refuses(&[], room, wanted, |_, out| raw::block(sent, out));
    refuses(&sent[1..], BLOCK_SIZE - 1, Refusal::NoRoom);
    refuses(&sent, 0, Refusal::NoRoom);
    for sent in [&[][..], &sent[1..], &[0; BLOCK_SIZE + 1]] {
        refuses(sent, BLOCK_SIZE, Refusal::NotTheReply);
        assert_eq!(depot::block(sent), Err(Refusal::NotTheReply));
    }
}

#[test]
fn timer_and_sizes_are_told() {
    let (timer, sizes) = ([23, 59, 0xEA, 0x5F], [0, 64, 1, 2, 0xFF, 0xFE]);
    for room in [3, 4] {
        puts(room, &[23, 59, 59999], |out| raw::timer(&timer, out));
        puts(room, &[64, 258, 65534], |out| raw::sizes(&sizes, out));
    }
    assert_eq!(depot::sizes(&sizes), Ok(Sizes { size: 64, start: 258, len: 65534 }));
    for sent in [&[][..], &timer[1..], &[0; 5], &sizes[1..], &[0; 7]] {
        put_refuses(2, Refusal::NoRoom, |out| raw::timer(sent, out));
        put_refuses(2, Refusal::NoRoom, |out| raw::sizes(sent, out));
        put_refuses(3, Refusal::NotTheReply, |out| raw::timer(sent, out));
        put_refuses(3, Refusal::NotTheReply, |out| raw::sizes(sent, out));
        assert_eq!((depot::timer(sent), depot::sizes(sent)), (Err(Refusal::NotTheReply), Err(Refusal::NotTheReply)));
    }
}

#[test]
fn record_is_told() {
    let fields = [UID, 1, 2, 1000, 1];
    let whole = Record { uid: UID, timer: Timer { hour: 1, minute: 2, milliseconds: 1000 }, mask: 1 };
    assert_eq!(whole.octets(), RECORD);
    for count in [1, 2, 64] {
        let sent = data(count);
        puts(5, &fields, |out| raw::record(&sent, count - 1, out));
        puts(9, &fields, |out| raw::record(&sent, 0, out));
        assert_eq!(records(&sent).unwrap().collect::<Vec<_>>(), vec![whole; count]);
        assert_eq!(record(&sent, count), Err(Refusal::OutOfRange));
    }
    assert_eq!(records(&[]).unwrap().next(), None);
    // Every octet of a record has its place.
    let octets: [u8; RECORD_SIZE] = std::array::from_fn(|at| 0xF0 + at as u8);
    assert_eq!(record(&[&[0, 1][..], &octets].concat(), 0).unwrap().octets(), octets);
}

#[test]
fn record_refuses_in_rising_number() {
    for i in [2, 3, usize::MAX] {
        put_refuses(0, Refusal::OutOfRange, |out| raw::record(&data(2)[..27], i, out));
        put_refuses(5, Refusal::OutOfRange, |out| raw::record(&data(2), i, out));
    }
    put_refuses(4, Refusal::NoRoom, |out| raw::record(&data(2)[..27], 0, out));
    put_refuses(4, Refusal::NoRoom, |out| raw::record(&data(2), 1, out));
    let of = |count: [u8; 2], records: usize| [&count[..], &RECORD.repeat(records)].concat();
    let none = [of([0, 0], 1), of([0, 2], 1), of([0, 1], 2), of([1, 1], 1), of([0, 65], 65), data(2)[..27].to_vec(), [data(2), vec![0]].concat()];
    for sent in none {
        put_refuses(5, Refusal::NotTheReply, |out| raw::record(&sent, 0, out));
        assert_eq!(records(&sent).err(), Some(Refusal::NotTheReply));
        box_refuses(&[], 3000, Refusal::OutOfRange, |_, out| raw::lines(&DEFAULT_BLOCK_7, &sent, out));
    }
    for sent in [&[][..], &[0], &[0, 0], &[0, 1], &data(1)[..14]] {
        put_refuses(5, Refusal::OutOfRange, |out| raw::record(sent, 0, out));
        assert_eq!(records(sent).err(), (!sent.is_empty()).then_some(Refusal::NotTheReply));
    }
}

// ---- scan lines

#[test]
fn line_is_written() {
    let mut out = guard(40);
    let code = raw::line(&DEFAULT_BLOCK_7, &RECORD, &mut out);
    assert_eq!(wrote(code, &out), LINE);
    let oldest = record(&data(1), 0).unwrap();
    assert_eq!(depot::line(&DEFAULT_BLOCK_7, &oldest, &mut guard(40)), Ok(LINE));
}

#[test]
fn tab_is_that_of_ascii() {
    let written = |between: [u8; 2], end: [u8; 2]| {
        let mut block = DEFAULT_BLOCK_7;
        (block[1], block[2], block[3], block[4]) = (between[0], between[1], end[0], end[1]);
        let mut out = guard(40);
        let code = raw::line(&block, &RECORD, &mut out);
        wrote(code, &out).to_vec()
    };
    assert_eq!(written([0x08, 0], [0x02, 0]), b"E007000001645E37\t010203E8\n");
    assert_eq!(written([0x20, 0], [0x08, 0]), b"E007000001645E37,010203E8\t");
    // The user's octets stay, 0x07 among them.
    assert_eq!(written([0x80, 0x07], [0x80, 0x07]), b"E007000001645E37\x07010203E8\x07");
}

#[test]
fn line_refuses() {
    let refuses = |block: &[u8], record: &[u8], room, wanted| box_refuses(&[], room, wanted, |_, out| raw::line(block, record, out));
    refuses(&DEFAULT_BLOCK_7[..BLOCK_SIZE - 1], &RECORD, 40, Refusal::OutOfRange);
    refuses(&[DEFAULT_BLOCK_7, DEFAULT_BLOCK_7].concat(), &RECORD, 40, Refusal::OutOfRange);
    refuses(&DEFAULT_BLOCK_7, &RECORD[1..], 40, Refusal::OutOfRange);
    refuses(&DEFAULT_BLOCK_7, &[], 0, Refusal::OutOfRange);
    refuses(&[1; BLOCK_SIZE], &RECORD, 0, Refusal::OutOfRange);
    refuses(&DEFAULT_BLOCK_7, &RECORD, LINE.len() - 1, Refusal::NoRoom);
}

#[test]
fn lines_are_written_all_or_none() {
    let sent = data(2);
    let mut out = guard(80);
    let code = raw::lines(&DEFAULT_BLOCK_7, &sent, &mut out);
    assert_eq!(wrote(code, &out), [LINE, LINE].concat());
    assert_eq!(raw::lines(&DEFAULT_BLOCK_7, &[], &mut []), WRITTEN);
    let refuses = |block: &[u8], room, wanted| box_refuses(&[], room, wanted, |_, out| raw::lines(block, &sent, out));
    refuses(&DEFAULT_BLOCK_7[1..], 80, Refusal::OutOfRange);
    refuses(&[1; BLOCK_SIZE], 80, Refusal::OutOfRange);
    refuses(&DEFAULT_BLOCK_7, 2 * LINE.len() - 1, Refusal::NoRoom);
    for sent in [&[0][..], &[0, 0], &[0, 1], &sent[..sent.len() - 1]] {
        box_refuses(&[], 0, Refusal::OutOfRange, |_, out| raw::lines(&DEFAULT_BLOCK_7, sent, out));
    }
}
