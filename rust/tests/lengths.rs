//! Document 02 (i), through the wrapper: box and reader tell which length is wrong.
use depot::Refusal::{LengthDiffers, NoOctets, TooLong, TooShort, WrongCheck};
use depot::{Ask, Desk, Kind, Refusal, Request, Store, REPLY_SIZE};

const LONGEST: usize = REPLY_SIZE;

/// What box and reader say of these octets; nothing where neither speaks of a length.
fn told(octets: &[u8]) -> [Option<Refusal>; 2] {
    let (mut store, mut out) = (Store::fresh(), [0; REPLY_SIZE]);
    let request = Request { kind: Kind::Standard, desk: Desk::ALL[0], ask: Ask::SystemReset };
    let of_length = |why: &Refusal| [NoOctets, TooShort, TooLong, LengthDiffers].contains(why);
    [store.frame(octets, &mut out).err(), request.read(octets).err()].map(|why| why.filter(of_length))
}

/// n octets that begin with these.
fn octets(n: usize, head: &[u8]) -> Vec<u8> {
    let mut octets = vec![0xA5; n];
    octets.iter_mut().zip(head).for_each(|(octet, head)| *octet = *head);
    octets
}

fn of(n: usize, head: &[u8], to_box: impl Into<Option<Refusal>>, to_reader: impl Into<Option<Refusal>>) {
    assert_eq!(told(&octets(n, head)), [to_box.into(), to_reader.into()], "{n} octets from {head:?}");
}

/// A first octet of 2, and then ALENGTH.
fn advanced(said: usize) -> [u8; 3] {
    [2, (said >> 8) as u8, said as u8]
}

#[test]
fn no_octets() {
    of(0, &[], NoOctets, NoOctets);
}

#[test]
fn a_first_octet_of_2() {
    of(1, &[2], TooShort, TooShort);
    of(2, &[2, 0], TooShort, TooShort);
    for n in 3..7 {
        of(n, &advanced(n), TooShort, TooShort);
    }
    of(7, &advanced(7), None, TooShort);
    of(7, &advanced(8), LengthDiffers, TooShort);
    for n in [8, 255, 256, LONGEST] {
        of(n, &advanced(n), None, None);
        for said in [n - 1, n + 1, n ^ 256, 6, 0] {
            of(n, &advanced(said), LengthDiffers, LengthDiffers);
        }
    }
    of(LONGEST + 1, &advanced(LONGEST + 1), TooLong, TooLong);
    of(LONGEST + 1, &advanced(7), TooLong, TooLong);
    of(65536 + 7, &advanced(7), TooLong, TooLong);
}

#[test]
fn any_other_first_octet() {
    for first in (0..=255).filter(|&first| first != 2) {
        for n in 1..5 {
            of(n, &[first], TooShort, TooShort);
        }
        let differs = |n: usize| (n != usize::from(first)).then_some(LengthDiffers);
        of(5, &[first], differs(5), TooShort);
        for n in [6, 7, 8, 254, 255] {
            of(n, &[first], differs(n), differs(n));
        }
        for n in [256, 256 + usize::from(first), LONGEST, LONGEST + 1] {
            of(n, &[first], TooLong, TooLong);
        }
    }
}

/// The octets above have a wrong CRC too, which shows only where the length is right.
#[test]
fn a_right_length_leaves_the_crc() {
    let (mut store, mut out) = (Store::fresh(), [0; REPLY_SIZE]);
    assert_eq!(store.frame(&octets(5, &[5]), &mut out), Err(WrongCheck));
}

#[test]
fn each_is_told_by_its_number() {
    for (why, told) in [(NoOctets, "refused 3: "), (TooShort, "refused 31: "), (TooLong, "refused 32: "), (LengthDiffers, "refused 33: ")] {
        assert!(why.to_string().starts_with(told));
    }
}
