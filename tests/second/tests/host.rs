//! Maker and reader, and the pairs of status and length that are possible.

use second::blocks::BLOCK_BYTES;
use second::command::answer;
use second::frame::{seal, Kind, Refusal};
use second::host::{make, possible, read, Request};
use second::model::{Desk, RECORD, TAB_SIZE};
use std::collections::BTreeSet;

type Pairs = BTreeSet<(u8, usize)>;

const PASSWORDS: [u32; 3] = [0, 1, u32::MAX];

/// Desks that between them give every answer: logged in or not, with any of
/// the passwords, with 0 to 64 records, with the mark or not.
fn desks() -> Vec<Desk> {
    let mut desks = Vec::new();
    for held in 0..=TAB_SIZE {
        let mut desk = Desk::fresh();
        desk.records = vec![[7; RECORD]; held];
        desk.logged_in = held % 2 == 1;
        desk.eeprom[0][..4].copy_from_slice(&PASSWORDS[held % 3].to_be_bytes());
        desks.push(desk.clone());
        desk.mark = held == TAB_SIZE;
        desks.push(desk);
    }
    desks
}

fn given(desks: &[Desk], kind: Kind, request: &Request) -> Pairs {
    let Some(data) = request.data() else {
        return Pairs::new();
    };
    let reply = |desk: &Desk| answer(&mut desk.clone(), kind, request.control(), &data);
    desks.iter().map(reply).map(|reply| (reply.status, reply.data.len())).collect()
}

fn accepted(kind: Kind, request: &Request) -> Pairs {
    let pairs = (0..=255).flat_map(|status| (0..=840).map(move |length| (status, length)));
    pairs.filter(|&(status, length)| possible(kind, request, status, length)).collect()
}

fn requests() -> Vec<Request> {
    let mut all = vec![
        Request::CpuReset,
        Request::SystemReset,
        Request::GetTimer,
        Request::TableInfo,
        Request::RemoveRecords,
        Request::EmptyRecords,
    ];
    let legal = [2, 0x20, 0x2C, 1, 0, 0, 0, 0, 0, 0, 0, 0, 0, 0x43];
    let illegal = [0xFF; BLOCK_BYTES];
    for adr in [0, 1, 7, 15, 16, 63, 64, 65, 0x80, 0x87, 0x8F, 0x90, 0xC0, 0xC1, 256] {
        all.push(Request::ReadBlock { adr });
        all.push(Request::WriteBlock { adr, bytes: legal });
        all.push(Request::WriteBlock { adr, bytes: illegal });
        all.push(Request::SaveBlocks { adr });
        all.push(Request::SetDefaults { adr });
    }
    all.extend([0, 1, 255, 256].map(|value| Request::Baud { value }));
    all.extend([0, 1, 0xFFFF_FFFF, 1 << 32].map(|password| Request::Login { password }));
    all.extend([0, 1, 18, 19, 20, 63, 64, 65, 65535, 65536].map(|k| Request::ReadRecords { k }));
    for (hour, minute, ms) in [(23, 59, 59999), (24, 0, 0), (0, 60, 0), (0, 0, 60000), (256, 0, 0), (0, 0, 65536)] {
        all.push(Request::SetTimer { hour, minute, ms });
    }
    all
}

#[test]
fn possible_is_what_some_sound_store_answers() {
    let desks = desks();
    for request in requests() {
        for kind in Kind::BOTH {
            assert_eq!(accepted(kind, &request), given(&desks, kind, &request), "{request:?} {kind:?}");
        }
    }
}

#[test]
fn what_the_maker_refuses() {
    let desks = desks();
    for request in requests() {
        let answers = given(&desks, Kind::Standard, &request);
        let refused = answers.is_empty() || answers.iter().any(|pair| pair.0 == 0x11);
        let mut out = [9; 30];
        assert_eq!(make(Kind::Advanced, 3, &request, &mut out) == Err(Refusal::Argument), refused);
        assert_eq!(make(Kind::Advanced, 8, &request, &mut out), Err(Refusal::Desk));
        if refused {
            assert_eq!(out, [9; 30]);
            assert_eq!(make(Kind::Standard, 0, &request, &mut []), Err(Refusal::Argument));
        }
    }
}

#[test]
fn room_exactly_equal_is_enough() {
    let mut out = [9; 8];
    let request = Request::ReadRecords { k: 64 };
    assert_eq!(make(Kind::Standard, 7, &request, &mut out[..6]), Err(Refusal::Room));
    assert_eq!(out, [9; 8]);
    assert_eq!(make(Kind::Standard, 7, &request, &mut out[..7]), Ok(7));
    assert_eq!((out[..5].to_vec(), out[7]), (vec![7, 7, 0x22, 0, 64], 9));
}

#[test]
fn the_reader_refuses() {
    let ask = Request::ReadRecords { k: 5 };
    let judge = |reply: &[u8]| read(Kind::Standard, 1, &ask, reply).map(|read| read.status);
    let one = |count: u8| [&[0, 0, count][..], &[7; RECORD]].concat();
    let sealed = |kind, address, control, rest: &[u8]| judge(&seal(kind, address, control, rest));
    assert_eq!(sealed(Kind::Standard, 1, 0x22, &one(1)), Ok(0));
    assert_eq!(sealed(Kind::Standard, 1, 0x22, &one(2)), Err(Refusal::Reply));
    assert_eq!(sealed(Kind::Standard, 2, 0x22, &one(1)), Err(Refusal::Reply));
    assert_eq!(sealed(Kind::Standard, 1, 0x23, &one(1)), Err(Refusal::Reply));
    assert_eq!(sealed(Kind::Advanced, 1, 0x22, &one(1)), Err(Refusal::Reply));
    assert_eq!(sealed(Kind::Standard, 1, 0x22, &[0x80]), Err(Refusal::Reply));
    assert_eq!(sealed(Kind::Standard, 1, 0x22, &[]), Err(Refusal::TooShort));
    assert_eq!(sealed(Kind::Advanced, 1, 0x22, &[]), Err(Refusal::TooShort));
    let mut broken = seal(Kind::Standard, 2, 0x22, &one(1));
    broken[3] ^= 1;
    assert_eq!(judge(&broken), Err(Refusal::Crc));
    let far = seal(Kind::Standard, 8, 0x63, &[0]);
    assert_eq!(read(Kind::Standard, 8, &Request::CpuReset, &far), Err(Refusal::Reply));
    assert_eq!(read(Kind::Standard, 264, &Request::CpuReset, &far), Err(Refusal::Reply));
}
