//! The paper's cases M1 to M12, its listing, and the fresh store.

use second::blocks::{block7_legal, one_block, DEFAULTS};
use second::crc;
use second::frame::{judge_request, Kind, Refusal};
use second::lines::line;
use second::listing::{event, serve, text};
use second::model::{record, Depot};
use second::place;
use second::store::{self, EEPROM, HEADER, RAM, ROW, SIZE};
use second::timer::Timer;

fn octets(hex: &str) -> Vec<u8> {
    let digits: Vec<u32> = hex.chars().filter_map(|c| c.to_digit(16)).collect();
    digits.chunks(2).map(|pair| (pair[0] * 16 + pair[1]) as u8).collect()
}

fn exchange(request: &str, reply: &str) {
    let mut depot = Depot::fresh();
    assert_eq!(depot.frame(&octets(request)), Ok(octets(reply)), "{request}");
}

fn block7(at: usize, byte: u8) -> bool {
    let mut block = DEFAULTS[7];
    block[at] = byte;
    block7_legal(&block)
}

#[test]
fn m1_m2_crc() {
    assert_eq!(crc::of(b"123456789"), 0x6F91);
    assert_eq!(crc::of(&[0x05, 0x00, 0x64]), 0x25AC);
}

#[test]
fn m3_m4_m5_frames() {
    exchange("05 00 64 AC 25", "06 00 64 00 8E 4A");
    let advanced = octets("02 00 07 00 64 27 8F");
    assert_eq!(judge_request(&advanced).map(|frame| frame.kind), Ok(Kind::Advanced));
    assert_eq!(judge_request(&[4, 0, 0, 0]), Err(Refusal::TooShort));
}

#[test]
fn m6_m7_block7() {
    assert!(block7(1, 0x20) && !block7(1, 0x21));
    assert!(block7(13, 0x43) && !block7(13, 0x44) && !block7(13, 0x50));
}

#[test]
fn m8_blocks() {
    assert!(one_block(15).is_some() && one_block(16).is_none());
}

#[test]
fn m9_m10_timer() {
    let mut timer = Timer { hour: 23, minute: 59, ms: 59900 };
    timer.tick();
    assert_eq!(timer, Timer::default());
    assert!(Timer { ms: 59999, ..timer }.legal());
    assert!(!Timer { ms: 60000, ..timer }.legal());
}

#[test]
fn a_roll_over_keeps_the_rest() {
    let mut timer = Timer { hour: 0, minute: 0, ms: 59999 };
    timer.tick();
    assert_eq!(timer, Timer { hour: 0, minute: 1, ms: 99 });
}

#[test]
fn m11_nineteen_records_fill_a_standard_reply() {
    let mut depot = Depot::fresh();
    for index in 0..20 {
        depot.sighting(0, [index; 8], 1).unwrap();
    }
    let reply = depot.frame(&second::frame::seal(Kind::Standard, 0, 0x22, &[0, 64])).unwrap();
    assert_eq!((reply.len(), reply[3], reply[5]), (255, 0x94, 19));
}

#[test]
fn m12_scan_line() {
    let timer = Timer::from_octets([1, 2, 3, 0xE8]);
    let record = record([0xE0, 7, 0, 0, 1, 0x64, 0x5E, 0x37], timer, 1);
    let mut out = [0xAA; 30];
    assert_eq!(line(&DEFAULTS[7], &record, &mut out), Ok(27));
    assert_eq!(&out, b"E007000001645E37,010203E8\r\n\xAA\xAA\xAA");
    assert_eq!(line(&DEFAULTS[7], &record, &mut out[..26]), Err(Refusal::Room));
}

#[test]
fn listing() {
    let mut depot = Depot::fresh();
    let input: [&[u8]; 4] = [b"", b"0500640000", b"050064AC25", b"t"];
    let output: Vec<String> = input.iter().map(|line| text(&serve(&mut depot, &event(line)))).collect();
    assert_eq!(output, ["refused 3", "refused 4", "060064008E4A", "ok"]);
}

/// Frames worked out from the manuals.
#[test]
fn vectors() {
    exchange("06 00 52 00 FC A8", "06 00 52 00 FC A8");
    exchange("05 00 63 13 51", "06 00 63 00 86 07");
    exchange("09 00 A0 00 00 00 00 72 D8", "06 00 A0 00 44 E7");
    exchange("06 00 80 07 C8 B0", "06 00 80 13 6D E6");
    exchange("05 00 86 B0 E1", "0A 00 86 00 00 00 00 00 07 47");
    exchange("07 00 22 00 01 5E A7", "06 00 22 92 A3 EF");
    exchange("05 00 31 84 20", "0C 00 31 00 00 40 00 00 00 00 27 E8");
    exchange("02 00 07 00 64 27 8F", "02 00 08 00 64 00 CB E7");
}

#[test]
fn a_fresh_store_octet_for_octet() {
    let mut store = vec![0xA5; SIZE];
    assert_eq!(place::fresh(&mut store), Ok(()));
    let mut expected = vec![0; SIZE];
    expected[..6].copy_from_slice(&[0, 6, 0x22, 0x5E, 0, 0]);
    for desk in 0..8 {
        let row = HEADER + ROW * desk;
        for memory in [row + RAM, row + EEPROM] {
            expected[memory + 98..memory + 102].copy_from_slice(&[0x02, 0x20, 0x2C, 0x01]);
            expected[memory + 169] = 0x37;
        }
        expected[row + 449] = 55;
    }
    assert_eq!(store, expected);
    assert_eq!(store::load(&store), Some(Depot::fresh()));
}

#[test]
fn a_fresh_store_wants_the_right_size() {
    for size in [0, SIZE - 1, SIZE + 1] {
        let mut store = vec![0xA5; size];
        assert_eq!(place::fresh(&mut store), Err(Refusal::Store));
        assert!(store.iter().all(|&octet| octet == 0xA5));
    }
}
