//! What data say, at the edges of each refusal.

use second::data::{block, record, sizes, timer};
use second::frame::Refusal;

const RECORD: [u8; 13] = [0xE0, 7, 0, 0, 1, 0x64, 0x5E, 0x37, 23, 59, 0xEA, 0x5F, 0xFF];
const NUMBERS: [u64; 5] = [0xE007_0000_0164_5E37, 23, 59, 59999, 255];

fn told<const N: usize>(room: usize, call: impl Fn(&mut [u64]) -> Result<usize, Refusal>) -> Result<[u64; N], Refusal> {
    let mut out = [9; 6];
    let answer = call(&mut out[..room]);
    let behind = if answer.is_ok() { N } else { 0 };
    assert!(out[behind..].iter().all(|&number| number == 9));
    assert!(answer.is_err() || answer == Ok(N));
    answer.map(|_| std::array::from_fn(|at| out[at]))
}

#[test]
fn a_block() {
    let data: [u8; 14] = std::array::from_fn(|at| at as u8);
    let mut out = [9; 15];
    assert_eq!(block(&data[1..], &mut out[..13]), Err(Refusal::Room));
    assert_eq!(block(&data[1..], &mut out), Err(Refusal::Reply));
    assert_eq!(block(&[0; 15], &mut out), Err(Refusal::Reply));
    assert_eq!(out, [9; 15]);
    assert_eq!(block(&data, &mut out[..14]), Ok(14));
    assert_eq!((out[..14].to_vec(), out[14]), (data.to_vec(), 9));
}

#[test]
fn a_timer_and_sizes() {
    for room in [3, 4] {
        assert_eq!(told(room, |out| timer(&[1, 2, 3, 4], out)), Ok([1, 2, 772]));
        assert_eq!(told(room, |out| sizes(&[0, 64, 0, 1, 1, 0], out)), Ok([64, 1, 256]));
    }
    for length in [0, 3, 5, 7] {
        let data = [0; 7];
        assert_eq!(told::<3>(2, |out| timer(&data[..length], out)), Err(Refusal::Room));
        assert_eq!(told::<3>(3, |out| timer(&data[..length], out)), Err(Refusal::Reply));
        assert_eq!(told::<3>(3, |out| sizes(&data[..length], out)), Err(Refusal::Reply));
    }
}

#[test]
fn a_record() {
    let data = [&[0, 2][..], &[0; 13], &RECORD].concat();
    let of = |data: &[u8], i, room| told::<5>(room, |out| record(data, i, out));
    assert_eq!((of(&data, 1, 5), of(&data, 1, 6)), (Ok(NUMBERS), Ok(NUMBERS)));
    assert_eq!(of(&data, 0, 5), Ok([0; 5]));
    assert_eq!((of(&data, 2, 0), of(&data, usize::MAX, 5)), (Err(Refusal::Argument), Err(Refusal::Argument)));
    assert_eq!((of(&data, 1, 4), of(&data[..27], 0, 4)), (Err(Refusal::Room), Err(Refusal::Room)));
    assert_eq!((of(&data[..27], 0, 5), of(&data[..27], 1, 5)), (Err(Refusal::Reply), Err(Refusal::Argument)));
    assert_eq!((of(&[], 0, 5), of(&[0, 0], 0, 5)), (Err(Refusal::Argument), Err(Refusal::Argument)));
    for count in [[0, 0], [0, 1], [0, 3], [1, 2], [2, 0]] {
        assert_eq!(of(&[&count[..], &data[2..]].concat(), 0, 5), Err(Refusal::Reply));
    }
}
