//! Document 02 (i): the table of which length is wrong, for frames to the box and for replies; and that its edges are met.

use second::frame::{judge_reply, judge_request, reseal, seal, Frame, Kind, Refusal, LONGEST};
use second::lengths::{at_an_edge, cell, cells, edges, Shortest};
use second::random::Random;
use std::collections::BTreeSet;

/// 33 unless the length field says how many octets there are.
const FIELD: u8 = 0;

/// The rows: a first octet of 2; another below 5; any other. The columns: no octets, 1 to 4, 5 and 6, 7 to 255, 256 to the
/// longest, above it. A reply is an octet longer.
const TABLE: [[u8; 6]; 3] = [[3, 31, 31, FIELD, FIELD, 32], [3, 31, 33, 33, 32, 32], [3, 31, FIELD, FIELD, 32, 32]];

fn wanted(octets: &[u8], status: usize) -> Option<u8> {
    let n = octets.len();
    let first = octets.first().map_or(0, |&first| usize::from(first));
    let row = if first == 2 { 0 } else { 1 + usize::from(first > 4 + status) };
    let column = [1, 5 + status, 7 + status, 256, LONGEST + 1].into_iter().filter(|&edge| edge <= n).count();
    match TABLE[row][column] {
        FIELD => {
            let said = if row == 0 { usize::from(octets[1]) * 256 + usize::from(octets[2]) } else { first };
            (said != n).then_some(33)
        }
        number => Some(number),
    }
}

fn found(judged: Result<Frame, Refusal>) -> Option<u8> {
    judged.err().map(Refusal::number)
}

fn as_in_the_table(octets: &mut [u8]) {
    let wanted = [wanted(octets, 0), wanted(octets, 1)];
    if wanted.contains(&None) {
        reseal(octets);
    }
    assert_eq!([found(judge_request(octets)), found(judge_reply(octets))], wanted, "{octets:02X?}");
}

#[test]
fn every_first_octet_and_every_number_of_octets() {
    let random = Random::new(1);
    let noise = random.octets(LONGEST + 3);
    for n in 0..noise.len() {
        let mut octets = noise[..n].to_vec();
        for first in 0..=255 {
            octets.iter_mut().take(1).for_each(|octet| *octet = first);
            as_in_the_table(&mut octets);
        }
    }
}

#[test]
fn every_number_of_octets_and_an_alength_beside_it() {
    for n in 1..LONGEST + 3 {
        for said in [0, 2, 6, 7, n - 1, n, n + 1, n ^ 256, usize::from((n as u16).swap_bytes()), LONGEST, 65535] {
            let mut octets = vec![0x5A; n];
            let field = [2, (said >> 8) as u8, said as u8];
            octets.iter_mut().zip(field).for_each(|(octet, field)| *octet = field);
            as_in_the_table(&mut octets);
        }
    }
}

#[test]
fn the_sentences_of_the_request() {
    assert_eq!(found(judge_request(&[])), Some(3));
    assert_eq!(found(judge_request(&[4, 0, 0x64, 0])), Some(31));
    assert_eq!([found(judge_request(&[2])), found(judge_request(&[2, 0]))], [Some(31), Some(31)]);
    for first in [0, 1, 3, 4] {
        assert_eq!([5, 255].map(|n| found(judge_request(&vec![first; n]))), [Some(33), Some(33)]);
    }
    let mut of_20 = vec![0; 20];
    of_20[..3].copy_from_slice(&[2, 0, 6]);
    assert_eq!(found(judge_request(&of_20)), Some(33));
    let sound = seal(Kind::Standard, 0, 0x64, &[]);
    assert_eq!((found(judge_request(&sound)), found(judge_reply(&sound))), (None, Some(31)));
}

fn meets_every_cell(shortest: Shortest) {
    let random = Random::new(7);
    let met: BTreeSet<String> = (0..20000).filter_map(|_| cell(&at_an_edge(&random, shortest), shortest)).collect();
    assert!(met.into_iter().eq(cells(shortest)));
}

#[test]
fn frames_at_the_edges_meet_every_cell_and_no_other() {
    meets_every_cell(Kind::shortest_request);
    meets_every_cell(Kind::shortest_reply);
    assert_eq!(edges(Kind::shortest_request), [0, 1, 2, 3, 4, 5, 6, 7, 255, 256, LONGEST, LONGEST + 1]);
    assert_eq!(edges(Kind::shortest_reply), [0, 1, 2, 3, 5, 6, 7, 8, 255, 256, LONGEST, LONGEST + 1]);
}
