//! Document 02 (i): frames at the edges of the table of lengths, and the name of what each shows.

use crate::frame::{reseal, Kind, LONGEST};
use crate::random::Random;
use std::collections::BTreeSet;

/// To the box, or from it: the shortest frame of each kind.
pub type Shortest = fn(Kind) -> usize;

/// The numbers of octets at the edges of the table's columns, and those of which ALENGTH is cut off.
pub fn edges(shortest: Shortest) -> [usize; 12] {
    let (standard, advanced) = (shortest(Kind::Standard), shortest(Kind::Advanced));
    [0, 1, 2, 3, standard - 1, standard, advanced - 1, advanced, 255, 256, LONGEST, LONGEST + 1]
}

const ADVANCED: &str = "2";
const NEVER: &str = "below the shortest";
const STANDARD: &str = "any other";

/// The rows: by the first octet.
fn row(first: u8, shortest: Shortest) -> &'static str {
    match first {
        2 => ADVANCED,
        _ if usize::from(first) < shortest(Kind::Standard) => NEVER,
        _ => STANDARD,
    }
}

/// The number of octets that the length field says; nothing when it is cut off.
fn said(octets: &[u8]) -> Option<usize> {
    match *octets {
        [2, high, low, ..] => Some(usize::from(high) * 256 + usize::from(low)),
        [2, ..] | [] => None,
        [first, ..] => Some(usize::from(first)),
    }
}

/// What a frame shows of the table; nothing where it stands at no edge.
pub fn cell(octets: &[u8], shortest: Shortest) -> Option<String> {
    let n = octets.len();
    let first = match octets.first() {
        _ if !edges(shortest).contains(&n) => return None,
        None => return Some("no octets".into()),
        Some(&first) => first,
    };
    Some(named(n, row(first, shortest), said(octets).map(|said| said.abs_diff(n))))
}

fn named(n: usize, row: &str, off: Option<usize>) -> String {
    let field = match off {
        None => "is cut off",
        Some(0) => "is right",
        Some(1) => "is off by one",
        Some(_) => "differs",
    };
    format!("{n} octets, first {row}, field {field}")
}

/// Every cell at its edges: of each first octet, and after a 2 of ALENGTHs that are right, off by one, and 0.
pub fn cells(shortest: Shortest) -> BTreeSet<String> {
    let lengths = |n: usize| [n, n + 1, 0].map(|said| [2, (said >> 8) as u8, said as u8]);
    let heads = |n: usize| (0..=255).map(|first| [first, 0, 0]).chain(lengths(n));
    let mut names = BTreeSet::new();
    for n in edges(shortest) {
        names.extend(heads(n).filter_map(|head| cell(&begun(vec![0; n], &head), shortest)));
    }
    names
}

/// The octets, with a head in place of the first of them.
fn begun(mut octets: Vec<u8>, head: &[u8]) -> Vec<u8> {
    octets.iter_mut().zip(head).for_each(|(octet, head)| *octet = *head);
    octets
}

/// A frame at an edge, whose CRC is right; its length field is right, off by one, or anything.
pub fn at_an_edge(random: &Random, shortest: Shortest) -> Vec<u8> {
    let n = random.pick(&edges(shortest));
    let said = match random.below(4) {
        0 => n,
        1 => n + 1,
        2 => n.saturating_sub(1),
        _ => random.below(1024),
    };
    let never = random.below(shortest(Kind::Standard)) as u8;
    let octets = begun(random.octets(n), &any_head(random, never, said));
    sealed(octets)
}

fn any_head(random: &Random, never: u8, said: usize) -> Vec<u8> {
    match random.below(3) {
        0 => vec![2, (said >> 8) as u8, said as u8],
        1 => vec![never],
        _ => vec![said as u8],
    }
}

/// With a desk's address every other time, and the right CRC, where there is room for both.
fn sealed(mut octets: Vec<u8>) -> Vec<u8> {
    let at = octets.first().map_or(0, |&first| Kind::of(first).head());
    if octets.len() > at + 2 {
        octets[at] &= 0x0F;
        reseal(&mut octets);
    }
    octets
}
