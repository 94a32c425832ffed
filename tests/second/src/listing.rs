//! A program and its listing: a line of text to an event, an answer to a line.

use crate::frame::{Refusal, LONGEST};
use crate::model::{Depot, Seen, Uid};

#[derive(Clone, PartialEq, Eq, Debug)]
pub enum Event {
    Frame(Vec<u8>),
    Sighting { desk: u8, uid: Uid, mask: u8 },
    Tick,
    NotRead,
}

#[derive(Clone, PartialEq, Eq, Debug)]
pub enum Answer {
    Reply(Vec<u8>),
    Refused(Refusal),
    Ok,
    Seen(Seen),
    NotRead,
}

/// One octet more than the longest frame: enough to be refused for its length.
const KEPT_OCTETS: usize = LONGEST + 1;
const KEPT: usize = 2 * KEPT_OCTETS;

/// A line as it arrives. Only a bounded part is held; of the rest it is
/// enough to know whether it is hex and whether its length is even.
#[derive(Default)]
pub struct Line {
    kept: Vec<u8>,
    rest: u64,
    rest_bad: bool,
}

impl Line {
    pub fn push(&mut self, text: &[u8]) {
        let room = KEPT - self.kept.len();
        let (kept, rest) = text.split_at(room.min(text.len()));
        self.kept.extend_from_slice(kept);
        self.rest += rest.len() as u64;
        self.rest_bad |= !rest.iter().all(u8::is_ascii_hexdigit);
    }

    pub fn is_empty(&self) -> bool {
        self.kept.is_empty()
    }

    pub fn clear(&mut self) {
        self.kept.clear();
        self.rest = 0;
        self.rest_bad = false;
    }

    pub fn event(&self) -> Event {
        if self.rest_bad || self.rest % 2 == 1 {
            return Event::NotRead;
        }
        event(&self.kept)
    }
}

/// The event of a whole line, without its LF.
pub fn event(line: &[u8]) -> Event {
    match line {
        b"t" => Event::Tick,
        [b's', rest @ ..] => sighting(rest).unwrap_or(Event::NotRead),
        _ => octets(line).map_or(Event::NotRead, Event::Frame),
    }
}

fn sighting(text: &[u8]) -> Option<Event> {
    let (&digit, hex) = text.split_first()?;
    if !digit.is_ascii_digit() || hex.len() != 18 {
        return None;
    }
    let hex = octets(hex)?;
    let mut uid = [0; 8];
    uid.copy_from_slice(&hex[..8]);
    Some(Event::Sighting { desk: digit - b'0', uid, mask: hex[8] })
}

fn octets(hex: &[u8]) -> Option<Vec<u8>> {
    if hex.len() % 2 == 1 {
        return None;
    }
    hex.chunks(2).map(|pair| Some(nibble(pair[0])? * 16 + nibble(pair[1])?)).collect()
}

fn nibble(digit: u8) -> Option<u8> {
    match digit {
        b'0'..=b'9' => Some(digit - b'0'),
        b'a'..=b'f' => Some(digit - b'a' + 10),
        b'A'..=b'F' => Some(digit - b'A' + 10),
        _ => None,
    }
}

/// What the box answers to an event.
pub fn serve(depot: &mut Depot, event: &Event) -> Answer {
    match event {
        Event::Frame(octets) => depot.frame(octets).map_or_else(Answer::Refused, Answer::Reply),
        Event::Sighting { desk, uid, mask } => {
            depot.sighting(u64::from(*desk), *uid, *mask).map_or_else(Answer::Refused, Answer::Seen)
        }
        Event::Tick => {
            depot.tick();
            Answer::Ok
        }
        Event::NotRead => Answer::NotRead,
    }
}

/// The line of an answer, without its LF.
pub fn text(answer: &Answer) -> String {
    match answer {
        Answer::Reply(octets) => capital_hex(octets),
        Answer::Refused(refusal) => format!("refused {}", refusal.number()),
        Answer::Ok => "ok".into(),
        Answer::Seen(Seen::Recorded) => "recorded".into(),
        Answer::Seen(Seen::Ignored(left)) => format!("ignored {left}"),
        Answer::Seen(Seen::Lost) => "lost".into(),
        Answer::NotRead => "not read".into(),
    }
}

pub fn capital_hex(octets: &[u8]) -> String {
    const DIGITS: &[u8; 16] = b"0123456789ABCDEF";
    let digits = octets.iter().flat_map(|&octet| [octet >> 4, octet & 0x0F]);
    digits.map(|digit| char::from(DIGITS[usize::from(digit)])).collect()
}
