//! Lines of any length, in any pieces; and that random events reach it all.

use second::coverage::Coverage;
use second::frame::LONGEST;
use second::gen::Gen;
use second::listing::{event, Event, Line};

/// The digits of a frame that is one octet too long: so much of a line is held.
const HELD: usize = 2 * (LONGEST + 1);

fn in_pieces(line: &[u8], size: usize) -> Event {
    let mut held = Line::default();
    line.chunks(size).for_each(|piece| held.push(piece));
    held.event()
}

#[test]
fn pieces_do_not_matter() {
    let mut gen = Gen::new(7);
    for _ in 0..3000 {
        let line = gen.next_line();
        let whole = in_pieces(&line, line.len().max(1));
        assert_eq!(whole, in_pieces(&line, 7));
        if line.len() <= HELD {
            assert_eq!(whole, event(&line));
        }
    }
}

#[test]
fn a_long_line_is_what_it_would_be_whole() {
    for (length, last) in
        [(HELD - 1, b'0'), (HELD, b'0'), (HELD + 1, b'0'), (HELD + 2, b'0'), (9000, b'0'), (9000, b'g'), (9001, b'F')]
    {
        let mut line = vec![b'0'; length];
        line[length - 1] = last;
        let read = length % 2 == 0 && last != b'g';
        assert_eq!(in_pieces(&line, 1000) != Event::NotRead, read, "{length}");
        assert_eq!(event(&line) != Event::NotRead, read);
    }
}

#[test]
fn shapes_of_lines() {
    assert_eq!(event(b""), Event::Frame(vec![]));
    assert_eq!(event(b"aF"), Event::Frame(vec![0xAF]));
    assert_eq!(event(b"t"), Event::Tick);
    let uid = [0xE0, 7, 0, 0, 1, 0x64, 0x5E, 0x37];
    assert_eq!(event(b"s9e007000001645E37fF"), Event::Sighting { desk: 9, uid, mask: 0xFF });
    for line in [
        "T",
        "t ",
        "S0E007000001645E3701",
        "s0E007000001645E370",
        "s0E007000001645E37011",
        "sAE007000001645E3701",
        "0",
        "0g",
        "00\r",
        " 00",
        "0 0",
    ] {
        assert_eq!(event(line.as_bytes()), Event::NotRead, "{line}");
    }
}

#[test]
fn random_events_reach_every_situation() {
    let mut gen = Gen::new(1);
    let mut coverage = Coverage::new();
    (0..100_000).for_each(|_| coverage.line(&gen.next_line()));
    let missing = coverage.tally().missing();
    assert!(missing.is_empty(), "{missing:?}");
}
