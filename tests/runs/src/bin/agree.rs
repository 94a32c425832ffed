//! `agree SEED OCTETS` prints a module of proofs: the rules give the second program's answers to random events, by computation
//! alone. Lines that are no event are left out, and it ends where frames and replies pass OCTETS octets.

use runs::calls::{outcome, seen_code};
use runs::floors::answers;
use runs::numbers;
use second::frame::{seal, Kind, Refusal};
use second::gen::Gen;
use second::listing::{event, serve, text, Answer, Event};
use second::model::{Depot, Seen};
use second::place::REPLY_BUFFER;
use second::record_stories::fill;
use second::shapes::CONTROLS;
use second::tally::Tally;

fn list(octets: &[u8]) -> String {
    octets.iter().map(|octet| format!("{octet} ∷ ")).collect::<String>() + "[]"
}

fn event_text(event: &Event, room: usize) -> String {
    match event {
        Event::Frame(octets) if room == REPLY_BUFFER => format!("frame ({}) reply_room", list(octets)),
        Event::Frame(octets) => format!("frame ({}) {room}", list(octets)),
        Event::Sighting { desk, uid, mask } => format!("sighting {desk} 0x{:X} {mask}", u64::from_be_bytes(*uid)),
        Event::Tick => "tick".into(),
        Event::NotRead => unreachable!("left out"),
    }
}

fn answer_text(answer: &Answer) -> String {
    match answer {
        Answer::Reply(octets) => format!("reply ({})", list(octets)),
        Answer::Refused(refusal) => format!("refused {}", refusal.number()),
        Answer::Ok => "ok".into(),
        Answer::Seen(Seen::Ignored(left)) => format!("seen (Ignored {left})"),
        Answer::Seen(Seen::Lost) => "seen Lost".into(),
        Answer::Seen(Seen::Recorded) => "seen Recorded".into(),
        Answer::NotRead => unreachable!("left out"),
    }
}

fn octets_of(event: &Event, answer: &Answer) -> usize {
    let frame = if let Event::Frame(octets) = event { octets.len() } else { 0 };
    let reply = if let Answer::Reply(octets) = answer { octets.len() } else { 0 };
    frame + reply + 1
}

type Story = fn(&mut Gen, usize);

/// Short stories, so that every module meets what random events may pass by (`must_meet`).
const STORIES: [Story; 6] = [passwords, blocks, held_back, system_reset, antennas, refusals];

/// A wrong one; then it becomes the right one, in EEPROM alone, until a save puts the old one back.
fn passwords(gen: &mut Gen, desk: usize) {
    let mut wrong = gen.desk(desk).eeprom[0];
    wrong[gen.random.below(4)] ^= 1 << gen.random.below(8);
    gen.request(desk, 0xA0, &wrong[..4]);
    gen.request(desk, 0x80, &[0x8C]);
    gen.login(desk);
    gen.request(desk, 0x80, &[0x00]);
    gen.write(desk, gen.random.pick(&[0x40, 0xC0]), &wrong);
    gen.write(desk, 0x00, &wrong);
    gen.write(desk, 0x80, &wrong);
    gen.request(desk, 0xA0, &wrong[..4]);
    gen.request(desk, 0x82, &[gen.random.pick(&[0x00, 0x40])]);
    gen.request(desk, 0xA0, &wrong[..4]);
    gen.login(desk);
}

/// A VALID-TIME in RAM, saved, in force; then the default again, which waits for a reset.
fn blocks(gen: &mut Gen, desk: usize) {
    let mut block = gen.any_block();
    block[0] = 0;
    gen.logged_in(desk);
    gen.write(desk, 0x0C, &block);
    gen.request(desk, 0x82, &[0x0C]);
    gen.request(desk, 0x63, &[]);
    gen.logged_in(desk);
    gen.request(desk, 0x83, &[0x8C]);
    gen.request(desk, 0x80, &[0x8C]);
    gen.request(desk, 0x52, &[0]);
}

/// A tag met at each tick of its lock and after the last; then one whose lock has all the ticks that two octets hold;
/// then the default again.
fn held_back(gen: &mut Gen, desk: usize) {
    let ticks = gen.random.pick(&[1, 2, 3]);
    gen.valid_time(desk, ticks, 0x63);
    let uid = gen.new_uid();
    gen.sight(desk, uid);
    for _ in 0..ticks {
        gen.sight(desk, uid);
        gen.ticks(1);
    }
    gen.sight(desk, uid);
    gen.valid_time(desk, 65535, 0x63);
    gen.sight(desk, uid);
    gen.sight(desk, uid);
    gen.ticks(1);
    gen.sight(desk, uid);
    gen.logged_in(desk);
    gen.request(desk, 0x83, &[0x8C]);
    gen.request(desk, 0x63, &[]);
}

fn system_reset(gen: &mut Gen, desk: usize) {
    gen.sight_new(desk, 1);
    gen.request(desk, 0x85, &[23, 59, 0, 0]);
    gen.request(desk, 0x64, &[]);
    gen.request(desk, 0x31, &[]);
    gen.request(desk, 0x86, &[]);
    let kind = gen.any_kind();
    gen.read(kind, desk, 1);
}

fn antennas(gen: &mut Gen, desk: usize) {
    let uid = gen.new_uid();
    gen.sight_by(desk, uid, 0);
    gen.sight(desk, uid);
    gen.sight(desk, uid);
    gen.ticks(1);
}

fn refusals(gen: &mut Gen, desk: usize) {
    let mut frame = seal(gen.any_kind(), desk as u8, 0x33, &[]);
    let end = frame.len() - 1;
    gen.octets(&frame[..end]);
    frame[end] ^= 1 << gen.random.below(8);
    gen.octets(&frame);
    gen.request(8, 0x33, &[]);
    gen.request(desk, 0x34, &[]);
    gen.request(desk, 0x86, &[0]);
    gen.request(desk, 0x52, &[1]);
}

/// The one long story: 64 records and one lost; 19 are read with the mark and removed, 19 and then one without it.
fn overflow(gen: &mut Gen, desk: usize) {
    fill(gen, desk);
    gen.sight_new(desk, 1);
    gen.read(Kind::Standard, desk, 64);
    gen.request(desk, 0x32, &[]);
    gen.read(Kind::Standard, desk, 64);
    gen.read(Kind::Standard, desk, 1);
    gen.request(desk, 0x33, &[]);
}

/// Each wrong length (document 02, i), and ALENGTH cut off.
fn lengths(gen: &mut Gen, desk: usize) {
    let frame = seal(Kind::Standard, desk as u8, 0x33, &[]);
    for octets in [&[][..], &[2], &[2, 0], &[4, 0, 0x64, 0], &[2, 0, 6, 0, 0x33, 0, 0], &frame] {
        gen.octets(octets);
    }
    for n in [6, 255, 256] {
        let mut longer = frame.clone();
        longer.resize(n, 0);
        gen.octets(&longer);
    }
}

fn tell(gen: &mut Gen, story: Story) {
    let desk = gen.any_desk();
    story(gen, desk);
}

/// Every other status than 0x00, every refusal of the box and every outcome of a sighting.
const MET: [&str; 26] = [
    "0x52 answers 0x11",
    "0x80 answers 0x13",
    "0xA0 answers 0x14",
    "0x80 answers 0x15",
    "0x81 answers 0x11",
    "0x81 answers 0x16",
    "unknown answers 0x80",
    "0x86 answers 0x81",
    "0x22 answers 0x92",
    "0x22 answers 0x93",
    "0x22 answers 0x94",
    "refused 2",
    "refused 3",
    "refused 31",
    "refused 32",
    "refused 33",
    "refused 4",
    "refused 5",
    "refused 6",
    "ignored",
    "ignored, one tick left",
    "ignored, more than 255 ticks left",
    "ignored, 65535 ticks left",
    "lost",
    "recorded",
    "ok",
];

/// These, and every command done.
fn must_meet() -> Tally {
    let done = CONTROLS.map(|control| answers(control, 0x00));
    Tally::new(MET.map(String::from).into_iter().chain(done).map(|name| (name, 1)))
}

fn met(event: &Event, answer: &Answer) -> String {
    match (event, answer) {
        (Event::Frame(octets), Answer::Reply(reply)) => {
            let head = Kind::of(octets[0]).head();
            answers(octets[head + 1], reply[head + 2])
        }
        (_, Answer::Seen(seen)) => outcome(seen_code(Ok(*seen))),
        _ => text(answer),
    }
}

struct Module {
    events: String,
    answers: String,
    count: usize,
    octets: usize,
    met: Tally,
}

impl Module {
    fn add(&mut self, depot: &mut Depot, event: &Event, room: usize) {
        let answer = match event {
            Event::Frame(_) if room < REPLY_BUFFER => Answer::Refused(Refusal::ReplyBuffer),
            _ => serve(depot, event),
        };
        self.octets += octets_of(event, &answer);
        append(&mut self.events, &event_text(event, room));
        append(&mut self.answers, &answer_text(&answer));
        self.count += 1;
        self.met.count(&met(event, &answer));
    }
}

/// Adds an entry to a list: on the last line, or on a new one where that is long.
fn append(list: &mut String, entry: &str) {
    let last = list.lines().last().unwrap_or("").chars().count();
    list.truncate(list.trim_end().len());
    *list += if list.is_empty() { "    " } else if last + entry.chars().count() > 130 { "\n    " } else { " " };
    *list += entry;
    *list += " ∷\n";
}

/// The stories stand at its start, and the short ones now and then further on. Now and then a frame comes with too little room first.
fn module(seed: u64, most: usize) -> Module {
    let (mut gen, mut depot) = (Gen::new(seed), Depot::fresh());
    let mut module = Module { events: String::new(), answers: String::new(), count: 0, octets: 0, met: must_meet() };
    STORIES.iter().chain(&[overflow as Story, lengths]).for_each(|&story| tell(&mut gen, story));
    while module.octets < most {
        if gen.random.one_in(25) {
            let story = gen.random.pick(&STORIES);
            tell(&mut gen, story);
        }
        let event = event(&gen.next_line());
        if matches!(event, Event::Frame(_)) && (module.count == 0 || gen.random.one_in(12)) {
            module.add(&mut depot, &event, gen.random.pick(&[0, REPLY_BUFFER - 1]));
        }
        if event != Event::NotRead {
            module.add(&mut depot, &event, gen.random.pick(&[REPLY_BUFFER, REPLY_BUFFER, REPLY_BUFFER, 1000]));
        }
    }
    module
}

fn main() {
    let [seed, most] = numbers("agree SEED OCTETS");
    let Module { events, answers, count, met, .. } = module(seed, most as usize);
    let missing = met.missing();
    assert!(missing.is_empty(), "not met: {missing:?}");
    print!("{}", MODULE.replace("COUNT", &count.to_string()).replace("EVENTS", &events).replace("ANSWERS", &answers));
}

const MODULE: &str = "\
-- COUNT random events, and the answers of the second program, printed by tests/runs: the rules give the same. Assumes nothing.
use mathlib.Core.Path.{◌≡◌, refl}
use mathlib.Core.List.{List, [], ◌∷◌}
use Rattle.frame.specs.Shape.{reply_room}
use Rattle.rules.specs.declared.Seen.TheVariants.{Ignored, Lost, Recorded}
use Rattle.rules.specs.Box.{Event, frame, sighting, tick, Answer, refused, reply, seen, ok, fresh_box, run}
use Rattle.rules.proofs.Computed.{computed}

unfoldable pub events : List Event
events =
EVENTS    []

unfoldable pub answers : List Answer
answers =
ANSWERS    []

pub agree : run fresh_box events ≡ answers
unfolding computed events answers
agree = refl
";
