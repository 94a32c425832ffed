//! `isolation SEED ROUNDS EVENTS`: a random history, and the same with the other desks' events removed, changed or added to, and
//! with outputs of other lengths and contents: each desk's answers and what is kept for it must be equal. It ends with status 101
//! at the first difference.

use runs::calls::*;
use runs::guarded::Guarded;
use runs::numbers;
use second::frame::judge_request;
use second::gen::Gen;
use second::model::Desk;
use second::place::REPLY_BUFFER;
use second::random::Random;
use second::store::{load, SIZE};

/// A call, and whether enough room is lent for a reply: refusal 2 hangs on nothing else about the output.
#[derive(Clone)]
struct Lent {
    call: Call,
    enough: bool,
}

/// A desk's events: well-formed frames addressed to it, sightings at it, ticks.
fn concerns(desk: u8, lent: &Lent) -> bool {
    match &lent.call {
        Call::Frame(octets) => judge_request(octets).is_ok_and(|frame| frame.address == desk),
        Call::Sighting { desk: at, .. } => *at == u64::from(desk),
        Call::Tick => true,
    }
}

/// Now and then a frame comes with too little room first: then it changes nothing, and the generator knows what each desk holds.
fn history(seed: u64, count: u64) -> Vec<Lent> {
    let mut gen = Gen::new(seed);
    let mut history = Vec::new();
    for _ in 0..count {
        let call = next_call(&mut gen);
        if matches!(call, Call::Frame(_)) && gen.random.one_in(8) {
            history.push(Lent { call: call.clone(), enough: false });
        }
        history.push(Lent { call, enough: true });
    }
    history
}

/// An output of any such length and any contents.
fn output(random: &Random, enough: bool) -> Vec<u8> {
    let (less, more) = (random.below(REPLY_BUFFER), REPLY_BUFFER + random.below(200));
    random.octets(match enough {
        true => random.pick(&[REPLY_BUFFER, REPLY_BUFFER, REPLY_BUFFER + 1, more]),
        false => random.pick(&[0, REPLY_BUFFER - 1, less]),
    })
}

/// A call with an output of its own: the code and the reply. What lies behind a reply stays, and where it is refused all of it.
fn answer(random: &Random, store: &mut [u8], lent: &Lent) -> (u64, Vec<u8>) {
    let before = output(random, lent.enough);
    let mut out = Guarded::new(&before);
    let code = library(store, &lent.call, out.inner());
    let mut out = out.taken("output");
    let length = depot::numbers::length(code).unwrap_or(0);
    assert!(out[length..] == before[length..], "{:?}: octets that are no reply were written", lent.call);
    out.truncate(length);
    (code, out)
}

/// What a desk hears of a history, and what is kept for it at the end.
fn heard(random: &Random, desk: u8, history: &[Lent]) -> (Vec<(u64, Vec<u8>)>, Desk) {
    let mut store = vec![0; SIZE];
    assert_eq!(depot::raw::fresh(&mut store), 0);
    let mut answers = Vec::new();
    for lent in history {
        let answer = answer(random, &mut store, lent);
        if concerns(desk, lent) {
            answers.push(answer);
        }
    }
    let depot = load(&store).expect("a store left by events is sound");
    (answers, depot.desks[usize::from(desk)].clone())
}

/// The same for one desk: what concerns others is kept, dropped, or replaced by what the strangers have.
fn disturbed(random: &Random, desk: u8, history: &[Lent], strangers: &[Lent]) -> Vec<Lent> {
    let mut others = strangers.iter().filter(|lent| !concerns(desk, lent)).cycle();
    let mut changed = Vec::new();
    for lent in history {
        if concerns(desk, lent) || random.one_in(3) {
            changed.push(lent.clone());
        }
        while random.one_in(2) {
            changed.extend(others.next().cloned());
        }
    }
    changed
}

fn main() {
    let [seed, rounds, count] = numbers("isolation SEED ROUNDS EVENTS");
    let random = Random::new(seed);
    for round in 0..rounds {
        let (events, strangers) = (history(random.next(), count), history(random.next(), count));
        for desk in 0..8 {
            let other = disturbed(&random, desk, &events, &strangers);
            let same = heard(&random, desk, &events) == heard(&random, desk, &other);
            assert!(same, "round {round}: desk {desk} shows another's events");
        }
    }
    println!("{rounds} histories of {count} events, each disturbed for each desk: nothing shows");
}
