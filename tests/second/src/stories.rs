//! What the generator tells: short stories, each around one part of the paper.

use crate::gen::Gen;
use crate::{config_stories, record_stories, shapes};

type Story = fn(&mut Gen);

/// Each story and how often it is told.
const STORIES: [(usize, Story); 29] = [
    (120, any_command),
    (60, shapes::wrong_length),
    (16, shapes::unknown_control),
    (70, shapes::broken_frame),
    (70, shapes::any_length),
    (16, shapes::too_short),
    (40, shapes::at_an_edge),
    (12, shapes::noise),
    (80, shapes::malformed),
    (16, config_stories::passwords),
    (10, config_stories::configuration),
    (6, config_stories::save_and_defaults),
    (10, config_stories::block7),
    (12, config_stories::addresses),
    (14, timer_edges),
    (4, record_stories::valid_time),
    (8, record_stories::unused_valid_time),
    (3, record_stories::overflow),
    (2, record_stories::unread_overflow),
    (3, record_stories::many_locks),
    (10, record_stories::several_desks),
    (10, record_stories::reading),
    (12, record_stories::removal),
    (10, record_stories::reset),
    (3, tick_run),
    (24, record_stories::bad_sightings),
    (20, record_stories::some_sightings),
    (20, record_stories::probe_any),
    (2, rarely),
];

pub fn tell(gen: &mut Gen) {
    let all: usize = STORIES.iter().map(|story| story.0).sum();
    let mut at = gen.random.below(all);
    for (weight, story) in STORIES {
        if at < weight {
            return story(gen);
        }
        at -= weight;
    }
}

/// Long stories.
fn rarely(gen: &mut Gen) {
    match gen.random.below(12) {
        0 => shapes::giant(gen),
        1..=5 => record_stories::every_desk_full(gen),
        _ => config_stories::every_address(gen),
    }
}

pub fn any_command(gen: &mut Gen) {
    let desk = gen.any_desk();
    match gen.random.below(12) {
        0 => gen.request(desk, 0x52, &[0]),
        1 => baud(gen, desk),
        2 => gen.request(desk, 0x63, &[]),
        3 => gen.request(desk, 0x86, &[]),
        4 => gen.request(desk, 0x31, &[]),
        5 => gen.request(desk, 0x32, &[]),
        6 => gen.login(desk),
        7 => any_timer(gen, desk),
        8 | 9 => record_stories::any_read(gen, desk),
        10 => config_stories::any_block_command(gen, desk),
        _ => gen.ticks(1),
    }
}

fn baud(gen: &mut Gen, desk: usize) {
    let octet = gen.random.pick(&[0, 1, 2, 0x80, 0xFF]);
    gen.request(desk, 0x52, &[octet]);
}

pub fn any_timer(gen: &mut Gen, desk: usize) {
    let hour = gen.random.pick(&[0, 1, 22, 23, 23, 24, 255]);
    let minute = gen.random.pick(&[0, 9, 58, 59, 59, 60, 255]);
    let ms: u16 = gen.random.pick(&[0, 99, 100, 59799, 59800, 59899, 59900, 59901, 59999, 60000, 60099, 65535]);
    let ms = ms.to_be_bytes();
    gen.request(desk, 0x85, &[hour, minute, ms[0], ms[1]]);
}

/// The timer set near its edges, a few ticks, and the timers of two desks.
fn timer_edges(gen: &mut Gen) {
    let desk = gen.any_desk();
    for _ in 0..3 {
        any_timer(gen, desk);
        gen.request(desk, 0x86, &[]);
        gen.ticks(1 + gen.random.below(3));
        gen.request(desk, 0x86, &[]);
    }
    let ms = 58500u16 + gen.random.below(1500) as u16;
    let ms = ms.to_be_bytes();
    gen.request(desk, 0x85, &[gen.random.pick(&[22, 23]), 59, ms[0], ms[1]]);
    gen.ticks(gen.random.below(20));
    gen.request(desk, 0x86, &[]);
    let other = gen.other_desk(desk);
    gen.request(other, 0x86, &[]);
}

fn tick_run(gen: &mut Gen) {
    let count = gen.random.pick(&[1, 2, 54, 55, 56, 100, 300]);
    gen.ticks(count);
    let desk = gen.any_desk();
    gen.request(desk, 0x86, &[]);
}
