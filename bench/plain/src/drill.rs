//! Drills: events that a seed chooses, with a save and a restore after every thousand.

use crate::board::{Board, Event, Machine, WIRES};
use crate::desc::DescSet;
use crate::restoring::restore;
use crate::saving::save;
use crate::shipped::{shipped, Shipped, NEWEST};
use crate::stream::Image;

const PORTS: [u16; 16] =
    [0x3f8, 0x3f9, 0x3fa, 0x3fb, 0x3fc, 0x3fd, 0x3fe, 0x3ff, 0x20, 0x21, 0xa0, 0xa1, 0x40, 0x41, 0x42, 0x43];

fn event_of(h: u32) -> Event {
    let a = (h >> 3) as u8;
    let b = (h >> 11 & 63) as usize;
    match h & 7 {
        0 | 1 => Event::Read { port: PORTS[b & 15] },
        2 | 3 => Event::Write { port: PORTS[b & 15], value: a },
        4 => Event::Byte(a),
        5 => Event::Wait(a as u64 * 100_000),
        6 => Event::Ack,
        _ => Event::Wire { input: WIRES[b % 13], up: a & 1 != 0 },
    }
}

/// Runs a drill of `count` events and returns its line.
pub fn drill(level: u8, seed: u64, count: u32) -> String {
    let made = |s| {
        let set = shipped(Shipped::Isa(s));
        let images = Image::all(&set);
        (s, set, images)
    };
    let mut sets: Vec<(u8, DescSet, Vec<Image>)> = (level..=NEWEST).map(made).collect();
    let (_, newest, mut images) = made(NEWEST);
    let mut board = Board::of_level(level);
    let mut bytes = Vec::new();
    let (mut sent, mut raised, mut saves, mut total) = (0u64, 0u64, 0usize, 0u64);
    let mut x = seed;
    for n in 1..=count {
        x = x.wrapping_mul(6_364_136_223_846_793_005).wrapping_add(1_442_695_040_888_963_407);
        let answer = board.event(event_of((x >> 32) as u32));
        sent += answer.sent.bytes().len() as u64;
        raised += answer.int as u64;
        if n % 1000 == 0 {
            let k = saves % sets.len();
            let (s, set, of) = &mut sets[k];
            bytes.clear();
            save(&board, *s, set, of, &mut bytes);
            board = match restore(level, &newest, &mut images, &mut &bytes[..]) {
                Ok((b, _)) => b,
                Err(_) => unreachable!("a saved board is restored"),
            };
            saves += 1;
            total += bytes.len() as u64;
        }
    }
    format!(
        "isa-{level} seed {seed} events {count} sent {sent} raised {raised} saves {saves} bytes {total}\n"
    )
}
