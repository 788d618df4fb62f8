//! One event of a board again and again, to count what it executes: `board EVENT COUNT PORT=VALUE..`

use plain::board::{Board, Event, Machine};
use plain::restoring::restore;
use plain::saving::save;
use plain::shipped::{shipped, Shipped, NEWEST};
use plain::stream::Image;
use std::hint::black_box;

fn event(word: u8) -> Option<Event> {
    Some(match word {
        b'l' => Event::Read { port: 0x3fd },
        b't' => Event::Write { port: 0x3f8, value: 0x41 },
        b'a' => Event::Ack,
        b'c' => Event::Read { port: 0x40 },
        b'w' => Event::Wait(1_000_000),
        b'e' => Event::Write { port: 0x20, value: 0x20 },
        b'n' => Event::Read { port: 0x80 },
        _ => return None,
    })
}

fn main() {
    let words: Vec<String> = std::env::args().collect();
    let count: u64 = words[2].parse().expect("a number");
    let mut board = Board::new(NEWEST);
    for word in &words[3..] {
        let (port, value) = word.split_once('=').expect("PORT=VALUE");
        let port = u16::from_str_radix(port, 16).expect("a port");
        board.event(Event::Write { port, value: u8::from_str_radix(value, 16).expect("a byte") });
    }
    let set = shipped(Shipped::Isa(NEWEST));
    let (mut saved, mut restored) = (Image::all(&set), Image::all(&set));
    let mut stream = Vec::new();
    save(&board, NEWEST, &set, &mut saved, &mut stream);
    let mut sum = 0u64;
    let letter = words[1].as_bytes()[0];
    match (event(letter.to_ascii_lowercase()), letter) {
        (Some(e), b'A'..=b'Z') => {
            for _ in 0..count {
                let passed = board.event(black_box(Event::Wait(1000)));
                let answer = board.event(black_box(e));
                sum +=
                    answer.value.unwrap_or(0) as u64 + answer.int as u64 + passed.sent.bytes().len() as u64;
            }
        }
        (Some(e), _) => {
            for _ in 0..count {
                let answer = board.event(black_box(e));
                sum +=
                    answer.value.unwrap_or(0) as u64 + answer.int as u64 + answer.sent.bytes().len() as u64;
            }
        }
        (None, b's') => {
            for _ in 0..count {
                stream.clear();
                save(&board, NEWEST, &set, &mut saved, &mut stream);
                sum += stream.len() as u64;
            }
        }
        _ => {
            for _ in 0..count {
                let Ok((b, at)) = restore(NEWEST, &set, &mut restored, &mut &stream[..]) else { return };
                board = b;
                sum += at + black_box(&board).level as u64;
            }
        }
    }
    println!("{sum}");
}
