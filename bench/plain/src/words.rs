//! The words of commands.

use crate::script::shelf_name;
use crate::shipped::{Shipped, NEWEST, NEWEST_CLOCK};

pub enum SetWord<'w> {
    Shipped(Shipped),
    Shelf(&'w str),
}

/// A board by its kind and level.
#[derive(Clone, Copy)]
pub enum OnBoard {
    Isa(u8),
    Clock(u8),
}

pub enum Command<'w> {
    Show(SetWord<'w>),
    Convert(SetWord<'w>),
    Analyze,
    Pack(SetWord<'w>, &'w str),
    Check(SetWord<'w>, SetWord<'w>),
    Counter(SetWord<'w>, SetWord<'w>),
    Save(OnBoard, u8, &'w str),
    Load(OnBoard, &'w str),
    Play(u8, &'w str),
    Drill(u8, u64, u32),
}

fn shelf(w: &str) -> Option<&str> {
    shelf_name(w.as_bytes())
}

fn set(w: &str) -> Option<SetWord<'_>> {
    match *w.as_bytes() {
        [b'@', n @ b'0'..=b'9'] if n - b'0' <= NEWEST => Some(SetWord::Shipped(Shipped::Isa(n - b'0'))),
        [b'@', b'c', n @ b'1'..=b'9'] if n - b'0' <= NEWEST_CLOCK => {
            Some(SetWord::Shipped(Shipped::Clock(n - b'0')))
        }
        _ => shelf(w).map(SetWord::Shelf),
    }
}

fn target(w: &str) -> Option<SetWord<'_>> {
    set(w).filter(|s| !matches!(s, SetWord::Shipped(Shipped::Clock(_))))
}

fn board(w: &str) -> Option<OnBoard> {
    match *w.as_bytes() {
        [b'i', b's', b'a', b'-', n @ b'1'..=b'9'] if n - b'0' <= NEWEST => Some(OnBoard::Isa(n - b'0')),
        [b'c', b'l', b'k', b'-', n @ b'1'..=b'9'] if n - b'0' <= NEWEST_CLOCK => {
            Some(OnBoard::Clock(n - b'0'))
        }
        _ => None,
    }
}

fn isa(w: &str) -> Option<u8> {
    match board(w)? {
        OnBoard::Isa(level) => Some(level),
        OnBoard::Clock(_) => None,
    }
}

/// Returns the number of the set of `save`, which is of the board's kind and at or above it.
fn saved_set(board: OnBoard, w: &str) -> Option<u8> {
    match (board, set(w)?) {
        (OnBoard::Isa(level), SetWord::Shipped(Shipped::Isa(s))) if s >= level => Some(s),
        (OnBoard::Clock(level), SetWord::Shipped(Shipped::Clock(s))) if s >= level => Some(s),
        _ => None,
    }
}

fn natural(w: &str) -> Option<u64> {
    let spelled = w.bytes().all(|c| c.is_ascii_digit()) && (w == "0" || !w.starts_with('0'));
    if spelled {
        w.parse().ok()
    } else {
        None
    }
}

/// Returns the command that the words say, if they have a listed form.
pub fn command<'w>(words: &[&'w str]) -> Option<Command<'w>> {
    Some(match *words {
        ["show", s] => Command::Show(set(s)?),
        ["convert", s] => Command::Convert(target(s)?),
        ["analyze"] => Command::Analyze,
        ["pack", s, values] => Command::Pack(set(s)?, shelf(values)?),
        ["check", old, new] => Command::Check(set(old)?, set(new)?),
        ["counter", old, new] => Command::Counter(set(old)?, set(new)?),
        ["save", b, s, script] => {
            let b = board(b)?;
            Command::Save(b, saved_set(b, s)?, shelf(script)?)
        }
        ["load", b, script] => Command::Load(board(b)?, shelf(script)?),
        ["play", b, script] => Command::Play(isa(b)?, shelf(script)?),
        ["drill", b, seed, count] => {
            let count = natural(count).filter(|&n| n <= 1_000_000)?;
            Command::Drill(isa(b)?, natural(seed)?, count as u32)
        }
        _ => return None,
    })
}
