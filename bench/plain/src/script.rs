//! Scripts, which say line by line what happens to a board, and traces.

use crate::board::{Answer, Event, WIRES};
use crate::shipped::NEWEST;

#[derive(Debug, Clone, Copy)]
pub enum Reason {
    Form,
    Range,
    NoEnd,
}

/// A line of a script that is refused, counted from 1.
pub struct BadLine(pub u32, pub Reason);

/// A line of a session.
pub enum Line<'t> {
    Event(Event),
    Save(u8, &'t str),
    Restore(&'t str),
}

const MAX_WAIT: u64 = 1_000_000_000_000_000;

fn digit(c: u8) -> Option<u8> {
    match c {
        b'0'..=b'9' => Some(c - b'0'),
        b'a'..=b'f' => Some(c - b'a' + 10),
        _ => None,
    }
}

fn hex(s: &[u8], digits: usize) -> Result<u16, Reason> {
    if s.len() != digits {
        return Err(Reason::Form);
    }
    s.iter().try_fold(0, |n, &c| Some(n << 4 | digit(c)? as u16)).ok_or(Reason::Form)
}

/// Returns the number that `s` spells, `None` if it is negative or above 64 bits.
fn number(s: &[u8]) -> Result<Option<u64>, Reason> {
    let digits = s.strip_prefix(b"-").unwrap_or(s);
    if digits.is_empty() || !digits.iter().all(u8::is_ascii_digit) || digits[0] == b'0' && s.len() > 1 {
        return Err(Reason::Form);
    }
    if digits.len() < s.len() {
        return Ok(None);
    }
    Ok(digits.iter().try_fold(0u64, |n, &c| n.checked_mul(10)?.checked_add((c - b'0') as u64)))
}

fn event(l: &[u8]) -> Result<Event, Reason> {
    if l == b"ack" {
        return Ok(Event::Ack);
    }
    let space = l.iter().position(|&c| c == b' ').ok_or(Reason::Form)?;
    let rest = &l[space + 1..];
    match &l[..space] {
        b"in" => Ok(Event::Read { port: hex(rest, 4)? }),
        b"out" => match rest {
            [port @ .., b' ', _, _] => {
                Ok(Event::Write { port: hex(port, 4)?, value: hex(&rest[rest.len() - 2..], 2)? as u8 })
            }
            _ => Err(Reason::Form),
        },
        b"byte" => Ok(Event::Byte(hex(rest, 2)? as u8)),
        b"wait" => match number(rest)? {
            Some(n) if n <= MAX_WAIT => Ok(Event::Wait(n)),
            _ => Err(Reason::Range),
        },
        b"wire" => match rest {
            [n @ .., b' ', up @ (b'0' | b'1')] => match number(n)? {
                Some(n) if n < 16 && WIRES.contains(&(n as u8)) => {
                    Ok(Event::Wire { input: n as u8, up: *up == b'1' })
                }
                _ => Err(Reason::Range),
            },
            _ => Err(Reason::Form),
        },
        _ => Err(Reason::Form),
    }
}

/// Returns the name that `s` is, if it is one of the shelf.
pub fn shelf_name(s: &[u8]) -> Option<&str> {
    let letter = |c: &u8| c.is_ascii_alphanumeric() || matches!(c, b'_' | b'-' | b'.');
    let ok = (1..=64).contains(&s.len()) && s[0] != b'.' && s.iter().all(letter);
    if ok {
        std::str::from_utf8(s).ok()
    } else {
        None
    }
}

fn session_line(l: &[u8], level: u8) -> Result<Line<'_>, Reason> {
    if let Some(name) = l.strip_prefix(b"restore ") {
        return shelf_name(name).map(Line::Restore).ok_or(Reason::Form);
    }
    let Some(rest) = l.strip_prefix(b"save @") else {
        return event(l).map(Line::Event);
    };
    let space = rest.iter().position(|&c| c == b' ').ok_or(Reason::Form)?;
    let name = shelf_name(&rest[space + 1..]).ok_or(Reason::Form)?;
    match number(&rest[..space])? {
        Some(s) if (level as u64..=NEWEST as u64).contains(&s) => Ok(Line::Save(s as u8, name)),
        _ => Err(Reason::Range),
    }
}

/// Reads each line of `text` by `read`.
fn lines<'t, T>(text: &'t [u8], read: impl Fn(&'t [u8]) -> Result<T, Reason>) -> Result<Vec<T>, BadLine> {
    let mut out = Vec::with_capacity(text.len() / 8);
    let mut n = 0;
    for l in text.split_inclusive(|&c| c == b'\n') {
        n += 1;
        match l.strip_suffix(b"\n") {
            Some(l) => out.push(read(l).map_err(|r| BadLine(n, r))?),
            None => return Err(BadLine(n, read(l).err().unwrap_or(Reason::NoEnd))),
        }
    }
    Ok(out)
}

/// Returns the events of a script, or its first bad line.
pub fn read_events(text: &[u8]) -> Result<Vec<Event>, BadLine> {
    lines(text, event)
}

/// Returns the lines of a session of a board of `level`, or the first bad one.
pub fn read_session(text: &[u8], level: u8) -> Result<Vec<Line<'_>>, BadLine> {
    lines(text, |l| session_line(l, level))
}

fn put_hex(b: u8, out: &mut Vec<u8>) {
    const DIGITS: &[u8; 16] = b"0123456789abcdef";
    out.push(DIGITS[(b >> 4) as usize]);
    out.push(DIGITS[(b & 15) as usize]);
}

/// Appends the line of the trace.
pub fn put_answer(a: &Answer, out: &mut Vec<u8>) {
    match a.value {
        Some(v) => put_hex(v, out),
        None => out.extend_from_slice(b"--"),
    }
    out.extend_from_slice(if a.int { b" 1" } else { b" 0" });
    if !a.sent.bytes().is_empty() {
        out.push(b' ');
        a.sent.bytes().iter().for_each(|&b| put_hex(b, out));
    }
    out.push(b'\n');
}
