//! Sessions: events on a board, and its streams on the shelf.

use std::io::{self, Write};

use crate::board::{Board, Machine};
use crate::desc::DescSet;
use crate::restoring::restore;
use crate::saving::save;
use crate::script::{put_answer, Line};
use crate::shelf::{fetch, store, NotFetched, FILE_LIMIT};
use crate::shipped::{shipped, Shipped, NEWEST};
use crate::stream::{Fault, Image};

/// Why a session stops early.
pub enum Stopped {
    Shelf,
    Write(io::Error),
}

/// A session's board and what it keeps from line to line: sets with their images, made when first needed.
struct Session {
    board: Board,
    sets: [Option<(DescSet, Vec<Image>)>; NEWEST as usize],
    stream: Vec<u8>,
}

impl Session {
    fn set(&mut self, s: u8) -> &mut (DescSet, Vec<Image>) {
        self.sets[s as usize - 1].get_or_insert_with(|| {
            let set = shipped(Shipped::Isa(s));
            let images = Image::all(&set);
            (set, images)
        })
    }

    fn save(&mut self, s: u8, name: &str, out: &mut Vec<u8>) -> Result<(), Stopped> {
        let mut stream = std::mem::take(&mut self.stream);
        stream.clear();
        self.set(s);
        if let Some((set, images)) = &mut self.sets[s as usize - 1] {
            save(&self.board, s, set, images, &mut stream);
        }
        let stored = store(name, &stream);
        out.extend_from_slice(format!("saved {}\n", stream.len()).as_bytes());
        self.stream = stream;
        stored.map_err(|_| Stopped::Shelf)
    }

    fn restore(&mut self, name: &str, out: &mut Vec<u8>) -> Result<(), Stopped> {
        let bytes = match fetch(name, FILE_LIMIT) {
            Ok(bytes) => bytes,
            Err(NotFetched::Missing) => {
                out.extend_from_slice(b"missing\n");
                return Ok(());
            }
            Err(NotFetched::TooLarge) => {
                out.extend_from_slice(b"too large\n");
                return Ok(());
            }
            Err(NotFetched::Failed) => return Err(Stopped::Shelf),
        };
        let level = self.board.level;
        let (newest, images) = self.set(NEWEST);
        let line = match restore(level, newest, images, &mut &bytes[..]) {
            Ok((board, at)) => {
                self.board = board;
                format!("restored {at}\n")
            }
            Err(Fault::Refused(r)) => {
                format!("refused {} {} {}\n", r.at, newest.section(r.section), r.reason)
            }
            Err(Fault::Read) => unreachable!("bytes in memory can be read"),
        };
        out.extend_from_slice(line.as_bytes());
        Ok(())
    }
}

/// Plays a session on a board of `level`, and writes its trace to `to` in pieces of about `chunk` bytes.
pub fn play<W: Write>(level: u8, lines: &[Line], chunk: usize, to: &mut W) -> Result<(), Stopped> {
    let mut session =
        Session { board: Board::new(level), sets: [const { None }; NEWEST as usize], stream: Vec::new() };
    let mut out = Vec::with_capacity(chunk + 256);
    let mut stopped = Ok(());
    for line in lines {
        stopped = match line {
            Line::Event(e) => {
                put_answer(&session.board.event(*e), &mut out);
                Ok(())
            }
            Line::Save(s, name) => {
                let before = out.len();
                session.save(*s, name, &mut out).inspect_err(|_| out.truncate(before))
            }
            Line::Restore(name) => session.restore(name, &mut out),
        };
        if stopped.is_err() {
            break;
        }
        if out.len() >= chunk {
            to.write_all(&out).map_err(Stopped::Write)?;
            out.clear();
        }
    }
    to.write_all(&out).map_err(Stopped::Write)?;
    stopped
}
