//! Boards: the devices on one clock, and what an event does to them.

use crate::clock::Clock;
use crate::pic::PicPair;
use crate::pit::Pit;
use crate::serial::{Sent, Serial};
use crate::shipped::NEWEST;
use crate::stream::{Image, Reason};

/// The last moment, in nanoseconds.
pub const LAST: u64 = 4_000_000_000_000_000_000;
pub const WIRES: [u8; 13] = [1, 3, 5, 6, 7, 8, 9, 10, 11, 12, 13, 14, 15];

#[derive(Clone, Copy)]
pub enum Event {
    Read { port: u16 },
    Write { port: u16, value: u8 },
    Byte(u8),
    Wait(u64),
    Wire { input: u8, up: bool },
    Ack,
}

pub struct Answer {
    pub value: Option<u8>,
    pub int: bool,
    pub sent: Sent,
}

/// A board that streams can save and restore.
pub trait Machine: Sized {
    fn new(level: u8) -> Self;

    fn event(&mut self, e: Event) -> Answer;

    /// Returns the name of the machine in streams.
    fn name(&self) -> String;

    /// Appends the cells of device `i` under set `s` of the board's kind.
    fn put_cells(&self, i: usize, s: u8, cells: &mut Vec<u64>);

    /// Returns the board of images of the newest set, or the device and the reason why there is none.
    fn of_images(level: u8, images: &[Image]) -> Result<Self, (usize, Reason)>;
}

/// A board `isa-1` to `isa-4`.
pub struct Board {
    pub level: u8,
    pub now: u64,
    pub pair: PicPair,
    pub pit: Pit,
    pub serial: Serial,
}

impl Board {
    pub fn of_level(level: u8) -> Board {
        Board { level, now: 0, pair: PicPair::new(level), pit: Pit::new(level), serial: Serial::new(level) }
    }

    fn read(&mut self, port: u16) -> u8 {
        match port {
            0x20 | 0x21 | 0xa0 | 0xa1 => self.pair.read(port),
            0x4d0 | 0x4d1 if self.level >= 2 => self.pair.read(port),
            0x40..=0x42 => self.pit.read((port - 0x40) as usize, self.now),
            0x3f8..=0x3ff => self.serial.read(port - 0x3f8, self.now),
            _ => 0xff,
        }
    }

    fn write(&mut self, port: u16, v: u8) {
        match port {
            0x20 | 0x21 | 0xa0 | 0xa1 => self.pair.write(port, v),
            0x4d0 | 0x4d1 if self.level >= 2 => self.pair.write(port, v),
            0x40..=0x43 => self.pit.write(port, v, self.now),
            0x3f8..=0x3ff => self.serial.write(port - 0x3f8, v, self.now),
            _ => {}
        }
    }

    pub fn step(&mut self, e: Event) -> Answer {
        let mut wires = self.pair.master.lines as u16 | (self.pair.slave.lines as u16) << 8;
        let (mut value, mut sent, mut edge) = (None, Sent::default(), false);
        match e {
            Event::Read { port } => value = Some(self.read(port)),
            Event::Write { port, value } => self.write(port, value),
            Event::Byte(b) => self.serial.byte_in(b, self.now),
            Event::Wait(ns) => {
                let from = self.now;
                self.now = (from + ns).min(LAST);
                sent = self.serial.advance(self.now);
                edge = self.pit.counters[0].edge(from, self.now);
            }
            Event::Wire { input, up } => wires = wires & !(1 << input) | (up as u16) << input,
            Event::Ack => value = Some(self.pair.ack()),
        }
        self.pair.slave.take_lines((wires >> 8) as u8, 0);
        let inputs = wires as u8 & 0xea | self.inputs();
        self.pair.master.take_lines(inputs, edge as u8);
        Answer { value, int: self.pair.master.winner().is_some(), sent }
    }

    /// Returns the inputs of the master that devices drive.
    pub fn inputs(&self) -> u8 {
        self.pit.counters[0].out(self.now) as u8
            | (self.pair.slave.winner().is_some() as u8) << 2
            | ((self.serial.ident(self.now) != 1) as u8) << 4
    }
}

impl Machine for Board {
    fn new(level: u8) -> Board {
        Board::of_level(level)
    }

    fn event(&mut self, e: Event) -> Answer {
        self.step(e)
    }

    fn name(&self) -> String {
        format!("isa-{}", self.level)
    }

    fn put_cells(&self, i: usize, s: u8, cells: &mut Vec<u64>) {
        crate::saving::put_cells(self, i, s, cells);
    }

    fn of_images(level: u8, images: &[Image]) -> Result<Board, (usize, Reason)> {
        crate::restoring::board_of(level, images)
    }
}

/// A board `clk-1` or `clk-2`: a board of the newest level, whose input 8 the clock chip drives.
pub struct ClockBoard {
    pub clock: Clock,
    pub board: Board,
}

impl Machine for ClockBoard {
    fn new(level: u8) -> ClockBoard {
        ClockBoard { clock: Clock::new(level), board: Board::of_level(NEWEST) }
    }

    fn event(&mut self, e: Event) -> Answer {
        let mut first = Answer { value: None, int: false, sent: Sent::default() };
        match e {
            Event::Read { port: port @ (0x70 | 0x71) } => first.value = Some(self.clock.read(port)),
            Event::Write { port: port @ (0x70 | 0x71), value } => self.clock.write(port, value),
            Event::Wire { input: 8, .. } => {}
            e => {
                let from = self.board.now;
                first = self.board.step(e);
                if self.board.now > from {
                    self.clock.advance(from, self.board.now);
                }
            }
        }
        let up = self.clock.line();
        Answer { int: self.board.step(Event::Wire { input: 8, up }).int, ..first }
    }

    fn name(&self) -> String {
        format!("clk-{}", self.clock.version)
    }

    fn put_cells(&self, i: usize, s: u8, cells: &mut Vec<u64>) {
        match i {
            0 => crate::saving::clock_cells(&self.clock, s, cells),
            _ => crate::saving::put_cells(&self.board, i - 1, NEWEST, cells),
        }
    }

    fn of_images(level: u8, images: &[Image]) -> Result<ClockBoard, (usize, Reason)> {
        crate::restoring::clock_board_of(level, images)
    }
}
