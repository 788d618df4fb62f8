//! A board in a program: a guest's accesses, its interrupt, a byte on the serial line, and the board handed on by a stream. What can go
//! wrong is asked for too.

#[path = "../board.rs"]
mod board;

use board::{Answer, Board, Fault, Kind};

const LEVEL: u8 = 3;
const SET: u8 = 3;

fn tell(what: &str, answer: Result<Answer, Fault>) {
    match answer {
        Ok(answer) => println!("{what}: value {}, output {}, sent {:?}", answer.value, answer.output, answer.sent()),
        Err(fault) => println!("{what}: {fault}"),
    }
}

/// What a guest does first: the master's vectors from 8 on, all inputs open but the slave's, a tick each 10,000 clocks, FIFOs, and an
/// interrupt for each byte that comes.
fn start(board: &mut Board) -> Result<(), Fault> {
    let writes = [
        (0x20, 0x11),
        (0x21, 8),
        (0x21, 4),
        (0x21, 1),
        (0x21, 0xec),
        (0x43, 0x34),
        (0x40, 0x10),
        (0x40, 0x27),
        (0x3fa, 0xc1),
        (0x3f9, 1),
        (0x3fb, 3),
    ];
    for (port, value) in writes {
        board.write(1000, port, value)?;
    }
    Ok(())
}

/// The guest sends two bytes, takes a tick, and gets one byte of the line.
fn run(board: &mut Board, from: u64) -> Result<(), Fault> {
    board.write(from, 0x3f8, b'h')?;
    board.write(from, 0x3f8, b'i')?;
    tell("advance", board.advance(from + 9_000_000));
    tell("ack", board.ack());
    tell("eoi", board.write(from + 9_000_000, 0x20, 0x20));
    tell("receive", board.receive(from + 9_000_000, b'x'));
    tell("line status", board.read(from + 9_001_000, 0x3fd));
    println!("int {}, room {}, now {}, due {:?}", board.int(), board.room(), board.now(), board.due());
    Ok(())
}

fn wrong(board: &mut Board, stream: &[u8]) {
    tell("the past", board.read(0, 0x20));
    tell("no wire", board.wire(20_000_000, 2, true));
    println!("no counter: {:?}", board.output(3));
    println!("no set: {:?}", board.save(SET + 2, true).map(|stream| stream.len()));
    println!("cut: {:?}", board.restore(&stream[..stream.len() / 2]));
    let mut damaged = stream.to_vec();
    damaged[100] ^= 1;
    println!("damaged: {:?}", board.restore(&damaged));
    println!("no level: {:?}", Board::new(Kind::Clk, 3).map(|_| ()));
}

fn main() -> Result<(), Fault> {
    let mut board = Board::new(Kind::Isa, LEVEL)?;
    let mut other = Board::new(Kind::Isa, LEVEL)?;
    start(&mut board)?;
    run(&mut board, 2000)?;
    println!("saved without the description: {}", board.save(SET, false)?.len());
    let stream = board.save(SET, true)?;
    println!("saved: {}", stream.len());
    wrong(&mut board, &stream);
    println!("restored: {}", other.restore(&stream)?);
    drop(board);
    run(&mut other, 30_000_000)?;
    println!("OUT of counter 2: {}, port 60: {}", other.output(2)?, other.has_port(0x60));
    println!("character: {}", other.character());
    Ok(())
}
