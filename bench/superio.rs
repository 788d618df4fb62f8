//! The serial port of vm-superio, one access again and again, to count what it executes: superio EVENT COUNT PORT=VALUE..
//! It has no time: a byte that is written leaves at once.

use std::hint::black_box;
use vm_superio::{Serial, Trigger};

struct Quiet;

impl Trigger for Quiet {
    type E = std::io::Error;

    fn trigger(&self) -> Result<(), Self::E> {
        Ok(())
    }
}

fn main() {
    let words: Vec<String> = std::env::args().collect();
    let count: u64 = words[2].parse().expect("a number");
    let mut serial = Serial::new(Quiet, std::io::sink());
    for word in &words[3..] {
        let (port, value) = word.split_once('=').expect("PORT=VALUE");
        let (port, value) = (u16::from_str_radix(port, 16).expect("a port"), u8::from_str_radix(value, 16).expect("a byte"));
        if (0x3f8..=0x3ff).contains(&port) {
            serial.write((port - 0x3f8) as u8, value).expect("a write");
        }
    }
    let mut sum = 0;
    for _ in 0..count {
        match words[1].as_bytes()[0] {
            b'l' => sum += serial.read(black_box(5)) as u64,
            _ => serial.write(black_box(0), black_box(0x41)).expect("a write"),
        }
    }
    println!("{sum}");
}
