//! Loads a snapshot, refuses a damaged one with its offset, writes the state of a board for an older program, and keeps what a session
//! saved for another one: `embed SET STREAM SAVED`.

mod vmstate;

use std::{env, fs, io, process::ExitCode};

fn tell(what: &str, set: &[u8], stream: &[u8]) {
    let answer = vmstate::call(&["show", "set"], stream, &[("set", set)], 16);
    println!("{what}: status {}", answer.status);
    print!("{}", String::from_utf8_lossy(&answer.out));
    print!("{}", String::from_utf8_lossy(&answer.notes));
}

// The state of a board under an older set, or what would be lost.
fn rewrite(target: &str, saved: &[u8]) {
    let answer = vmstate::call(&["convert", target], saved, &[], 8192);
    println!("under {target}: status {}, {} bytes", answer.status, answer.out.len());
    print!("{}", String::from_utf8_lossy(&answer.notes));
}

// Plays a script on a board isa-2, and returns the files that it saved.
fn play(script: &str, files: &[(&str, &[u8])]) -> Vec<(String, Vec<u8>)> {
    let mut all = vec![("script", script.as_bytes())];
    all.extend(files);
    let (answer, stored) = vmstate::call_stored(&["play", "isa-2", "script"], &[], &all);
    println!("session: status {}, {} files", answer.status, stored.len());
    print!("{}", String::from_utf8_lossy(&answer.out));
    print!("{}", String::from_utf8_lossy(&answer.notes));
    stored
}

// A session writes a byte to the serial port and saves its board. Another restores it, and the byte leaves its port.
fn sessions() {
    let saved = play("out 03f8 68\nsave @2 box\n", &[]);
    for (name, bytes) in &saved {
        println!("{name}: {} bytes", bytes.len());
        play("restore box\nwait 10000000\n", &[(name, bytes)]);
    }
}

fn main() -> io::Result<ExitCode> {
    let words: Vec<String> = env::args().skip(1).collect();
    let [set, stream, saved] = words.as_slice() else {
        eprintln!("usage: embed SET STREAM SAVED");
        return Ok(ExitCode::from(2));
    };
    let (set, stream, saved) = (fs::read(set)?, fs::read(stream)?, fs::read(saved)?);
    tell("whole", &set, &stream);
    tell("damaged", &set, &stream[..stream.len() - stream.len() / 4]);
    rewrite("@3", &saved);
    rewrite("@1", &saved);
    sessions();
    Ok(ExitCode::SUCCESS)
}
