//! The commands of `vmstate` in plain Rust over `std`, to measure the proved program against. Nothing here is proved.

use std::fmt::Display;
use std::fs::File;
use std::io::{self, BufReader, BufWriter, ErrorKind, Read, Write};
use std::os::fd::FromRawFd;

use plain::board::{Board, ClockBoard, Machine};
use plain::desc::DescSet;
use plain::setfile::FileFault;
use plain::shelf::{fetch, NotFetched, FILE_LIMIT, SCRIPT_LIMIT};
use plain::shipped::{shipped, Shipped, NEWEST, NEWEST_CLOCK};
use plain::stream::{Fault, Image};
use plain::words::{self, Command, OnBoard, SetWord};
use plain::{
    analyze, check, convert, counter, drill, load, play, restoring, saving, script, setfile, values, write,
};

const CHUNK: usize = 1 << 16;

/// A status other than 0 and its line.
struct Stop(u8, String);
type Res<T> = Result<T, Stop>;

fn stop<T>(status: u8, line: impl Display) -> Res<T> {
    Err(Stop(status, line.to_string()))
}

impl From<io::Error> for Stop {
    fn from(_: io::Error) -> Stop {
        Stop(6, "write fault".into())
    }
}

/// Returns a standard stream as a file; std's own handles hide descriptors that are closed.
fn standard(fd: i32) -> File {
    // SAFETY: each descriptor is taken once, and nothing else uses it
    unsafe { File::from_raw_fd(fd) }
}

/// Standard input, which reads again if it is interrupted.
struct Input(File);

impl Read for Input {
    fn read(&mut self, buf: &mut [u8]) -> io::Result<usize> {
        loop {
            match self.0.read(buf) {
                Err(e) if e.kind() == ErrorKind::Interrupted => {}
                r => return r,
            }
        }
    }
}

fn input() -> BufReader<Input> {
    BufReader::with_capacity(CHUNK, Input(standard(0)))
}

fn fetched(name: &str, limit: u64) -> Res<Vec<u8>> {
    fetch(name, limit).or_else(|e| match e {
        NotFetched::Missing => stop(8, format!("not there: {name}")),
        NotFetched::TooLarge => stop(9, format!("too large: {name}")),
        NotFetched::Failed => stop(7, "shelf fault"),
    })
}

/// A set that words name: fetched first, read later.
enum Fetched<'w> {
    Shipped(Shipped),
    Text(&'w str, Vec<u8>),
}

impl<'w> Fetched<'w> {
    fn new(w: SetWord<'w>) -> Res<Fetched<'w>> {
        Ok(match w {
            SetWord::Shipped(s) => Fetched::Shipped(s),
            SetWord::Shelf(name) => Fetched::Text(name, fetched(name, FILE_LIMIT)?),
        })
    }

    /// Returns the set, which lives until the process ends.
    fn read(&self) -> Res<&'static DescSet> {
        let set = match self {
            Fetched::Shipped(s) => Ok(shipped(*s)),
            Fetched::Text(name, text) => setfile::read_set(text).or_else(|f| match f {
                FileFault::Syntax => stop(3, format!("set {name}: Syntax")),
                FileFault::Shape(path) => stop(3, format!("set {name}: Shape at {path}")),
                FileFault::IllFormed(rule, place) => stop(3, format!("set {name}: rule {rule} at {place}")),
            }),
        };
        set.map(kept)
    }
}

/// Leaves a value to the end of the process, which frees it at once.
fn kept<T>(x: T) -> &'static T {
    Box::leak(Box::new(x))
}

fn bad_line<T>(bad: script::BadLine) -> Res<T> {
    stop(3, format!("script line {}: {:?}", bad.0, bad.1))
}

fn refused(set: &DescSet, f: Fault) -> Stop {
    match f {
        Fault::Read => Stop(5, "read fault".into()),
        Fault::Refused(r) => Stop(1, r.line(set)),
    }
}

fn incompatible(m: &check::Mismatch) -> String {
    format!("not compatible: rule {} at {} against {}", m.rule, m.in_old, m.in_new)
}

fn show(set: SetWord) -> Res<()> {
    let set = Fetched::new(set)?.read()?;
    let mut images = Image::all(set);
    let (machine, _) =
        load::load(set, &set.machines, &mut images, &mut input()).map_err(|f| refused(set, f))?;
    let mut out = BufWriter::with_capacity(CHUNK, standard(1));
    values::print(set, machine.map(|m| &*set.machines[m]), &images, &mut out)?;
    Ok(out.flush()?)
}

fn pack(set: SetWord, values: &str) -> Res<()> {
    let set = Fetched::new(set)?;
    let text = fetched(values, FILE_LIMIT)?;
    let set = set.read()?;
    let (machine, images) =
        values::read(set, &text).or_else(|b| stop(3, format!("values line {}: {:?}", b.line, b.reason)))?;
    let mut out = Vec::with_capacity(CHUNK);
    write::write(set, machine.map(|m| &*set.machines[m]), &images, &mut out);
    Ok(standard(1).write_all(&out)?)
}

fn both(old: SetWord, new: SetWord) -> Res<(&'static DescSet, &'static DescSet)> {
    let (old, new) = (Fetched::new(old)?, Fetched::new(new)?);
    Ok((old.read()?, new.read()?))
}

fn check(old: SetWord, new: SetWord) -> Res<()> {
    let (old, new) = both(old, new)?;
    check::check(old, new).or_else(|m| stop(4, incompatible(&m)))?;
    Ok(standard(1).write_all(b"compatible\n")?)
}

fn counter(old: SetWord, new: SetWord) -> Res<()> {
    let (old, new) = both(old, new)?;
    let mut out = BufWriter::with_capacity(CHUNK, standard(1));
    match check::check(old, new) {
        Ok(()) => out.write_all(b"compatible\n")?,
        Err(m) => {
            writeln!(out, "{}", incompatible(&m))?;
            match counter::counter(old, new, &m) {
                None => out.write_all(b"no state\n")?,
                Some(state) => {
                    writeln!(out, "{}", state.refused.line(new))?;
                    values::print(old, state.machine, &state.images, &mut out)?;
                }
            }
        }
    }
    Ok(out.flush()?)
}

fn convert(to: SetWord) -> Res<()> {
    let to = Fetched::new(to)?.read()?;
    let newest = kept(shipped(Shipped::Isa(NEWEST)));
    check::check(to, newest).or_else(|m| stop(4, incompatible(&m)))?;
    let mut images = Image::all(newest);
    let (machine, _) =
        load::load(newest, &newest.machines, &mut images, &mut input()).map_err(|f| refused(newest, f))?;
    let machine = machine.map(|m| &*newest.machines[m]);
    let backs = convert::convert(to, newest, machine, &mut images)
        .or_else(|lost| stop(11, convert::lost_line(newest, &lost)))?;
    let mut out = Vec::new();
    write::write(to, machine, &backs, &mut out);
    Ok(standard(1).write_all(&out)?)
}

fn analyze() -> Res<()> {
    let unlisted = |u: analyze::Unlisted| Stop(1, format!("refused at {} in -: {}", u.0, u.1));
    let read = analyze::read_input(&mut Input(standard(0))).or_else(|_| stop(5, "read fault"))?;
    let text = read.and_then(|input| analyze::analyze(&input)).map_err(unlisted)?;
    Ok(standard(1).write_all(&text)?)
}

fn save<M: Machine>(level: u8, s: u8, set: Shipped, name: &str) -> Res<()> {
    let events = script::read_events(&fetched(name, SCRIPT_LIMIT)?).or_else(bad_line)?;
    let mut board = M::new(level);
    for e in events {
        board.event(e);
    }
    let set = shipped(set);
    let mut out = Vec::new();
    saving::save(&board, s, &set, &mut Image::all(&set), &mut out);
    Ok(standard(1).write_all(&out)?)
}

fn load<M: Machine>(level: u8, newest: Shipped, name: &str) -> Res<()> {
    let events = script::read_events(&fetched(name, SCRIPT_LIMIT)?).or_else(bad_line)?;
    let newest = shipped(newest);
    let (mut board, _) = restoring::restore::<M, _>(level, &newest, &mut Image::all(&newest), &mut input())
        .map_err(|f| refused(&newest, f))?;
    let mut fd = standard(1);
    let mut out = Vec::with_capacity(CHUNK + 64);
    for e in events {
        script::put_answer(&board.event(e), &mut out);
        if out.len() >= CHUNK {
            fd.write_all(&out)?;
            out.clear();
        }
    }
    Ok(fd.write_all(&out)?)
}

fn play(level: u8, name: &str) -> Res<()> {
    let text = fetched(name, SCRIPT_LIMIT)?;
    let lines = script::read_session(&text, level).or_else(bad_line)?;
    play::play(level, &lines, CHUNK, &mut standard(1)).or_else(|stopped| match stopped {
        play::Stopped::Shelf => stop(7, "shelf fault"),
        play::Stopped::Write(e) => Err(e.into()),
    })
}

fn run() -> Res<()> {
    let words: Option<Vec<String>> = std::env::args_os().skip(1).map(|w| w.into_string().ok()).collect();
    let words = words.unwrap_or_default();
    let words: Vec<&str> = words.iter().map(String::as_str).collect();
    let Some(command) = words::command(&words) else { return stop(2, "bad words") };
    match command {
        Command::Show(set) => show(set),
        Command::Convert(set) => convert(set),
        Command::Analyze => analyze(),
        Command::Pack(set, values) => pack(set, values),
        Command::Check(old, new) => check(old, new),
        Command::Counter(old, new) => counter(old, new),
        Command::Save(OnBoard::Isa(level), s, script) => save::<Board>(level, s, Shipped::Isa(s), script),
        Command::Save(OnBoard::Clock(level), s, script) => {
            save::<ClockBoard>(level, s, Shipped::Clock(s), script)
        }
        Command::Load(OnBoard::Isa(level), script) => load::<Board>(level, Shipped::Isa(NEWEST), script),
        Command::Load(OnBoard::Clock(level), script) => {
            load::<ClockBoard>(level, Shipped::Clock(NEWEST_CLOCK), script)
        }
        Command::Play(level, script) => play(level, script),
        Command::Drill(level, seed, count) => {
            Ok(standard(1).write_all(drill::drill(level, seed, count).as_bytes())?)
        }
    }
}

fn main() {
    let status = match run() {
        Ok(()) => 0,
        Err(Stop(status, line)) => match standard(2).write_all(format!("{line}\n").as_bytes()) {
            Ok(()) => status,
            Err(_) => 6,
        },
    };
    std::process::exit(status as i32);
}
