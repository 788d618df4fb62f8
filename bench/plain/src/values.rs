//! The values text both ways.

use std::io::{self, Write};

use crate::desc::{Count, Desc, DescSet, Item, Kind};
use crate::stream::{put_element, put_number, Image};

struct Printer<'a, W> {
    set: &'a DescSet,
    line: Vec<u8>,
    out: &'a mut W,
}

impl<W: Write> Printer<'_, W> {
    fn cells(&mut self, d: &Desc, cells: &[u64]) -> io::Result<()> {
        for f in &d.fields {
            let kept = self.line.len();
            match f.item {
                Item::Num(kind) if f.count == Count::One => {
                    self.line.extend_from_slice(f.name.as_bytes());
                    self.number(kind, cells[f.offset])?;
                }
                Item::Num(kind) => {
                    for i in 0..d.elements(f, cells) {
                        put_element(&mut self.line, &f.name, Some(i));
                        self.number(kind, cells[f.offset + i])?;
                        self.line.truncate(kept);
                    }
                }
                Item::Struct(s) => {
                    let s = &self.set.structs[s as usize];
                    for i in 0..d.elements(f, cells) {
                        put_element(
                            &mut self.line,
                            &f.name,
                            if f.count == Count::One { None } else { Some(i) },
                        );
                        self.line.push(b'.');
                        self.cells(s, &cells[f.offset + i * f.step..])?;
                        self.line.truncate(kept);
                    }
                }
                _ => {}
            }
            self.line.truncate(kept);
        }
        Ok(())
    }

    fn number(&mut self, kind: Kind, cell: u64) -> io::Result<()> {
        self.line.extend_from_slice(b" = ");
        put_number(&mut self.line, kind.signed(), cell);
        self.line.push(b'\n');
        self.out.write_all(&self.line)
    }
}

pub fn print<W: Write>(
    set: &DescSet,
    machine: Option<&str>,
    images: &[Image],
    out: &mut W,
) -> io::Result<()> {
    if let Some(m) = machine {
        writeln!(out, "machine {m}")?;
    }
    let mut p = Printer { set, line: Vec::with_capacity(256), out };
    for (d, image) in set.devices.iter().zip(images) {
        writeln!(p.out, "section {} {} v{}", d.desc.name, d.instance, image.version)?;
        p.cells(&d.desc, &image.cells)?;
        for (s, came) in d.subs.iter().zip(&image.subs) {
            match came {
                Some(v) => writeln!(p.out, "sub {} v{}", s.desc.name, v)?,
                None => writeln!(p.out, "sub {} -", s.desc.name)?,
            }
            p.cells(&s.desc, &image.cells[s.base..])?;
        }
    }
    Ok(())
}

#[derive(Debug, Clone, Copy)]
pub enum Reason {
    Form,
    Number,
    Count,
    Absent,
    Invalid,
    Needed,
}

pub struct Bad {
    pub line: u32,
    pub reason: Reason,
}

struct Lines<'a> {
    set: &'a DescSet,
    text: &'a [u8],
    /// Lines taken.
    line: u32,
    path: Vec<u8>,
}

impl Lines<'_> {
    fn bad<T>(&self, reason: Reason) -> Result<T, Bad> {
        Err(Bad { line: self.line, reason })
    }

    /// Takes the line where it is exactly this one.
    fn is(&mut self, want: &[u8]) -> bool {
        let n = want.len();
        if self.text.len() > n && self.text[n] == b'\n' && &self.text[..n] == want {
            self.text = &self.text[n + 1..];
            self.line += 1;
            return true;
        }
        false
    }

    fn expect(&mut self, want: &[u8]) -> Result<(), Bad> {
        if self.is(want) {
            return Ok(());
        }
        self.line += 1;
        self.bad(Reason::Form)
    }

    /// Takes the line `PATH = NUMBER`.
    fn number(&mut self, kind: Kind) -> Result<u64, Bad> {
        self.line += 1;
        let n = self.path.len();
        let t = self.text;
        if !(t.starts_with(&self.path) && t[n..].starts_with(b" = ")) {
            return self.bad(Reason::Form);
        }
        let t = &t[n + 3..];
        let negative = t.first() == Some(&b'-');
        let mut at = negative as usize;
        let start = at;
        let mut x = 0u64;
        let mut fits = true;
        while let Some(c @ b'0'..=b'9') = t.get(at) {
            match x.checked_mul(10).and_then(|x| x.checked_add((c - b'0') as u64)) {
                Some(y) => x = y,
                None => fits = false,
            }
            at += 1;
        }
        let spelled = at > start && (t[start] != b'0' || at == start + 1 && !negative);
        if t.get(at) != Some(&b'\n') {
            let ended = t[at..].contains(&b'\n');
            return self.bad(if ended { Reason::Number } else { Reason::Form });
        }
        let value = if negative { -(x as i128) } else { x as i128 };
        if !spelled || !fits || !kind.holds(value) {
            return self.bad(Reason::Number);
        }
        self.text = &t[at + 1..];
        Ok(value as u64)
    }

    fn cells(&mut self, d: &Desc, cells: &mut [u64], alive: bool) -> Result<(), Bad> {
        for f in &d.fields {
            let here = alive && f.present(d.version, cells);
            let n = d.elements(f, cells);
            let kept = self.path.len();
            for i in 0..n {
                match f.item {
                    Item::Equal(..) | Item::Unused(_) => break,
                    _ => {}
                }
                put_element(&mut self.path, &f.name, if f.count == Count::One { None } else { Some(i) });
                match f.item {
                    Item::Num(kind) => {
                        let x = self.number(kind)?;
                        if f.least.is_some_and(|most| x > most as u64) {
                            return self.bad(Reason::Count);
                        }
                        if !here && x != f.default as u64 {
                            return self.bad(Reason::Absent);
                        }
                        cells[f.offset + i] = x;
                    }
                    Item::Struct(s) => {
                        let s = &self.set.structs[s as usize];
                        self.path.push(b'.');
                        self.cells(s, &mut cells[f.offset + i * f.step..], here)?;
                    }
                    _ => {}
                }
                self.path.truncate(kept);
            }
        }
        Ok(())
    }
}

/// The line of a section or subsection, and which it is.
struct Head {
    line: u32,
    device: usize,
    sub: Option<usize>,
}

impl Lines<'_> {
    fn machine(&mut self) -> Result<Option<usize>, Bad> {
        if !self.text.starts_with(b"machine ") {
            return Ok(None);
        }
        let set = self.set;
        let found = set.machines.iter().position(|m| self.is(format!("machine {m}").as_bytes()));
        match found {
            None => Err(Bad { line: 1, reason: Reason::Form }),
            machine => Ok(machine),
        }
    }

    fn device(&mut self, i: usize, image: &mut Image, heads: &mut Vec<Head>) -> Result<(), Bad> {
        let d = &self.set.devices[i];
        self.expect(format!("section {} {} v{}", d.desc.name, d.instance, d.desc.version).as_bytes())?;
        heads.push(Head { line: self.line, device: i, sub: None });
        self.cells(&d.desc, &mut image.cells, true)?;
        for (j, s) in d.subs.iter().enumerate() {
            if self.is(format!("sub {} v{}", s.desc.name, s.desc.version).as_bytes()) {
                image.subs[j] = Some(s.desc.version);
            } else {
                self.expect(format!("sub {} -", s.desc.name).as_bytes())?;
            }
            heads.push(Head { line: self.line, device: i, sub: Some(j) });
            self.cells(&s.desc, &mut image.cells[s.base..], true)?;
        }
        Ok(())
    }
}

/// Checks the validations of a section or subsection, and whether the subsection is there as it is needed.
fn judge(set: &DescSet, head: &Head, image: &Image) -> Result<(), Bad> {
    let bad = |reason| Err(Bad { line: head.line, reason });
    let d = &set.devices[head.device];
    let Some(j) = head.sub else {
        return if set.valid(&d.desc, d.desc.version, &image.cells) { Ok(()) } else { bad(Reason::Invalid) };
    };
    let s = &d.subs[j];
    let (own, came) = (&image.cells[s.base..], image.subs[j].is_some());
    if came && !set.valid(&s.desc, s.desc.version, own) {
        return bad(Reason::Invalid);
    }
    let needed = s.needed.holds(s.desc.version, own, &image.cells);
    let n = s.desc.cells;
    if needed != came || !needed && own[..n] != d.defaults[s.base..s.base + n] {
        return bad(Reason::Needed);
    }
    Ok(())
}

/// Returns the machine and the images of a values text, or its first bad line.
pub fn read(set: &DescSet, text: &[u8]) -> Result<(Option<usize>, Vec<Image>), Bad> {
    let mut l = Lines { set, text, line: 0, path: Vec::with_capacity(256) };
    let mut images = Image::all(set);
    let mut heads = Vec::new();
    let machine = l.machine()?;
    for (i, image) in images.iter_mut().enumerate() {
        l.device(i, image, &mut heads)?;
    }
    if !l.text.is_empty() {
        return Err(Bad { line: l.line + 1, reason: Reason::Form });
    }
    heads.iter().try_for_each(|head| judge(set, head, &images[head.device]))?;
    Ok((machine, images))
}
