//! The loader of streams.

use std::io::BufRead;

use crate::desc::{Count, Desc, DescSet, Device, Item, Kind, Sub};
use crate::stream::{Fault, Image, Reason, Reason::*, Refused, HEAD, MAX_TEXT};

/// Whether the sections of a stream have footers: all or none.
#[derive(Clone, Copy, PartialEq)]
enum Footers {
    Unknown,
    All,
    None,
}

struct Cursor<'r, R> {
    r: &'r mut R,
    /// The offset of the unit that is being read.
    at: u64,
    /// The device whose fields, subsections or footer are being read.
    section: Option<usize>,
    footers: Footers,
}

#[inline]
fn be(b: &[u8], width: usize) -> u64 {
    match width {
        1 => b[0] as u64,
        2 => u16::from_be_bytes(b[..2].try_into().unwrap()) as u64,
        4 => u32::from_be_bytes(b[..4].try_into().unwrap()) as u64,
        _ => u64::from_be_bytes(b[..8].try_into().unwrap()),
    }
}

impl<R: BufRead> Cursor<'_, R> {
    fn refuse<T>(&self, reason: Reason) -> Result<T, Fault> {
        self.refuse_in(self.section, reason)
    }

    fn refuse_in<T>(&self, section: Option<usize>, reason: Reason) -> Result<T, Fault> {
        Err(Fault::Refused(Refused { at: self.at, section, reason }))
    }

    #[inline]
    fn peek(&mut self) -> Result<&[u8], Fault> {
        self.r.fill_buf().map_err(|_| Fault::Read)
    }

    /// Fills `out`, or refuses as Truncated at the unit's first byte.
    fn fill(&mut self, out: &mut [u8]) -> Result<(), Fault> {
        let mut got = 0;
        while got < out.len() {
            let b = self.peek()?;
            if b.is_empty() {
                return self.refuse(Truncated);
            }
            let n = b.len().min(out.len() - got);
            out[got..got + n].copy_from_slice(&b[..n]);
            self.r.consume(n);
            got += n;
        }
        Ok(())
    }

    fn byte(&mut self) -> Result<u8, Fault> {
        let mut b = [0];
        self.fill(&mut b)?;
        Ok(b[0])
    }

    fn be32(&mut self) -> Result<u32, Fault> {
        let mut b = [0; 4];
        self.fill(&mut b)?;
        Ok(u32::from_be_bytes(b))
    }

    fn skip(&mut self, n: usize) -> Result<(), Fault> {
        let mut left = n;
        while left > 0 {
            let b = self.peek()?;
            if b.is_empty() {
                return self.refuse(Truncated);
            }
            let m = b.len().min(left);
            self.r.consume(m);
            left -= m;
        }
        self.at += n as u64;
        Ok(())
    }

    /// A number's cell; the place stays at its first byte.
    #[inline]
    fn number(&mut self, kind: Kind) -> Result<u64, Fault> {
        let w = kind.width();
        let b = self.peek()?;
        let raw = if b.len() >= w {
            let raw = be(b, w);
            self.r.consume(w);
            raw
        } else {
            let mut b = [0; 8];
            self.fill(&mut b[8 - w..])?;
            u64::from_be_bytes(b)
        };
        if kind == Kind::Bool && raw > 1 {
            return self.refuse(BadBool);
        }
        Ok(kind.widen(raw))
    }

    fn array(&mut self, kind: Kind, cells: &mut [u64]) -> Result<(), Fault> {
        let w = kind.width();
        let mut done = 0;
        while done < cells.len() {
            let b = self.peek()?;
            let m = (b.len() / w).min(cells.len() - done);
            if m == 0 {
                cells[done] = self.number(kind)?;
                self.at += w as u64;
                done += 1;
                continue;
            }
            let to = &mut cells[done..done + m];
            match kind {
                Kind::U64 | Kind::Timer | Kind::I64 => {
                    for (c, x) in to.iter_mut().zip(b.chunks_exact(8)) {
                        *c = u64::from_be_bytes(x.try_into().unwrap());
                    }
                }
                Kind::Bool => {
                    if let Some(k) = b[..m].iter().position(|&x| x > 1) {
                        self.at += k as u64;
                        return self.refuse(BadBool);
                    }
                    for (c, x) in to.iter_mut().zip(b) {
                        *c = *x as u64;
                    }
                }
                _ => {
                    for (c, x) in to.iter_mut().zip(b.chunks_exact(w)) {
                        *c = kind.widen(be(x, w));
                    }
                }
            }
            self.r.consume(m * w);
            self.at += (m * w) as u64;
            done += m;
        }
        Ok(())
    }

    /// The fields of a description into the cells, which begin at its first cell.
    fn fields(&mut self, set: &DescSet, d: &Desc, version: u32, cells: &mut [u64]) -> Result<(), Fault> {
        for f in &d.fields {
            if !f.present(version, cells) {
                continue;
            }
            match f.item {
                Item::Num(kind) if f.count == Count::One => {
                    let x = self.number(kind)?;
                    if f.least.is_some_and(|most| x > most as u64) {
                        return self.refuse(CountTooLarge);
                    }
                    cells[f.offset] = x;
                    self.at += kind.width() as u64;
                }
                Item::Num(kind) => {
                    let n = d.elements(f, cells);
                    self.array(kind, &mut cells[f.offset..f.offset + n])?;
                }
                Item::Equal(kind, value) => {
                    if self.number(kind)? != value as u64 {
                        return self.refuse(NotEqual);
                    }
                    self.at += kind.width() as u64;
                }
                Item::Unused(n) => self.skip(n as usize)?,
                Item::Struct(s) => {
                    let s = &set.structs[s as usize];
                    for i in 0..d.elements(f, cells) {
                        self.fields(set, s, s.version, &mut cells[f.offset + i * f.step..])?;
                    }
                }
            }
        }
        if !d.validate.iter().all(|t| t.holds(version, cells, &[])) {
            return self.refuse(Invalid);
        }
        Ok(())
    }

    /// Returns the byte that comes next, which stays.
    fn next_byte(&mut self) -> Result<u8, Fault> {
        match self.peek()?.first() {
            Some(&b) => Ok(b),
            None => self.refuse(Truncated),
        }
    }

    /// Reads the subsections and the footer of a section, if it has one.
    fn rest(&mut self, set: &DescSet, device: usize, id: u32, image: &mut Image) -> Result<(), Fault> {
        let d = &set.devices[device];
        let mut next = 0;
        loop {
            match self.next_byte()? {
                0x05 => {
                    let j = self.subsection(d, next, image)?;
                    let s = &d.subs[j];
                    let version = image.subs[j].unwrap_or(s.desc.version);
                    self.fields(set, &s.desc, version, &mut image.cells[s.base..])?;
                    next = j + 1;
                }
                0x7e if self.footers != Footers::None => {
                    self.r.consume(1);
                    if self.be32()? != id {
                        return self.refuse(BadFooter);
                    }
                    self.footers = Footers::All;
                    self.at += 5;
                    return Ok(());
                }
                _ if self.footers == Footers::All => return self.refuse(BadFooter),
                _ => {
                    self.footers = Footers::None;
                    return Ok(());
                }
            }
        }
    }

    /// Reads the head of a subsection, which is likely number `next`, and returns its number.
    fn subsection(&mut self, d: &Device, next: usize, image: &mut Image) -> Result<usize, Fault> {
        self.r.consume(1);
        let n = self.byte()? as usize;
        let mut name = [0; 255];
        self.fill(&mut name[..n])?;
        let version = self.be32()?;
        let is = |s: &Sub| s.desc.name.as_bytes() == &name[..n];
        let found = if d.subs.get(next).is_some_and(is) { Some(next) } else { d.subs.iter().position(is) };
        let Some(j) = found else { return self.refuse(UnknownSubsection) };
        let s = &d.subs[j];
        if version > s.desc.version {
            return self.refuse(TooNew);
        }
        if version < s.desc.minimum {
            return self.refuse(TooOld);
        }
        if image.subs[j].is_some() {
            return self.refuse(RepeatedSubsection);
        }
        image.subs[j] = Some(version);
        self.at += 6 + n as u64;
        Ok(j)
    }

    fn stream_head(&mut self) -> Result<(), Fault> {
        let mut b = [0; 4];
        self.fill(&mut b)?;
        if b != HEAD[..4] {
            return self.refuse(BadMagic);
        }
        self.at = 4;
        match self.be32()? {
            3 => self.at = 8,
            2 => return self.refuse(OldStream),
            _ => return self.refuse(BadVersion),
        }
        Ok(())
    }

    /// After the end mark: the end of input or one description section, skipped.
    fn trailer(&mut self) -> Result<(), Fault> {
        match self.peek()?.first() {
            None => return Ok(()),
            Some(6) => self.r.consume(1),
            Some(_) => return self.refuse(Trailing),
        }
        let n = self.be32()?;
        if n > MAX_TEXT {
            return self.refuse(DescriptionTooLong);
        }
        self.skip(n as usize)?;
        self.at += 5;
        Ok(())
    }

    /// Reads a configuration and returns the number of its machine.
    fn configuration(&mut self, machines: &[String]) -> Result<usize, Fault> {
        let n = self.be32()?;
        if n > 255 {
            return self.refuse(WrongMachine);
        }
        let mut name = [0; 255];
        let name = &mut name[..n as usize];
        self.fill(name)?;
        let Some(machine) = machines.iter().position(|m| m.as_bytes() == name) else {
            return self.refuse(WrongMachine);
        };
        self.at += 5 + n as u64;
        self.footers = Footers::All;
        Ok(machine)
    }

    /// Refuses a section start that isn't a whole section.
    fn partial<T>(&mut self) -> Result<T, Fault> {
        self.be32()?;
        let n = self.byte()? as usize;
        let mut name = [0; 255];
        self.fill(&mut name[..n])?;
        self.refuse(if &name[..n] == b"ram" { Ram } else { Iterative })
    }

    /// Reads a section, whose device is likely number `next`, and returns the device's number.
    fn section(
        &mut self,
        set: &DescSet,
        next: usize,
        came: &mut [bool],
        images: &mut [Image],
    ) -> Result<usize, Fault> {
        let id = self.be32()?;
        let n = self.byte()? as usize;
        let mut name = [0; 255];
        self.fill(&mut name[..n])?;
        let instance = self.be32()?;
        let version = self.be32()?;
        let is = |d: &Device| d.instance == instance && d.desc.name.as_bytes() == &name[..n];
        let found =
            if set.devices.get(next).is_some_and(is) { Some(next) } else { set.find(&name[..n], instance) };
        let Some(i) = found else { return self.refuse(UnknownSection) };
        let d = &set.devices[i];
        if came[i] {
            return self.refuse_in(found, RepeatedSection);
        }
        if version > d.desc.version {
            return self.refuse_in(found, TooNew);
        }
        if version < d.desc.minimum {
            return self.refuse_in(found, TooOld);
        }
        came[i] = true;
        let image = &mut images[i];
        image.version = version;
        image.subs.fill(None);
        image.cells.copy_from_slice(&d.defaults);
        self.at += 14 + n as u64;
        self.section = found;
        self.fields(set, &d.desc, version, &mut image.cells)?;
        self.rest(set, i, id, image)?;
        self.section = None;
        Ok(i)
    }
}

/// Loads one stream into `images`, one for each device, and returns the machine that it names and its length.
/// `machines` are the accepted ones.
pub fn load<R: BufRead>(
    set: &DescSet,
    machines: &[String],
    images: &mut [Image],
    r: &mut R,
) -> Result<(Option<usize>, u64), Fault> {
    let mut c = Cursor { r, at: 0, section: None, footers: Footers::Unknown };
    c.stream_head()?;
    let mut machine = None;
    let mut came = vec![false; set.devices.len()];
    let mut next = 0;
    let (mut first, mut configured) = (true, false);
    loop {
        let mark = c.byte()?;
        let was_first = std::mem::replace(&mut first, false);
        let after_configuration = std::mem::replace(&mut configured, false);
        match mark {
            0x00 => {
                let missing = came.iter().position(|&x| !x);
                if missing.is_some() {
                    return c.refuse_in(missing, MissingSection);
                }
                c.at += 1;
                break;
            }
            0x04 => next = c.section(set, next, &mut came, images)? + 1,
            0x07 if was_first => {
                machine = Some(c.configuration(machines)?);
                configured = true;
            }
            0x01 => return c.partial(),
            0x02 | 0x03 => return c.refuse(Iterative),
            0x08 => return c.refuse(Command),
            0x05 if after_configuration => return c.refuse(ConfigurationExtra),
            _ => return c.refuse(BadMark),
        }
    }
    c.trailer()?;
    Ok((machine, c.at))
}
