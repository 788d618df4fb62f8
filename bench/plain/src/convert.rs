//! The way back: the state of a stream of the newest set under an older one.

use crate::check::Shown;
use crate::desc::{Desc, DescSet, Device, Field, Item, Part};
use crate::restoring::{ser, Ring};
use crate::stream::Image;

/// What would be lost: a device and a cell of the newest set, a device without cells, or the machine.
pub enum Lost {
    Cell(usize, usize),
    Device(usize),
    Machine,
}

/// Where the cells of a device of the older set are in the newest set's.
type Partners = Vec<Option<usize>>;

struct Pairing<'a> {
    to: &'a DescSet,
    new: &'a DescSet,
    partners: Partners,
}

impl Pairing<'_> {
    /// Pairs the present fields of two descriptions, whose cells begin at `at` and `from`.
    fn fields(&mut self, old: (&Desc, u32, usize), new: (&Desc, u32, usize)) {
        let ((d, v, at), (e, w, from)) = (old, new);
        let olds = Shown::new(d, v, Part::Set).present;
        let news = Shown::new(e, w, Part::Set).present;
        for ((_, f, _), (_, g, _)) in olds.iter().zip(&news) {
            self.pair(f, at + f.offset, g, from + g.offset);
        }
    }

    fn pair(&mut self, f: &Field, at: usize, g: &Field, from: usize) {
        let n = f.times().min(g.times()) as usize;
        match (f.item, g.item) {
            (Item::Num(a), Item::Num(b)) if a == b => {
                for i in 0..n {
                    self.partners[at + i] = Some(from + i);
                }
            }
            (Item::Struct(a), Item::Struct(b)) => {
                let (s, t) = (&self.to.structs[a as usize], &self.new.structs[b as usize]);
                self.fields((s, s.version, at), (t, t.version, from));
                // the elements are alike, so the first one's partners serve for all
                for i in 1..n {
                    for c in 0..f.step {
                        self.partners[at + i * f.step + c] = self.partners[at + c].map(|p| p + i * g.step);
                    }
                }
            }
            _ => {}
        }
    }
}

fn partners(to: &DescSet, d: &Device, new: &DescSet, e: &Device) -> Partners {
    let mut p = Pairing { to, new, partners: vec![None; d.defaults.len()] };
    let v = d.desc.version;
    p.fields((&d.desc, v, 0), (&e.desc, v, 0));
    for s in &d.subs {
        if let Some(t) = e.subs.iter().find(|t| t.desc.name == s.desc.name) {
            let v = s.desc.version;
            p.fields((&s.desc, v, s.base), (&t.desc, v, t.base));
        }
    }
    p.partners
}

/// Goes through the cells of a description that are in the bytes, and calls `each` with the field, all cells and
/// the cell's number; the cells of the description begin at `base`.
fn sent_cells(
    set: &DescSet,
    d: &Desc,
    version: u32,
    base: usize,
    cells: &mut [u64],
    each: &mut impl FnMut(&Field, &mut [u64], usize),
) {
    for f in &d.fields {
        if !f.present(version, &cells[base..]) {
            continue;
        }
        let first = base + f.offset;
        match f.item {
            Item::Num(_) => (0..d.elements(f, &cells[base..])).for_each(|i| each(f, cells, first + i)),
            Item::Struct(s) => {
                let s = &set.structs[s as usize];
                for i in 0..d.elements(f, &cells[base..]) {
                    sent_cells(set, s, s.version, first + i * f.step, cells, each);
                }
            }
            _ => {}
        }
    }
}

/// Returns the image of `d` that takes its cells from `source` by way of `partners`.
fn come_back(to: &DescSet, d: &Device, source: &[u64], partners: &Partners) -> Image {
    let mut cells = d.defaults.clone();
    let mut take = |f: &Field, cells: &mut [u64], c: usize| {
        if let Some(p) = partners[c] {
            if f.least.is_none_or(|most| source[p] <= most as u64) {
                cells[c] = source[p];
            }
        }
    };
    sent_cells(to, &d.desc, d.desc.version, 0, &mut cells, &mut take);
    for s in &d.subs {
        sent_cells(to, &s.desc, s.desc.version, s.base, &mut cells, &mut take);
    }
    let needed =
        |cells: &[u64], s: &crate::desc::Sub| s.needed.holds(s.desc.version, &cells[s.base..], cells);
    for s in &d.subs {
        if !needed(&cells, s) {
            let all = s.base..s.base + s.desc.cells;
            cells[all.clone()].copy_from_slice(&d.defaults[all]);
        }
    }
    let subs = d.subs.iter().map(|s| needed(&cells, s).then_some(s.desc.version)).collect();
    Image { version: d.desc.version, subs, cells }
}

/// Returns the cells of `e` that the newest set would read of what `image` writes.
fn carried(to: &DescSet, d: &Device, e: &Device, image: &mut Image, partners: &Partners) -> Vec<u64> {
    let mut there = e.defaults.clone();
    let mut give = |_: &Field, cells: &mut [u64], c: usize| {
        if let Some(p) = partners[c] {
            there[p] = cells[c];
        }
    };
    sent_cells(to, &d.desc, image.version, 0, &mut image.cells, &mut give);
    for (s, came) in d.subs.iter().zip(&image.subs) {
        if let Some(v) = *came {
            sent_cells(to, &s.desc, v, s.base, &mut image.cells, &mut give);
        }
    }
    there
}

fn is_port(d: &Device) -> bool {
    d.instance == 0 && d.desc.name == "serial"
}

/// Puts the bytes of a port's rings into its arrays, which are all that an older set has.
fn recast(cells: &mut [u64]) {
    for (count, first) in [(ser::RX_COUNT, ser::RX_RING), (ser::TX_COUNT, ser::TX_RING)] {
        let ring = Ring::at(cells, first);
        if cells[count] == 0 && ring.number > 0 && ring.holds() {
            let bytes: Vec<u8> = ring.bytes().collect();
            cells[first..first + 18].fill(0);
            cells[count] = bytes.len() as u64;
            for (c, b) in cells[count + 1..].iter_mut().zip(bytes) {
                *c = b.into();
            }
        }
    }
}

/// Returns whether the image is valid under `set`.
pub fn is_valid(set: &DescSet, d: &Device, image: &Image) -> bool {
    let subs = d.subs.iter().zip(&image.subs);
    set.valid(&d.desc, image.version, &image.cells)
        && subs
            .into_iter()
            .all(|(s, came)| came.is_none_or(|v| set.valid(&s.desc, v, &image.cells[s.base..])))
}

/// Returns the images under `to` of the images of the newest set, or what would be lost first.
pub fn convert(
    to: &DescSet,
    new: &DescSet,
    machine: Option<&str>,
    images: &mut [Image],
) -> Result<Vec<Image>, Lost> {
    let to_arrays =
        to.devices.iter().any(|d| is_port(d) && d.subs.iter().all(|s| s.desc.name != "serial/ring"));
    let mut backs: Vec<Option<Image>> = to.devices.iter().map(|_| None).collect();
    for (k, (e, image)) in new.devices.iter().zip(images).enumerate() {
        if to_arrays && is_port(e) {
            recast(&mut image.cells);
        }
        let Some(i) = to.find(e.desc.name.as_bytes(), e.instance) else { continue };
        let d = &to.devices[i];
        let partners = partners(to, d, new, e);
        let mut back = come_back(to, d, &image.cells, &partners);
        let there = carried(to, d, e, &mut back, &partners);
        if let Some(c) = image.cells.iter().zip(&there).position(|(a, b)| a != b) {
            return Err(Lost::Cell(k, c));
        }
        backs[i] = Some(back);
    }
    let backs: Vec<Image> = backs.into_iter().flatten().collect();
    for (k, e) in new.devices.iter().enumerate() {
        let Some(i) = to.find(e.desc.name.as_bytes(), e.instance) else { continue };
        if !is_valid(to, &to.devices[i], &backs[i]) {
            return Err(if e.defaults.is_empty() { Lost::Device(k) } else { Lost::Cell(k, 0) });
        }
    }
    match machine {
        Some(m) if !to.machines.iter().any(|n| n == m) => Err(Lost::Machine),
        _ => Ok(backs),
    }
}

/// Appends the path of cell `at` of a description, counted from its first.
fn put_path(set: &DescSet, d: &Desc, at: usize, path: &mut Vec<u8>) {
    for f in &d.fields {
        let cells = f.step * f.times() as usize;
        if (f.offset..f.offset + cells).contains(&at) {
            let i = (at - f.offset) / f.step;
            let index = (f.count != crate::desc::Count::One).then_some(i);
            crate::stream::put_element(path, &f.name, index);
            if let Item::Struct(s) = f.item {
                path.push(b'.');
                put_path(set, &set.structs[s as usize], at - f.offset - i * f.step, path);
            }
            return;
        }
    }
}

/// Returns the line that says what would be lost, by the names of the newest set.
pub fn lost_line(new: &DescSet, lost: &Lost) -> String {
    let (k, path) = match *lost {
        Lost::Machine => return "would lose - machine".into(),
        Lost::Device(k) => (k, b"-".to_vec()),
        Lost::Cell(k, c) => {
            let d = &new.devices[k];
            let mut path = Vec::new();
            match d.subs.iter().rfind(|s| s.base <= c) {
                Some(s) => put_path(new, &s.desc, c - s.base, &mut path),
                None => put_path(new, &d.desc, c, &mut path),
            }
            (k, path)
        }
    };
    format!("would lose {} {}", new.section(Some(k)), String::from_utf8_lossy(&path))
}
