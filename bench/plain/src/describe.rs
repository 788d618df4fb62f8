//! The description of a stream by itself.

use crate::desc::{Count, Desc, DescSet, Item};
use crate::stream::{put_element, put_number, Image};

struct Describer<'a> {
    set: &'a DescSet,
    path: Vec<u8>,
    out: &'a mut Vec<u8>,
    first: bool,
}

impl Describer<'_> {
    fn entry(&mut self, size: usize, word: &str) {
        self.out.extend_from_slice(if self.first { b"{\"name\":\"" } else { b",{\"name\":\"" });
        self.first = false;
        self.out.extend_from_slice(&self.path);
        self.out.extend_from_slice(b"\",\"size\":");
        put_number(self.out, false, size as u64);
        self.out.extend_from_slice(b",\"type\":\"");
        self.out.extend_from_slice(word.as_bytes());
        self.out.push(b'"');
    }

    fn fields(&mut self, d: &Desc, version: u32, cells: &[u64], alive: bool) {
        for f in &d.fields {
            let here = alive && f.present(version, cells);
            let single = f.count == Count::One;
            let n = d.elements(f, cells);
            let kept = self.path.len();
            for i in 0..n {
                put_element(&mut self.path, &f.name, if single { None } else { Some(i) });
                match f.item {
                    Item::Struct(s) => {
                        let s = &self.set.structs[s as usize];
                        self.path.push(b'.');
                        self.fields(s, s.version, &cells[f.offset + i * f.step..], here);
                    }
                    Item::Num(kind) if here => {
                        self.entry(kind.width(), kind.name());
                        self.out.push(b'}');
                    }
                    Item::Num(kind) => {
                        self.entry(0, kind.name());
                        self.out.extend_from_slice(b",\"value\":");
                        put_number(self.out, kind.signed(), f.default as u64);
                        self.out.push(b'}');
                    }
                    Item::Equal(kind, _) if here => {
                        self.entry(kind.width(), "equal");
                        self.out.push(b'}');
                    }
                    Item::Unused(n) if here => {
                        self.entry(n as usize, "unused");
                        self.out.push(b'}');
                    }
                    _ => {}
                }
                self.path.truncate(kept);
            }
        }
    }

    fn list(&mut self, d: &Desc, version: u32, cells: &[u64], alive: bool) {
        self.out.extend_from_slice(b"{\"fields\":[");
        self.first = true;
        self.fields(d, version, cells, alive);
        self.out.push(b']');
    }
}

/// Appends the text that describes the stream of these images.
pub fn describe(set: &DescSet, images: &[Image], out: &mut Vec<u8>) {
    let mut w = Describer { set, path: Vec::new(), out, first: true };
    w.out.extend_from_slice(b"{\"devices\":[");
    for (i, (d, image)) in set.devices.iter().zip(images).enumerate() {
        if i > 0 {
            w.out.push(b',');
        }
        w.list(&d.desc, image.version, &image.cells, true);
        w.out.extend_from_slice(b",\"instance_id\":");
        put_number(w.out, false, d.instance as u64);
        w.out.extend_from_slice(b",\"name\":\"");
        w.out.extend_from_slice(d.desc.name.as_bytes());
        w.out.extend_from_slice(b"\",\"subsections\":[");
        for (j, (s, came)) in d.subs.iter().zip(&image.subs).enumerate() {
            if j > 0 {
                w.out.push(b',');
            }
            w.list(&s.desc, s.desc.version, &image.cells[s.base..], came.is_some());
            w.out.extend_from_slice(b",\"name\":\"");
            w.out.extend_from_slice(s.desc.name.as_bytes());
            w.out.extend_from_slice(if came.is_some() { b"\",\"sent\":true" } else { b"\",\"sent\":false" });
            w.out.extend_from_slice(b",\"version\":");
            put_number(w.out, false, s.desc.version as u64);
            w.out.push(b'}');
        }
        w.out.extend_from_slice(b"],\"version\":");
        put_number(w.out, false, d.desc.version as u64);
        w.out.push(b'}');
    }
    w.out.extend_from_slice(b"]}");
}
