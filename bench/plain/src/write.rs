//! The writer of streams.

use crate::desc::{Desc, DescSet, Item, Kind};
use crate::describe::describe;
use crate::stream::{Image, HEAD};

fn put_be32(out: &mut Vec<u8>, n: u32) {
    out.extend_from_slice(&n.to_be_bytes());
}

#[inline]
fn put(out: &mut Vec<u8>, kind: Kind, cell: u64) {
    let b = cell.to_be_bytes();
    match kind.width() {
        1 => out.push(b[7]),
        2 => out.extend_from_slice(&b[6..]),
        4 => out.extend_from_slice(&b[4..]),
        _ => out.extend_from_slice(&b),
    }
}

fn put_fields(set: &DescSet, d: &Desc, version: u32, cells: &[u64], out: &mut Vec<u8>) {
    for f in &d.fields {
        if !f.present(version, cells) {
            continue;
        }
        match f.item {
            Item::Num(kind) => {
                let n = d.elements(f, cells);
                for &c in &cells[f.offset..f.offset + n] {
                    put(out, kind, c);
                }
            }
            Item::Equal(kind, value) => put(out, kind, value as u64),
            Item::Unused(n) => out.resize(out.len() + n as usize, 0),
            Item::Struct(s) => {
                let s = &set.structs[s as usize];
                for i in 0..d.elements(f, cells) {
                    put_fields(set, s, s.version, &cells[f.offset + i * f.step..], out);
                }
            }
        }
    }
}

/// Appends the stream of these images, from its head to its end mark.
pub fn write_bare(set: &DescSet, machine: Option<&str>, images: &[Image], out: &mut Vec<u8>) {
    out.extend_from_slice(&HEAD);
    if let Some(m) = machine {
        out.push(0x07);
        put_be32(out, m.len() as u32);
        out.extend_from_slice(m.as_bytes());
    }
    for (i, (d, image)) in set.devices.iter().zip(images).enumerate() {
        out.push(0x04);
        put_be32(out, i as u32);
        out.push(d.desc.name.len() as u8);
        out.extend_from_slice(d.desc.name.as_bytes());
        put_be32(out, d.instance);
        put_be32(out, image.version);
        put_fields(set, &d.desc, image.version, &image.cells, out);
        for (s, came) in d.subs.iter().zip(&image.subs) {
            if let Some(version) = *came {
                out.push(0x05);
                out.push(s.desc.name.len() as u8);
                out.extend_from_slice(s.desc.name.as_bytes());
                put_be32(out, version);
                put_fields(set, &s.desc, version, &image.cells[s.base..], out);
            }
        }
        out.push(0x7e);
        put_be32(out, i as u32);
    }
    out.push(0x00);
}

/// Appends the stream of these images with its description section.
pub fn write(set: &DescSet, machine: Option<&str>, images: &[Image], out: &mut Vec<u8>) {
    write_bare(set, machine, images, out);
    out.extend_from_slice(&[0x06, 0, 0, 0, 0]);
    let from = out.len();
    describe(set, images, out);
    let n = (out.len() - from) as u32;
    out[from - 4..from].copy_from_slice(&n.to_be_bytes());
}
