//! The cells of boards, and their streams.

use crate::board::{Board, Machine};
use crate::clock::Clock;
use crate::desc::DescSet;
use crate::pic::Chip;
use crate::pit::Pit;
use crate::serial::{Fifo, Serial};
use crate::shipped::NEVER;
use crate::stream::Image;
use crate::write::write;

fn pic_cells(c: &Chip, s: u8, out: &mut Vec<u64>) {
    out.extend([c.irr, c.isr, c.imr, c.lines, c.lowest, c.base, c.init_state].map(u64::from));
    out.extend(
        [c.icw4, c.single, c.read_isr, c.poll, c.special_mask, c.auto_eoi, c.rotate, c.nested].map(u64::from),
    );
    if s >= 2 {
        out.push(c.elcr.into());
    }
    if s >= 4 {
        out.push(c.ltim.into());
    }
}

fn pit_cells(p: &Pit, s: u8, out: &mut Vec<u64>) {
    for c in &p.counters {
        out.extend([
            c.count as u64,
            c.mode as u64,
            c.rw as u64,
            c.bcd as u64,
            c.loaded as u64,
            c.load_time,
            c.read_high as u64,
            c.wlow_held as u64,
            c.wlow as u64,
            c.latched as u64,
            c.latch as u64,
        ]);
    }
    if s >= 2 {
        out.extend(p.counters.iter().map(|c| c.status_latched as u64));
        out.extend(p.counters.iter().map(|c| c.status as u64));
    }
}

/// Appends the first `n` bytes of a list as sixteen elements, the rest 0.
fn sixteen(f: &Fifo, n: usize, out: &mut Vec<u64>) {
    out.extend((0..16).map(|i| if i < n { f.get(i).unwrap_or(0) as u64 } else { 0 }));
}

fn serial_cells(p: &Serial, s: u8, now: u64, out: &mut Vec<u64>) {
    let id = p.ident(now);
    let held = |f: &Fifo| if p.fifo { 0 } else { f.get(0).unwrap_or(0) as u64 };
    let (tsr, due) = p.shift.unwrap_or((0, NEVER));
    out.extend([p.divisor as u64, p.ier as u64, id as u64, p.lcr as u64, p.mcr as u64, p.lsr() as u64]);
    out.extend([p.scr as u64, held(&p.rx), held(&p.tx), tsr as u64, due]);
    if s >= 2 {
        out.push(if p.fifo { 1 | (p.trigger as u64) << 6 } else { 0 });
    }
    out.push(if p.ier & 2 != 0 && p.thr_empty && id != 2 { 1 } else { -1i64 as u64 });
    if s >= 2 {
        for f in [&p.rx, &p.tx] {
            let n = if p.fifo && s < 4 { f.len() } else { 0 };
            out.push(n as u64);
            sixteen(f, n, out);
        }
    }
    if s >= 3 {
        out.push(p.timeout.unwrap_or(NEVER));
    }
    if s >= 4 {
        for f in [&p.rx, &p.tx] {
            let n = if p.fifo { f.len() } else { 0 };
            sixteen(f, n, out);
            out.extend([0, n as u64]);
        }
    }
}

/// Appends the cells of the clock chip under clock set `c`.
pub fn clock_cells(chip: &Clock, c: u8, out: &mut Vec<u64>) {
    out.push(chip.index.into());
    out.extend(chip.cmos.map(u64::from));
    if c >= 2 {
        out.push(chip.nmi_mask.into());
    }
    out.push(chip.pf.into());
}

/// Appends the cells of device `i` of a board under set `s`.
pub fn put_cells(b: &Board, i: usize, s: u8, out: &mut Vec<u64>) {
    match i {
        0 => out.push(b.now),
        1 => pic_cells(&b.pair.master, s, out),
        2 => pic_cells(&b.pair.slave, s, out),
        3 => pit_cells(&b.pit, s, out),
        _ => serial_cells(&b.serial, s, b.now, out),
    }
}

/// Appends the stream of the board under set `s` of its kind, by way of `images` of that set.
pub fn save<M: Machine>(b: &M, s: u8, set: &DescSet, images: &mut [Image], out: &mut Vec<u8>) {
    for (i, (image, d)) in images.iter_mut().zip(&set.devices).enumerate() {
        image.version = d.desc.version;
        image.cells.clear();
        b.put_cells(i, s, &mut image.cells);
        for (came, sub) in image.subs.iter_mut().zip(&d.subs) {
            let v = sub.desc.version;
            *came = sub.needed.holds(v, &image.cells[sub.base..], &image.cells).then_some(v);
        }
    }
    write(set, Some(&b.name()), images, out);
}
