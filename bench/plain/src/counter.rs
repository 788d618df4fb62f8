//! A state that an older set writes and a newer one refuses.

use crate::check::{Mismatch, Shown};
use crate::convert::is_valid;
use crate::desc::{Count, DescSet, Device, Item, Part, Place};
use crate::load::load;
use crate::stream::{Fault, Image, Refused};
use crate::write::write_bare;

/// A state, the machine that its stream names, and where and why the newer set refuses it.
pub struct State<'s> {
    pub machine: Option<&'s str>,
    pub images: Vec<Image>,
    pub refused: Refused,
}

/// Returns whether the older set may write an image without subsections, whose numbers are normal.
fn is_ready(set: &DescSet, d: &Device, image: &Image) -> bool {
    let needed = |s: &crate::desc::Sub| s.needed.holds(s.desc.version, &image.cells[s.base..], &image.cells);
    !d.subs.iter().any(needed) && is_valid(set, d, image)
}

/// Returns the refusal of the stream of `images`, if the older set may write it and the newer one refuses it.
fn refusal(old: &DescSet, new: &DescSet, machine: Option<&str>, images: &[Image]) -> Option<Refused> {
    if !old.devices.iter().zip(images).all(|(d, image)| is_ready(old, d, image)) {
        return None;
    }
    let mut stream = Vec::new();
    write_bare(old, machine, images, &mut stream);
    match load(new, &new.machines, &mut Image::all(new), &mut &stream[..]) {
        Err(Fault::Refused(r)) => Some(r),
        _ => None,
    }
}

/// Returns the images at their defaults but for one number, which is one above what the newer set has room for.
fn raised(old: &DescSet, new: &DescSet, m: &Mismatch) -> Option<Vec<Image>> {
    let (Place(Part::Device(i), Some(j)), Place(Part::Device(k), Some(l))) = (m.in_old, m.in_new) else {
        return None;
    };
    let (d, e) = (&old.devices[i], &new.devices[k]);
    let (number, room) = match (d.desc.fields[j].count, e.desc.fields[l].count) {
        (Count::Counted { by, .. }, Count::Counted { capacity, .. }) => (by as usize, capacity),
        (Count::One, _) => {
            let hidden = Shown::new(&e.desc, d.desc.version, Part::Device(k)).hidden;
            (j, *hidden.get(l).filter(|&&room| room != u32::MAX)?)
        }
        _ => return None,
    };
    let f = &d.desc.fields[number];
    let z = room as u64 + 1;
    let Item::Num(kind) = f.item else { return None };
    let mut images = Image::all(old);
    let cells = &mut images[i].cells;
    if !kind.holds(z.into()) || f.least.is_some_and(|most| z > most as u64) {
        return None;
    }
    cells[f.offset] = z;
    f.present(d.desc.version, cells).then_some(images)
}

/// Returns the first state that shows the mismatch, if one of the two that are tried does.
pub fn counter<'s>(old: &'s DescSet, new: &DescSet, m: &Mismatch) -> Option<State<'s>> {
    let lacking = || old.machines.iter().find(|&m| !new.machines.contains(m)).map(|m| &**m);
    let machine = if m.rule == 1 { lacking() } else { None };
    let tried = |images: Vec<Image>| {
        let refused = refusal(old, new, machine, &images)?;
        Some(State { machine, images, refused })
    };
    tried(Image::all(old)).or_else(|| if m.rule == 11 { tried(raised(old, new, m)?) } else { None })
}
