//! The rules of well-formed sets.

use std::collections::HashSet;

use crate::desc::{Atom, Count, Desc, DescSet, Device, Item, Kind::*, Part, Place, Sub, Test};

/// A rule that fails, and where.
pub struct IllFormed(pub u8, pub Place);

fn name_ok(name: &str, most: usize) -> bool {
    (1..=most).contains(&name.len())
        && name.bytes().all(|c| c.is_ascii_alphanumeric() || matches!(c, b'_' | b'-' | b'.'))
}

fn size(t: &Test) -> (u32, u32) {
    match t {
        Test::Not(a) => {
            let (n, d) = size(a);
            (n + 1, d + 1)
        }
        Test::And(a, b) | Test::Or(a, b) => {
            let (n, d) = size(a);
            let (m, e) = size(b);
            (n + m + 1, d.max(e) + 1)
        }
        _ => (1, 1),
    }
}

fn too_big(t: &Test) -> bool {
    let (nodes, depth) = size(t);
    nodes > 64 || depth > 16
}

fn all_atoms(t: &Test, ok: &dyn Fn(&Atom) -> bool) -> bool {
    match t {
        Test::Cell(a) => ok(a),
        Test::Not(a) => all_atoms(a, ok),
        Test::And(a, b) | Test::Or(a, b) => all_atoms(a, ok) && all_atoms(b, ok),
        _ => true,
    }
}

fn may_be_named(d: &Desc, k: u32) -> bool {
    match d.fields.get(k as usize) {
        Some(f) => {
            matches!(f.item, Item::Num(_))
                && f.count == Count::One
                && f.test.is_none()
                && f.since <= d.minimum
        }
        None => false,
    }
}

fn own_ok(d: &Desc, t: &Test, below: usize) -> bool {
    all_atoms(t, &|a| !a.parent && (a.field as usize) < below && may_be_named(d, a.field))
}

/// The rules that fail at one place, as bits; the lowest is reported.
#[derive(Default)]
struct Bad(u16);

impl Bad {
    fn when(&mut self, rule: u8, fails: bool) {
        self.0 |= (fails as u16) << rule;
    }
    fn at(self, place: Place) -> Result<(), IllFormed> {
        if self.0 == 0 {
            Ok(())
        } else {
            Err(IllFormed(self.0.trailing_zeros() as u8, place))
        }
    }
}

/// Returns for each field the least capacity that it counts.
fn least_capacities(d: &Desc) -> Vec<i128> {
    let mut least: Vec<i128> = vec![i128::MAX; d.fields.len()];
    for f in &d.fields {
        if let Count::Counted { by, capacity } = f.count {
            let l = &mut least[by as usize];
            *l = (*l).min(capacity as i128);
        }
    }
    least
}

/// Adds what fails of field `k` but for its names.
fn check_field(d: &Desc, k: usize, struct_limit: usize, least: i128, bad: &mut Bad) {
    let f = &d.fields[k];
    if let Some(t) = &f.test {
        bad.when(4, !own_ok(d, t, k));
        bad.when(7, too_big(t));
    }
    match f.count {
        Count::Counted { by, capacity } => {
            let kind = matches!(d.fields[by as usize].item, Item::Num(U8 | U16 | U32));
            bad.when(4, !((by as usize) < k && may_be_named(d, by) && kind));
            bad.when(8, capacity < 1);
        }
        Count::Fixed(n) => bad.when(8, n < 1),
        Count::One => {}
    }
    match f.item {
        Item::Num(kind) => bad.when(6, !kind.holds(f.default)),
        Item::Equal(kind, value) => bad.when(6, f.default != 0 || !kind.holds(value)),
        Item::Unused(n) => {
            bad.when(6, f.default != 0);
            bad.when(7, !(1..=4096).contains(&n));
        }
        Item::Struct(s) => {
            bad.when(5, s as usize >= struct_limit);
            bad.when(6, f.default != 0);
        }
    }
    bad.when(6, f.default > least);
    bad.when(7, f.former.len() > 8);
    bad.when(8, matches!(f.item, Item::Equal(..) | Item::Unused(_)) && f.count != Count::One);
}

fn check_fields(d: &Desc, part: Part, struct_limit: usize) -> Result<(), IllFormed> {
    let least = least_capacities(d);
    let mut seen: HashSet<&str> = HashSet::with_capacity(d.fields.len());
    for (k, f) in d.fields.iter().enumerate() {
        let mut bad = Bad::default();
        for n in std::iter::once(&f.name).chain(&f.former) {
            bad.when(1, !name_ok(n, 32));
            bad.when(2, !seen.insert(n));
        }
        check_field(d, k, struct_limit, least[k], &mut bad);
        bad.at(Place(part, Some(k)))?;
    }
    let mut bad = Bad::default();
    for t in &d.validate {
        bad.when(4, !own_ok(d, t, d.fields.len()));
        bad.when(7, too_big(t));
    }
    bad.at(Place(part, None))
}

fn items(d: &Desc, per_struct: &[u64]) -> u64 {
    d.fields.iter().fold(0u64, |n, f| {
        let one = match f.item {
            Item::Struct(s) => per_struct[s as usize],
            _ => 1,
        };
        n.saturating_add(one.saturating_mul(f.times()))
    })
}

fn check_structs(set: &DescSet) -> Result<(), IllFormed> {
    let mut depths: Vec<u32> = Vec::new();
    let mut names: HashSet<&str> = HashSet::new();
    for (i, s) in set.structs.iter().enumerate() {
        let deepest = s
            .fields
            .iter()
            .filter_map(|f| match f.item {
                Item::Struct(n) => depths.get(n as usize).copied(),
                _ => None,
            })
            .max()
            .unwrap_or(0);
        depths.push(deepest + 1);
        let mut bad = Bad::default();
        bad.when(1, !name_ok(&s.name, 100));
        bad.when(2, !names.insert(&s.name));
        bad.when(3, s.minimum > s.version);
        bad.when(7, s.fields.len() > 256 || s.validate.len() > 16 || depths[i] > 4);
        bad.when(8, s.fields.is_empty());
        bad.at(Place(Part::Struct(i), None))?;
        check_fields(s, Part::Struct(i), i)?;
    }
    Ok(())
}

/// Checks the subsection `s` of `d` itself; `is_new` says that no earlier one has its name.
fn check_sub(d: &Device, s: &Sub, is_new: bool, part: Part) -> Result<(), IllFormed> {
    let tail = s.desc.name.strip_prefix(&*d.desc.name).and_then(|t| t.strip_prefix('/'));
    let needed = all_atoms(&s.needed, &|a| may_be_named(if a.parent { &d.desc } else { &s.desc }, a.field));
    let mut bad = Bad::default();
    bad.when(1, !tail.is_some_and(|t| name_ok(t, 64)));
    bad.when(2, !is_new);
    bad.when(3, s.desc.minimum > s.desc.version);
    bad.when(4, !needed);
    bad.when(7, s.desc.fields.len() > 256 || s.desc.validate.len() > 16 || too_big(&s.needed));
    bad.at(Place(part, None))
}

fn check_devices(set: &DescSet) -> Result<(), IllFormed> {
    let mut devices: HashSet<(&str, u32)> = HashSet::new();
    for (i, d) in set.devices.iter().enumerate() {
        let mut bad = Bad::default();
        bad.when(1, !name_ok(&d.desc.name, 100));
        bad.when(2, !devices.insert((&d.desc.name, d.instance)));
        bad.when(3, d.desc.minimum > d.desc.version);
        bad.when(7, d.desc.fields.len() > 256 || d.desc.validate.len() > 16 || d.subs.len() > 32);
        bad.at(Place(Part::Device(i), None))?;
        check_fields(&d.desc, Part::Device(i), set.structs.len())?;
        let mut subs: HashSet<&str> = HashSet::new();
        for (j, s) in d.subs.iter().enumerate() {
            check_sub(d, s, subs.insert(&s.desc.name), Part::Sub(i, j))?;
            check_fields(&s.desc, Part::Sub(i, j), set.structs.len())?;
        }
    }
    Ok(())
}

/// Returns the set, laid out, or the first failing place with its lowest rule.
pub fn well_formed(set: DescSet) -> Result<DescSet, IllFormed> {
    let whole = Place(Part::Set, None);
    let mut bad = Bad::default();
    let mut seen = HashSet::new();
    for m in &set.machines {
        bad.when(1, !name_ok(m, 64));
        bad.when(2, !seen.insert(m));
    }
    bad.when(7, set.machines.len() > 16 || set.structs.len() > 64 || set.devices.len() > 64);
    bad.at(whole)?;
    check_structs(&set)?;
    check_devices(&set)?;
    let mut per_struct: Vec<u64> = Vec::new();
    for s in &set.structs {
        let n = items(s, &per_struct);
        per_struct.push(n);
    }
    let total = set
        .devices
        .iter()
        .flat_map(|d| std::iter::once(&d.desc).chain(d.subs.iter().map(|s| &s.desc)))
        .fold(0u64, |n, d| n.saturating_add(items(d, &per_struct)));
    let mut bad = Bad::default();
    bad.when(7, total > 16384);
    bad.at(whole)?;
    Ok(set.finish())
}
