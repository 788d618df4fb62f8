//! Compatibility of an old and a new set.

use std::collections::HashSet;

use crate::desc::{Count, Desc, DescSet, Field, Item, Part, Place, Test};

pub struct Mismatch {
    pub rule: u8,
    pub in_old: Place,
    pub in_new: Place,
}

type Res = Result<(), Mismatch>;

fn fail(rule: u8, in_old: Place, in_new: Place) -> Res {
    Err(Mismatch { rule, in_old, in_new })
}

#[derive(PartialEq)]
pub enum Reduced {
    True,
    False,
    Left(Test),
}

/// What is left of a test at a version, naming fields by position among the present ones.
fn reduce(t: &Test, v: u32, position: &[u32]) -> Reduced {
    use Reduced::*;
    let truth = |b| if b { True } else { False };
    match t {
        Test::AtLeast(n) => truth(v >= *n),
        Test::Below(n) => truth(v < *n),
        Test::Cell(a) => {
            let field = position.get(a.field as usize).copied().unwrap_or(a.field);
            Left(Test::Cell(crate::desc::Atom { field, offset: 0, cut: 0, ..*a }))
        }
        Test::Not(a) => match reduce(a, v, position) {
            True => False,
            False => True,
            Left(a) => Left(Test::Not(Box::new(a))),
        },
        Test::And(a, b) => match (reduce(a, v, position), reduce(b, v, position)) {
            (False, _) | (_, False) => False,
            (True, x) | (x, True) => x,
            (Left(a), Left(b)) => Left(Test::And(Box::new(a), Box::new(b))),
        },
        Test::Or(a, b) => match (reduce(a, v, position), reduce(b, v, position)) {
            (True, _) | (_, True) => True,
            (False, x) | (x, False) => x,
            (Left(a), Left(b)) => Left(Test::Or(Box::new(a), Box::new(b))),
        },
    }
}

/// A description at a version: its present fields with their remaining tests.
pub struct Shown<'a> {
    d: &'a Desc,
    part: Part,
    pub present: Vec<(usize, &'a Field, Reduced)>,
    position: Vec<u32>,
    /// The least capacity of the arrays that aren't present, by their counter; empty if there is none.
    pub hidden: Vec<u32>,
}

impl<'a> Shown<'a> {
    pub fn new(d: &'a Desc, v: u32, part: Part) -> Shown<'a> {
        let n = d.fields.len();
        let mut s =
            Shown { d, part, present: Vec::with_capacity(n), position: vec![u32::MAX; n], hidden: vec![] };
        for (k, f) in d.fields.iter().enumerate() {
            // what a test names stands earlier, so its position is known
            let left = match &f.test {
                None if f.since <= v => Reduced::True,
                None => Reduced::False,
                Some(t) => reduce(t, v, &s.position),
            };
            if left != Reduced::False {
                s.position[k] = s.present.len() as u32;
                s.present.push((k, f, left));
            } else if let Count::Counted { by, capacity } = f.count {
                s.hidden.resize(n, u32::MAX);
                let h = &mut s.hidden[by as usize];
                *h = (*h).min(capacity);
            }
        }
        s
    }

    fn place(&self, k: Option<usize>) -> Place {
        Place(self.part, k)
    }
}

struct Checker<'a> {
    old: &'a DescSet,
    new: &'a DescSet,
    done: HashSet<(u32, u32)>,
}

pub fn check(old: &DescSet, new: &DescSet) -> Res {
    let whole = Place(Part::Set, None);
    if !old.machines.iter().all(|m| new.machines.contains(m)) {
        return fail(1, whole, whole);
    }
    let find = |i: usize, d: &crate::desc::Device, set: &DescSet| {
        let is = |e: &crate::desc::Device| e.instance == d.instance && e.desc.name == d.desc.name;
        if set.devices.get(i).is_some_and(is) {
            Some(i)
        } else {
            set.devices.iter().position(is)
        }
    };
    let mut pairs = Vec::with_capacity(old.devices.len());
    for (i, d) in old.devices.iter().enumerate() {
        match find(i, d, new) {
            Some(k) => pairs.push(k),
            None => return fail(2, Place(Part::Device(i), None), whole),
        }
    }
    for (k, d) in new.devices.iter().enumerate() {
        if find(k, d, old).is_none() {
            return fail(3, whole, Place(Part::Device(k), None));
        }
    }
    let mut c = Checker { old, new, done: HashSet::new() };
    pairs.into_iter().enumerate().try_for_each(|(i, k)| c.device(i, k))
}

impl Checker<'_> {
    fn device(&mut self, i: usize, k: usize) -> Res {
        let (od, nd) = (&self.old.devices[i], &self.new.devices[k]);
        let (po, pn) = (Part::Device(i), Part::Device(k));
        let v = od.desc.version;
        if !(nd.desc.minimum..=nd.desc.version).contains(&v) {
            return fail(4, Place(po, None), Place(pn, None));
        }
        self.fields(Shown::new(&od.desc, v, po), v, Shown::new(&nd.desc, v, pn), v)?;
        for (j, s) in od.subs.iter().enumerate() {
            let so = Part::Sub(i, j);
            let Some(m) = nd.subs.iter().position(|t| t.desc.name == s.desc.name) else {
                return fail(13, Place(so, None), Place(pn, None));
            };
            let t = &nd.subs[m];
            let sn = Part::Sub(k, m);
            let v = s.desc.version;
            if !(t.desc.minimum..=t.desc.version).contains(&v) {
                return fail(14, Place(so, None), Place(sn, None));
            }
            self.fields(Shown::new(&s.desc, v, so), v, Shown::new(&t.desc, v, sn), v)?;
        }
        Ok(())
    }

    fn fields(&mut self, o: Shown, ov: u32, n: Shown, nv: u32) -> Res {
        for at in 0..o.present.len().max(n.present.len()) {
            let (Some(old), Some(new)) = (o.present.get(at), n.present.get(at)) else {
                return match o.present.get(at) {
                    Some((k, ..)) => fail(5, o.place(Some(*k)), n.place(None)),
                    None => fail(6, o.place(None), n.place(Some(n.present[at].0))),
                };
            };
            if let Some(rule) = field_rule(&o, old, &n, new) {
                return fail(rule, o.place(Some(old.0)), n.place(Some(new.0)));
            }
            match (old.1.item, new.1.item) {
                (Item::Struct(a), Item::Struct(b)) if !self.done.contains(&(a, b)) => self.structs(a, b)?,
                _ => {}
            }
        }
        if !n.d.validate.is_empty() {
            let olds: Vec<Reduced> = o.d.validate.iter().map(|t| reduce(t, ov, &o.position)).collect();
            for t in &n.d.validate {
                let r = reduce(t, nv, &n.position);
                if r != Reduced::True && !olds.contains(&r) {
                    return fail(15, o.place(None), n.place(None));
                }
            }
        }
        Ok(())
    }

    fn structs(&mut self, a: u32, b: u32) -> Res {
        let (s, t) = (&self.old.structs[a as usize], &self.new.structs[b as usize]);
        let old = Shown::new(s, s.version, Part::Struct(a as usize));
        let new = Shown::new(t, t.version, Part::Struct(b as usize));
        self.fields(old, s.version, new, t.version)?;
        self.done.insert((a, b));
        Ok(())
    }
}

fn same_counts(o: &Shown, of: &Field, n: &Shown, nf: &Field) -> bool {
    match (of.count, nf.count) {
        (Count::One, Count::One) => true,
        (Count::Fixed(a), Count::Fixed(b)) => a == b,
        (Count::Counted { by: a, .. }, Count::Counted { by: b, .. }) => {
            o.position[a as usize] == n.position[b as usize]
        }
        _ => false,
    }
}

fn same_kinds(of: &Field, nf: &Field) -> bool {
    match (of.item, nf.item) {
        (Item::Num(a), Item::Num(b)) | (Item::Equal(a, _), Item::Equal(b, _)) => a == b,
        (Item::Unused(a), Item::Unused(b)) => a == b,
        (Item::Struct(_), Item::Struct(_)) => true,
        _ => false,
    }
}

/// Returns whether the newer side has less room than the older, for an array or for what a number counts.
fn is_smaller(of: &Field, n: &Shown, nk: usize, nf: &Field) -> bool {
    match (of.count, nf.count, of.item) {
        (Count::Counted { capacity: a, .. }, Count::Counted { capacity: b, .. }, _) => b < a,
        (Count::One, _, Item::Num(kind)) if !n.hidden.is_empty() => {
            let bound = of.least.map_or(kind.range().1, |m| m as i128);
            let room = n.hidden[nk];
            room != u32::MAX && (room as i128) < bound
        }
        _ => false,
    }
}

/// Returns the first of the rules 7 to 12 that fails at two fields of one position.
fn field_rule(
    o: &Shown,
    old: &(usize, &Field, Reduced),
    n: &Shown,
    new: &(usize, &Field, Reduced),
) -> Option<u8> {
    let ((_, of, ot), (nk, nf, nt)) = (old, new);
    let loose = matched_by_unused(of, nf);
    if !loose && !same_counts(o, of, n, nf) {
        return Some(7);
    }
    if !loose && !same_kinds(of, nf) {
        return Some(8);
    }
    if ot != nt {
        return Some(9);
    }
    if loose {
        return None;
    }
    if of.name != nf.name && !nf.former.contains(&of.name) {
        return Some(10);
    }
    if is_smaller(of, n, *nk, nf) {
        return Some(11);
    }
    match (of.item, nf.item) {
        (Item::Equal(_, a), Item::Equal(_, b)) if a != b => Some(12),
        _ => None,
    }
}

/// Returns whether `n` is unused bytes, as many as the constant or the numbers of `o` take.
fn matched_by_unused(o: &Field, n: &Field) -> bool {
    let Item::Unused(bytes) = n.item else { return false };
    let times = match o.count {
        Count::One => 1,
        Count::Fixed(n) => n as u64,
        Count::Counted { .. } => return false,
    };
    match o.item {
        Item::Equal(kind, _) => kind.width() as u64 == bytes as u64,
        Item::Num(kind) => kind.width() as u64 * times == bytes as u64,
        _ => false,
    }
}
