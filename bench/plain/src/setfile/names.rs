//! The second walk over a description file: the names of tests and counts as numbers of fields.

use std::collections::HashMap;

use super::{at, RawCount, RawDesc, RawField, RawTest, Res, Shape};
use crate::desc::{Atom, Count, Desc, Field, Sub, Test};

impl RawDesc<'_> {
    fn named(&self, name: &str) -> Res<u32> {
        if self.fields.len() <= 8 {
            let found = self.fields.iter().position(|f| f.name == name);
            return found.map(|i| i as u32).ok_or(Shape(Vec::new()));
        }
        let index = self.index.get_or_init(|| {
            let mut m = HashMap::with_capacity(self.fields.len());
            for (i, f) in self.fields.iter().enumerate() {
                m.entry(f.name.to_string()).or_insert(i as u32);
            }
            m
        });
        index.get(name).copied().ok_or(Shape(Vec::new()))
    }
}

fn resolve(t: &RawTest, own: &RawDesc, parent: Option<&RawDesc>) -> Res<Test> {
    Ok(match t {
        RawTest::AtLeast(n) => Test::AtLeast(*n),
        RawTest::Below(n) => Test::Below(*n),
        RawTest::Cell { parent: from, name, mask, rel, value } => {
            let field = if *from {
                at(parent.unwrap().named(name), "parent")?
            } else {
                at(own.named(name), "field")?
            };
            Test::Cell(Atom {
                parent: *from,
                field,
                mask: *mask,
                rel: *rel,
                value: *value,
                offset: 0,
                cut: 0,
            })
        }
        RawTest::Not(a) => Test::Not(Box::new(at(resolve(a, own, parent), "not")?)),
        RawTest::Two { and, a, b } => {
            let key = if *and { "and" } else { "or" };
            let a = Box::new(at(at(resolve(a, own, parent), "0"), key)?);
            let b = Box::new(at(at(resolve(b, own, parent), "1"), key)?);
            if *and {
                Test::And(a, b)
            } else {
                Test::Or(a, b)
            }
        }
    })
}

/// Reads each of a list by `f`, and puts its number before the path of a fault.
pub fn numbered<T, U>(list: impl IntoIterator<Item = T>, f: impl Fn(T) -> Res<U>) -> Res<Vec<U>> {
    list.into_iter()
        .enumerate()
        .map(|(i, x)| {
            f(x).map_err(|mut p| {
                p.0.push(i.to_string());
                p
            })
        })
        .collect()
}

fn finish_field(f: &RawField, own: &RawDesc) -> Res<Field> {
    let count = match f.count {
        RawCount::One => Count::One,
        RawCount::Fixed(n) => Count::Fixed(n),
        RawCount::Counted(ref by, capacity) => Count::Counted { by: at(own.named(by), "counted")?, capacity },
    };
    let test = match &f.test {
        Some(t) => Some(at(resolve(t, own, None), "test")?),
        None => None,
    };
    Ok(Field {
        name: f.name.to_string(),
        former: f.former.iter().map(|n| n.to_string()).collect(),
        item: f.item,
        count,
        since: f.since,
        test,
        default: f.default,
        offset: 0,
        step: 0,
        least: None,
    })
}

/// Returns the description with its needed test and its subsections. The raw one is used up, so that its memory
/// serves the next one.
pub fn finish_desc(mut d: RawDesc, parent: Option<&RawDesc>) -> Res<(Desc, Option<Test>, Vec<Sub>)> {
    let subs = std::mem::take(&mut d.subs);
    let d = &d;
    let fields = at(numbered(&d.fields, |f| finish_field(f, d)), "fields")?;
    let needed = match &d.needed {
        Some(t) => Some(at(resolve(t, d, parent), "needed")?),
        None => None,
    };
    let subs = at(
        numbered(subs, |s| {
            let (desc, needed, _) = finish_desc(s, Some(d))?;
            Ok(Sub { desc, needed: needed.unwrap(), base: 0 })
        }),
        "subsections",
    )?;
    let validate = at(numbered(&d.validate, |t| resolve(t, d, None)), "validate")?;
    let desc = Desc { validate, ..Desc::new(&d.name, d.version, d.minimum.unwrap_or(d.version), fields) };
    Ok((desc, needed, subs))
}
