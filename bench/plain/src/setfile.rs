//! Description files: JSON to a set, with the first Shape fault in file order.

use std::borrow::Cow;
use std::cell::OnceCell;
use std::collections::HashMap;

use crate::desc::{DescSet, Device, Item, Kind, Place, Rel};
use crate::json::{self, Value};
use crate::rules::{well_formed, IllFormed};
use names::{finish_desc, numbered};

mod names;

pub enum FileFault {
    Syntax,
    Shape(String),
    IllFormed(u8, Place),
}

/// A path under way, last segment first.
struct Shape(Vec<String>);
type Res<T> = Result<T, Shape>;

fn shape<T>() -> Res<T> {
    Err(Shape(Vec::new()))
}

fn at<T>(r: Res<T>, key: &str) -> Res<T> {
    r.map_err(|mut p| {
        p.0.push(key.into());
        p
    })
}

fn each<'a, T>(v: Value<'a>, read: impl Fn(Value<'a>) -> Res<T>) -> Res<Vec<T>> {
    let Value::List(l) = v else { return shape() };
    let mut out = Vec::with_capacity(l.len());
    for (i, x) in l.into_iter().enumerate() {
        out.push(read(x).map_err(|mut p| {
            p.0.push(i.to_string());
            p
        })?);
    }
    Ok(out)
}

fn text<'a>(v: Value<'a>) -> Res<Cow<'a, str>> {
    match v {
        Value::Text(s) => Ok(s),
        _ => shape(),
    }
}

fn number<T: TryFrom<u64>>(v: Value) -> Res<T> {
    match v {
        Value::Uint(n) => T::try_from(n).or_else(|_| shape()),
        _ => shape(),
    }
}

fn wide(v: Value) -> Res<i128> {
    match v {
        Value::Uint(n) => Ok(n as i128),
        Value::Neg(n) => Ok(n as i128),
        _ => shape(),
    }
}

type Members<'a> = Vec<(Cow<'a, str>, Value<'a>)>;

fn object<'a>(v: Value<'a>, needed: &[&str], optional: &[&str]) -> Res<Members<'a>> {
    let Value::Object(o) = v else { return shape() };
    let mut found = 0;
    for (k, _) in &o {
        if needed.contains(&&**k) {
            found += 1;
        } else if !optional.contains(&&**k) {
            return shape();
        }
    }
    if found == needed.len() {
        Ok(o)
    } else {
        shape()
    }
}

enum RawTest<'a> {
    AtLeast(u32),
    Below(u32),
    Cell { parent: bool, name: Cow<'a, str>, mask: u64, rel: Rel, value: u64 },
    Not(Box<RawTest<'a>>),
    Two { and: bool, a: Box<RawTest<'a>>, b: Box<RawTest<'a>> },
}

enum RawCount<'a> {
    One,
    Fixed(u32),
    Counted(Cow<'a, str>, u32),
}

struct RawField<'a> {
    name: Cow<'a, str>,
    former: Vec<Cow<'a, str>>,
    item: Item,
    count: RawCount<'a>,
    since: u32,
    test: Option<RawTest<'a>>,
    default: i128,
}

struct RawDesc<'a> {
    name: Cow<'a, str>,
    version: u32,
    minimum: Option<u32>,
    fields: Vec<RawField<'a>>,
    validate: Vec<RawTest<'a>>,
    subs: Vec<RawDesc<'a>>,
    needed: Option<RawTest<'a>>,
    index: OnceCell<HashMap<String, u32>>,
}

#[derive(Clone, Copy, PartialEq)]
enum What {
    Struct,
    Device,
    Sub,
}

// The first walk: shapes.

fn test<'a>(v: Value<'a>, in_needed: bool) -> Res<RawTest<'a>> {
    let Value::Object(o) = v else { return shape() };
    let key = |i: usize| o.get(i).map_or("", |m| &*m.0);
    match (o.len(), key(0), key(1), key(2), key(3)) {
        (1, "at_least" | "below" | "not" | "and" | "or", ..) => {
            let (k, x) = o.into_iter().next().unwrap();
            match &*k {
                "at_least" => Ok(RawTest::AtLeast(at(number(x), &k)?)),
                "below" => Ok(RawTest::Below(at(number(x), &k)?)),
                "not" => Ok(RawTest::Not(Box::new(at(test(x, in_needed), &k)?))),
                _ => {
                    if !matches!(&x, Value::List(l) if l.len() == 2) {
                        return at(shape(), &k);
                    }
                    let mut two = at(each(x, |x| test(x, in_needed)), &k)?;
                    let b = Box::new(two.pop().unwrap());
                    let a = Box::new(two.pop().unwrap());
                    Ok(RawTest::Two { and: k == "and", a, b })
                }
            }
        }
        (4, "field", "is", "mask", "value") => cell(o, false),
        (4, "is", "mask", "parent", "value") if in_needed => cell(o, true),
        _ => shape(),
    }
}

fn cell<'a>(o: Members<'a>, parent: bool) -> Res<RawTest<'a>> {
    let (mut name, mut mask, mut rel, mut value) = (Cow::Borrowed(""), 0, Rel::Eq, 0);
    for (k, x) in o {
        match &*k {
            "is" => rel = at(relation(x), &k)?,
            "mask" => mask = at(number(x), &k)?,
            "value" => value = at(number(x), &k)?,
            _ => name = at(text(x), &k)?,
        }
    }
    Ok(RawTest::Cell { parent, name, mask, rel, value })
}

fn relation(v: Value) -> Res<Rel> {
    Ok(match &*text(v)? {
        "eq" => Rel::Eq,
        "ne" => Rel::Ne,
        "lt" => Rel::Lt,
        "ge" => Rel::Ge,
        _ => return shape(),
    })
}

const FIELD_KEYS: [&str; 10] =
    ["capacity", "count", "counted", "default", "equal", "former", "since", "size", "struct", "test"];

/// Returns the kind that a field's members name, if it is one of numbers, or nothing if they don't go together;
/// with it whether the kind is a word at all.
fn field_kind(o: &Members) -> Res<(Option<Kind>, bool)> {
    let has = |key: &str| o.iter().any(|(k, _)| k == key);
    let word = o.iter().find_map(|(k, x)| match (&**k, x) {
        ("kind", Value::Text(t)) => Some(&**t),
        _ => None,
    });
    let kind = word.and_then(Kind::of);
    let mut bad =
        has("counted") != has("capacity") || has("count") && has("counted") || has("equal") && has("default");
    bad |= match (kind, word) {
        (Some(_), _) => has("size") || has("struct"),
        (None, Some("unused")) => !has("size") || has("struct") || has("default") || has("equal"),
        (None, Some("struct")) => !has("struct") || has("size") || has("default") || has("equal"),
        _ => false,
    };
    if bad {
        return shape();
    }
    Ok((kind, kind.is_some() || matches!(word, Some("unused" | "struct"))))
}

fn field<'a>(v: Value<'a>) -> Res<RawField<'a>> {
    let o = object(v, &["kind", "name"], &FIELD_KEYS)?;
    let (kind, known) = field_kind(&o)?;
    let mut f = RawField {
        name: Cow::Borrowed(""),
        former: vec![],
        item: Item::Unused(0),
        count: RawCount::One,
        since: 0,
        test: None,
        default: 0,
    };
    let (mut capacity, mut equal) = (0, None);
    for (k, x) in o {
        let k = &*k;
        match k {
            "capacity" => capacity = at(number(x), k)?,
            "count" => f.count = RawCount::Fixed(at(number(x), k)?),
            "counted" => f.count = RawCount::Counted(at(text(x), k)?, capacity),
            "default" => f.default = at(wide(x), k)?,
            "equal" => equal = Some(at(wide(x), k)?),
            "former" => f.former = at(each(x, text), k)?,
            "kind" => match (kind, equal) {
                (Some(kind), None) => f.item = Item::Num(kind),
                (Some(kind), Some(value)) => f.item = Item::Equal(kind, value),
                (None, _) if known => {}
                _ => return at(shape(), k),
            },
            "name" => f.name = at(text(x), k)?,
            "since" => f.since = at(number(x), k)?,
            "size" => f.item = Item::Unused(at(number(x), k)?),
            "struct" => f.item = Item::Struct(at(number(x), k)?),
            _ => f.test = Some(at(test(x, false), k)?),
        }
    }
    Ok(f)
}

fn description<'a>(v: Value<'a>, what: What) -> Res<RawDesc<'a>> {
    let o = match what {
        What::Struct => object(v, &["fields", "name", "version"], &["minimum", "validate"]),
        What::Device => object(v, &["fields", "name", "version"], &["minimum", "validate", "subsections"]),
        What::Sub => object(v, &["fields", "name", "needed", "version"], &["minimum", "validate"]),
    }?;
    let mut d = RawDesc {
        name: Cow::Borrowed(""),
        version: 0,
        minimum: None,
        fields: vec![],
        validate: vec![],
        subs: vec![],
        needed: None,
        index: OnceCell::new(),
    };
    for (k, x) in o {
        let k = &*k;
        match k {
            "fields" => d.fields = at(each(x, field), k)?,
            "minimum" => d.minimum = Some(at(number(x), k)?),
            "name" => d.name = at(text(x), k)?,
            "needed" => d.needed = Some(at(test(x, true), k)?),
            "subsections" => d.subs = at(each(x, |s| description(s, What::Sub)), k)?,
            "validate" => d.validate = at(each(x, |t| test(t, false)), k)?,
            _ => d.version = at(number(x), k)?,
        }
    }
    Ok(d)
}

fn device<'a>(v: Value<'a>) -> Res<(RawDesc<'a>, u32)> {
    let [desc, instance] = members(object(v, &["desc", "instance"], &[])?);
    let d = at(description(desc, What::Device), "desc")?;
    Ok((d, at(number(instance), "instance")?))
}

/// The values of an object whose keys are known, in byte order.
fn members<'a, const N: usize>(o: Members<'a>) -> [Value<'a>; N] {
    let mut values = o.into_iter().map(|m| m.1);
    std::array::from_fn(|_| values.next().unwrap())
}

fn parts(v: Value) -> Res<DescSet> {
    let [devices, machines, structs] = members(object(v, &["devices", "machines", "structs"], &[])?);
    let devices = at(each(devices, device), "devices")?;
    let machines = at(each(machines, text), "machines")?;
    let structs = at(each(structs, |s| description(s, What::Struct)), "structs")?;
    Ok(DescSet {
        devices: at(
            numbered(devices, |(d, instance)| {
                let (desc, _, subs) = at(finish_desc(d, None), "desc")?;
                Ok(Device { instance, desc, subs, defaults: vec![] })
            }),
            "devices",
        )?,
        machines: machines.into_iter().map(String::from).collect(),
        structs: at(numbered(structs, |s| Ok(finish_desc(s, None)?.0)), "structs")?,
    })
}

pub fn read_set(text: &[u8]) -> Result<DescSet, FileFault> {
    let v = json::read(text).map_err(|_| FileFault::Syntax)?;
    let set = parts(v).map_err(|mut p| {
        p.0.reverse();
        FileFault::Shape(if p.0.is_empty() { "file".into() } else { p.0.join(".") })
    })?;
    well_formed(set).map_err(|IllFormed(rule, place)| FileFault::IllFormed(rule, place))
}
