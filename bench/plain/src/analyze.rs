//! The listing of a stream by the description of itself that it ends with.

use std::io::{self, Read};

use crate::desc::Kind;
use crate::json::{self, Value};
use crate::stream::{put_number, Reason, HEAD};

/// The longest input.
const LONGEST: u64 = 100_000_000;

/// An input that can't be listed: where and why.
pub struct Unlisted(pub u64, pub Reason);

/// An element that a description lists.
enum Element<'t> {
    Sent(&'t str, Kind),
    Kept(&'t str, Kind, u64),
    Passed(usize),
}

struct Sub<'t> {
    name: &'t str,
    version: u32,
    sent: bool,
    fields: Vec<Element<'t>>,
}

struct Device<'t> {
    name: &'t str,
    instance: u32,
    version: u32,
    fields: Vec<Element<'t>>,
    subs: Vec<Sub<'t>>,
}

/// Reads the input, if it isn't too long.
pub fn read_input(r: &mut impl Read) -> io::Result<Result<Vec<u8>, Unlisted>> {
    let mut bytes = Vec::new();
    r.take(LONGEST + 1).read_to_end(&mut bytes)?;
    Ok(if bytes.len() as u64 > LONGEST { Err(Unlisted(LONGEST, Reason::TooLong)) } else { Ok(bytes) })
}

/// Returns the offset of the last byte 06; blocks without one are passed over at the speed of `contains`.
fn last_mark(bytes: &[u8]) -> Option<usize> {
    let mut end = bytes.len();
    for block in bytes.rchunks(256) {
        end -= block.len();
        if block.contains(&6) {
            return block.iter().rposition(|&b| b == 6).map(|i| end + i);
        }
    }
    None
}

/// Returns the offset of the description section.
fn last_description(input: &[u8]) -> Option<usize> {
    let mut end = input.len();
    while let Some(p) = last_mark(&input[..end]) {
        if let Some((n, text)) = input[p + 1..].split_first_chunk() {
            if u32::from_be_bytes(*n) as usize == text.len() {
                return Some(p);
            }
        }
        end = p;
    }
    None
}

// The shape of a description.

fn word<'t>(v: &'t Value, most: usize) -> Option<&'t str> {
    let letter = |c: u8| c.is_ascii_alphanumeric() || matches!(c, b'_' | b'-' | b'.' | b'[' | b']' | b'/');
    match v {
        Value::Text(s) if (1..=most).contains(&s.len()) && s.bytes().all(letter) => Some(s),
        _ => None,
    }
}

fn number<T: TryFrom<u64>>(v: &Value) -> Option<T> {
    match v {
        Value::Uint(n) => T::try_from(*n).ok(),
        _ => None,
    }
}

/// Returns the values of an object with exactly these keys, which are in byte order.
fn members<'v, 't, const N: usize>(v: &'v Value<'t>, keys: [&str; N]) -> Option<[&'v Value<'t>; N]> {
    let Value::Object(o) = v else { return None };
    let same = o.len() == N && o.iter().zip(keys).all(|((k, _), key)| k == key);
    same.then(|| std::array::from_fn(|i| &o[i].1))
}

fn list<'v, T>(v: &'v Value, read: impl Fn(&'v Value) -> Option<T>) -> Option<Vec<T>> {
    match v {
        Value::List(l) => {
            let mut out = Vec::with_capacity(l.len());
            for x in l {
                out.push(read(x)?);
            }
            Some(out)
        }
        _ => None,
    }
}

fn kept<'t>(v: &'t Value) -> Option<Element<'t>> {
    let [name, size, kind, value] = members(v, ["name", "size", "type", "value"])?;
    let kind = Kind::of(word(kind, 8)?)?;
    let value = match *value {
        Value::Uint(n) => n as i128,
        Value::Neg(n) => n as i128,
        _ => return None,
    };
    (number(size) == Some(0u32) && kind.holds(value)).then_some(Element::Kept(
        word(name, 300)?,
        kind,
        value as u64,
    ))
}

fn element<'t>(v: &'t Value) -> Option<Element<'t>> {
    let Some([name, size, kind]) = members(v, ["name", "size", "type"]) else { return kept(v) };
    let (path, size): (_, usize) = (word(name, 300)?, number(size)?);
    match word(kind, 8)? {
        "equal" if matches!(size, 1 | 2 | 4 | 8) => Some(Element::Passed(size)),
        "unused" if (1..=4096).contains(&size) => Some(Element::Passed(size)),
        kind => Kind::of(kind).filter(|k| k.width() == size).map(|k| Element::Sent(path, k)),
    }
}

fn sub<'t>(v: &'t Value) -> Option<Sub<'t>> {
    let [fields, name, sent, version] = members(v, ["fields", "name", "sent", "version"])?;
    let Value::Bool(sent) = *sent else { return None };
    let fields = list(fields, if sent { element } else { kept })?;
    Some(Sub { name: word(name, 255)?, version: number(version)?, sent, fields })
}

fn device<'t>(v: &'t Value) -> Option<Device<'t>> {
    let [fields, instance, name, subs, version] =
        members(v, ["fields", "instance_id", "name", "subsections", "version"])?;
    Some(Device {
        name: word(name, 255)?,
        instance: number(instance)?,
        version: number(version)?,
        fields: list(fields, element)?,
        subs: list(subs, sub)?,
    })
}

// The walk through the bytes.

/// The bytes before the description, and the listing so far.
struct Walk<'i> {
    bytes: &'i [u8],
    at: usize,
    out: Vec<u8>,
}

/// The unit at the walk's offset isn't as described.
struct Differs;

impl<'i> Walk<'i> {
    fn rest(&self) -> &'i [u8] {
        &self.bytes[self.at..]
    }

    fn expect(&mut self, bytes: &[u8]) -> Result<(), Differs> {
        if !self.rest().starts_with(bytes) {
            return Err(Differs);
        }
        self.at += bytes.len();
        Ok(())
    }

    fn pass(&mut self, n: usize) -> Result<&'i [u8], Differs> {
        let bytes = self.rest().get(..n).ok_or(Differs)?;
        self.at += n;
        Ok(bytes)
    }

    fn line(&mut self, path: &str, kind: Kind, cell: u64) {
        self.out.extend_from_slice(path.as_bytes());
        self.out.extend_from_slice(b" = ");
        put_number(&mut self.out, kind.signed(), cell);
        self.out.push(b'\n');
    }

    fn element(&mut self, e: &Element) -> Result<(), Differs> {
        match *e {
            Element::Kept(path, kind, cell) => self.line(path, kind, cell),
            Element::Passed(n) => {
                self.pass(n)?;
            }
            Element::Sent(path, kind) => {
                let bytes = self.rest().get(..kind.width()).ok_or(Differs)?;
                let raw = bytes.iter().fold(0, |n, &b| n << 8 | b as u64);
                if kind == Kind::Bool && raw > 1 {
                    return Err(Differs);
                }
                self.at += bytes.len();
                self.line(path, kind, kind.widen(raw));
            }
        }
        Ok(())
    }

    fn machine(&mut self) -> Result<(), Differs> {
        if self.rest().first() != Some(&7) {
            return Ok(());
        }
        let (n, rest) = self.rest()[1..].split_first_chunk().ok_or(Differs)?;
        let name = rest.get(..u32::from_be_bytes(*n) as usize).ok_or(Differs)?;
        let letter = |c: &u8| c.is_ascii_alphanumeric() || matches!(c, b'_' | b'-' | b'.');
        if name.len() > 255 || !name.iter().all(letter) {
            return Err(Differs);
        }
        self.at += 5 + name.len();
        self.out.extend_from_slice(b"machine ");
        self.out.extend_from_slice(name);
        self.out.push(b'\n');
        Ok(())
    }

    fn sub(&mut self, s: &Sub) -> Result<(), Differs> {
        if s.sent {
            let mut head = vec![5, s.name.len() as u8];
            head.extend_from_slice(s.name.as_bytes());
            head.extend_from_slice(&s.version.to_be_bytes());
            self.expect(&head)?;
            self.out.extend_from_slice(format!("sub {} v{}\n", s.name, s.version).as_bytes());
        } else {
            self.out.extend_from_slice(format!("sub {} -\n", s.name).as_bytes());
        }
        s.fields.iter().try_for_each(|e| self.element(e))
    }

    fn device(&mut self, d: &Device) -> Result<(), Differs> {
        let mut head = vec![4];
        head.extend_from_slice(self.rest().get(1..5).ok_or(Differs)?);
        let id: Vec<u8> = head[1..].to_vec();
        head.push(d.name.len() as u8);
        head.extend_from_slice(d.name.as_bytes());
        head.extend_from_slice(&d.instance.to_be_bytes());
        head.extend_from_slice(&d.version.to_be_bytes());
        self.expect(&head)?;
        self.out.extend_from_slice(format!("section {} {} v{}\n", d.name, d.instance, d.version).as_bytes());
        d.fields.iter().try_for_each(|e| self.element(e))?;
        d.subs.iter().try_for_each(|s| self.sub(s))?;
        self.expect(&[&[0x7e], &id[..]].concat())
    }

    fn stream(&mut self, devices: &[Device]) -> Result<(), Differs> {
        self.expect(&HEAD[..4])?;
        self.expect(&HEAD[4..])?;
        self.machine()?;
        devices.iter().try_for_each(|d| self.device(d))?;
        self.expect(&[0])?;
        if self.rest().is_empty() {
            Ok(())
        } else {
            Err(Differs)
        }
    }
}

/// Returns the listing of an input, or where and why there is none.
pub fn analyze(input: &[u8]) -> Result<Vec<u8>, Unlisted> {
    let p = last_description(input).ok_or(Unlisted(input.len() as u64, Reason::NoDescription))?;
    let shape = Unlisted(p as u64, Reason::Shape);
    let Ok(text) = json::read(&input[p + 5..]) else { return Err(shape) };
    let Some(devices) = members(&text, ["devices"]).and_then(|[v]| list(v, device)) else {
        return Err(shape);
    };
    let mut walk = Walk { bytes: &input[..p], at: 0, out: Vec::with_capacity(p) };
    match walk.stream(&devices) {
        Ok(()) => Ok(walk.out),
        Err(Differs) => Err(Unlisted(walk.at as u64, Reason::Mismatch)),
    }
}
