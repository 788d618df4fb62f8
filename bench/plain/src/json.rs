//! A strict JSON reader; numbers, texts and depth as serde_json has them.

use std::borrow::Cow;

pub enum Value<'a> {
    Null,
    Bool(bool),
    Uint(u64),
    Neg(i64),
    Float,
    Text(Cow<'a, str>),
    List(Vec<Value<'a>>),
    /// Sorted by key; of a key that came twice the last value.
    Object(Members<'a>),
}

pub struct Syntax;

const MAX_DEPTH: u32 = 127;

pub fn read(text: &[u8]) -> Result<Value<'_>, Syntax> {
    let text = std::str::from_utf8(text).map_err(|_| Syntax)?;
    let mut r = Reader { text, b: text.as_bytes(), at: 0 };
    let v = r.value(0)?;
    r.space();
    if r.at == r.b.len() {
        Ok(v)
    } else {
        Err(Syntax)
    }
}

/// The members of an object by their keys.
type Members<'a> = Vec<(Cow<'a, str>, Value<'a>)>;

/// Returns the members by key; of a key that came twice the last one.
fn sorted(mut members: Members) -> Members {
    members.sort_by(|a, b| a.0.cmp(&b.0)); // stable: equal keys stay in the order of the text
    let mut kept: Members = Vec::with_capacity(members.len());
    for e in members {
        match kept.last_mut() {
            Some(last) if last.0 == e.0 => *last = e,
            _ => kept.push(e),
        }
    }
    kept
}

/// Returns the number of a spelling, as serde_json has it: a whole number of 64 bits, else a float.
fn number_of<'a>(s: &str, negative: bool, whole: bool) -> Result<Value<'a>, Syntax> {
    if whole && !negative {
        if let Ok(n) = s.parse() {
            return Ok(Value::Uint(n));
        }
    } else if whole && s != "-0" {
        if let Ok(n) = s.parse() {
            return Ok(Value::Neg(n));
        }
    }
    match s.parse::<f64>() {
        Ok(x) if x.is_finite() => Ok(Value::Float),
        _ => Err(Syntax),
    }
}

struct Reader<'a> {
    text: &'a str,
    b: &'a [u8],
    at: usize,
}

impl<'a> Reader<'a> {
    fn peek(&self) -> u8 {
        // 0 stands for the end: no JSON token begins with it
        self.b.get(self.at).copied().unwrap_or(0)
    }

    fn space(&mut self) {
        while matches!(self.peek(), b' ' | b'\t' | b'\n' | b'\r') {
            self.at += 1;
        }
    }

    fn expect(&mut self, word: &[u8], v: Value<'a>) -> Result<Value<'a>, Syntax> {
        if self.b[self.at..].starts_with(word) {
            self.at += word.len();
            Ok(v)
        } else {
            Err(Syntax)
        }
    }

    fn value(&mut self, depth: u32) -> Result<Value<'a>, Syntax> {
        self.space();
        match self.peek() {
            b'{' => self.object(depth + 1),
            b'[' => self.list(depth + 1),
            b'"' => Ok(Value::Text(self.string()?)),
            b't' => self.expect(b"true", Value::Bool(true)),
            b'f' => self.expect(b"false", Value::Bool(false)),
            b'n' => self.expect(b"null", Value::Null),
            b'-' | b'0'..=b'9' => self.number(),
            _ => Err(Syntax),
        }
    }

    fn list(&mut self, depth: u32) -> Result<Value<'a>, Syntax> {
        if depth > MAX_DEPTH {
            return Err(Syntax);
        }
        self.at += 1;
        let mut out = Vec::new();
        self.space();
        if self.peek() == b']' {
            self.at += 1;
            return Ok(Value::List(out));
        }
        loop {
            out.push(self.value(depth)?);
            self.space();
            match self.peek() {
                b',' => self.at += 1,
                b']' => {
                    self.at += 1;
                    return Ok(Value::List(out));
                }
                _ => return Err(Syntax),
            }
        }
    }

    fn object(&mut self, depth: u32) -> Result<Value<'a>, Syntax> {
        if depth > MAX_DEPTH {
            return Err(Syntax);
        }
        self.at += 1;
        let mut out: Members<'a> = Vec::new();
        self.space();
        if self.peek() == b'}' {
            self.at += 1;
            return Ok(Value::Object(out));
        }
        loop {
            self.space();
            if self.peek() != b'"' {
                return Err(Syntax);
            }
            let key = self.string()?;
            self.space();
            if self.peek() != b':' {
                return Err(Syntax);
            }
            self.at += 1;
            let v = self.value(depth)?;
            out.push((key, v));
            self.space();
            match self.peek() {
                b',' => self.at += 1,
                b'}' => break,
                _ => return Err(Syntax),
            }
        }
        self.at += 1;
        if !out.windows(2).all(|w| w[0].0 < w[1].0) {
            out = sorted(out);
        }
        Ok(Value::Object(out))
    }

    fn digits(&mut self) -> Result<(), Syntax> {
        if !self.peek().is_ascii_digit() {
            return Err(Syntax);
        }
        while self.peek().is_ascii_digit() {
            self.at += 1;
        }
        Ok(())
    }

    fn number(&mut self) -> Result<Value<'a>, Syntax> {
        let start = self.at;
        let negative = self.peek() == b'-';
        if negative {
            self.at += 1;
        }
        if self.peek() == b'0' {
            self.at += 1;
        } else {
            self.digits()?;
        }
        let mut whole = true;
        if self.peek() == b'.' {
            whole = false;
            self.at += 1;
            self.digits()?;
        }
        if matches!(self.peek(), b'e' | b'E') {
            whole = false;
            self.at += 1;
            if matches!(self.peek(), b'+' | b'-') {
                self.at += 1;
            }
            self.digits()?;
        }
        number_of(&self.text[start..self.at], negative, whole)
    }

    fn hex4(&mut self) -> Result<u32, Syntax> {
        let h = self.b.get(self.at..self.at + 4).ok_or(Syntax)?;
        let mut n = 0;
        for &c in h {
            n = n * 16 + (c as char).to_digit(16).ok_or(Syntax)?;
        }
        self.at += 4;
        Ok(n)
    }

    /// Returns the character that the escape `e` stands for.
    fn escape(&mut self, e: u8) -> Result<char, Syntax> {
        Ok(match e {
            b'"' | b'\\' | b'/' => e as char,
            b'b' => '\u{8}',
            b'f' => '\u{c}',
            b'n' => '\n',
            b'r' => '\r',
            b't' => '\t',
            b'u' => {
                let mut n = self.hex4()?;
                if (0xd800..0xdc00).contains(&n) {
                    if !self.b[self.at..].starts_with(b"\\u") {
                        return Err(Syntax);
                    }
                    self.at += 2;
                    let low = self.hex4()?;
                    if !(0xdc00..0xe000).contains(&low) {
                        return Err(Syntax);
                    }
                    n = 0x10000 + ((n - 0xd800) << 10) + (low - 0xdc00);
                }
                char::from_u32(n).ok_or(Syntax)?
            }
            _ => return Err(Syntax),
        })
    }

    fn string(&mut self) -> Result<Cow<'a, str>, Syntax> {
        self.at += 1;
        let mut start = self.at;
        let mut own = String::new();
        loop {
            let c = *self.b.get(self.at).ok_or(Syntax)?;
            match c {
                b'"' => {
                    let piece = &self.text[start..self.at];
                    self.at += 1;
                    return Ok(if own.is_empty() {
                        Cow::Borrowed(piece)
                    } else {
                        own.push_str(piece);
                        Cow::Owned(own)
                    });
                }
                b'\\' => {
                    own.push_str(&self.text[start..self.at]);
                    self.at += 1;
                    let e = *self.b.get(self.at).ok_or(Syntax)?;
                    self.at += 1;
                    own.push(self.escape(e)?);
                    start = self.at;
                }
                0..=0x1f => return Err(Syntax),
                _ => self.at += 1,
            }
        }
    }
}
