//! Description sets: their parts, the truth of tests, and the layout of cells.

use std::fmt;

#[derive(Clone, Copy, PartialEq, Eq, Debug)]
pub enum Kind {
    U8,
    U16,
    U32,
    U64,
    I8,
    I16,
    I32,
    I64,
    Bool,
    Timer,
}

use Kind::*;

impl Kind {
    #[inline]
    pub fn width(self) -> usize {
        match self {
            U8 | I8 | Bool => 1,
            U16 | I16 => 2,
            U32 | I32 => 4,
            U64 | I64 | Timer => 8,
        }
    }

    pub fn name(self) -> &'static str {
        match self {
            U8 => "u8",
            U16 => "u16",
            U32 => "u32",
            U64 => "u64",
            I8 => "i8",
            I16 => "i16",
            I32 => "i32",
            I64 => "i64",
            Bool => "bool",
            Timer => "timer",
        }
    }

    pub fn of(word: &str) -> Option<Kind> {
        Some(match word {
            "u8" => U8,
            "u16" => U16,
            "u32" => U32,
            "u64" => U64,
            "i8" => I8,
            "i16" => I16,
            "i32" => I32,
            "i64" => I64,
            "bool" => Bool,
            "timer" => Timer,
            _ => return None,
        })
    }

    #[inline]
    pub fn signed(self) -> bool {
        matches!(self, I8 | I16 | I32 | I64)
    }

    pub fn range(self) -> (i128, i128) {
        let bits = 8 * self.width() as u32;
        if self == Bool {
            (0, 1)
        } else if self.signed() {
            (-(1i128 << (bits - 1)), (1i128 << (bits - 1)) - 1)
        } else {
            (0, (1i128 << bits) - 1)
        }
    }

    pub fn holds(self, x: i128) -> bool {
        let (lo, hi) = self.range();
        lo <= x && x <= hi
    }

    /// Returns the cell of the bits `raw` of a stream: sign-extended if the kind is signed.
    #[inline]
    pub fn widen(self, raw: u64) -> u64 {
        match self {
            I8 => raw as i8 as u64,
            I16 => raw as i16 as u64,
            I32 => raw as i32 as u64,
            _ => raw,
        }
    }

    fn mask(self) -> u64 {
        u64::MAX >> (64 - 8 * self.width())
    }
}

#[derive(Clone, Copy, PartialEq, Eq, Debug)]
pub enum Rel {
    Eq,
    Ne,
    Lt,
    Ge,
}

#[derive(Clone, PartialEq, Eq, Debug)]
pub enum Test {
    AtLeast(u32),
    Below(u32),
    Cell(Atom),
    Not(Box<Test>),
    And(Box<Test>, Box<Test>),
    Or(Box<Test>, Box<Test>),
}

#[derive(Clone, Copy, PartialEq, Eq, Debug)]
pub struct Atom {
    pub parent: bool,
    pub field: u32,
    pub mask: u64,
    pub rel: Rel,
    pub value: u64,
    /// The cell in its description, and the mask cut to the field's width; `DescSet::finish` fills both.
    pub offset: usize,
    pub cut: u64,
}

#[derive(Clone, Copy, PartialEq, Eq, Debug)]
pub enum Count {
    One,
    Fixed(u32),
    Counted { by: u32, capacity: u32 },
}

#[derive(Clone, Copy, PartialEq, Eq, Debug)]
pub enum Item {
    Num(Kind),
    Equal(Kind, i128),
    Unused(u16),
    Struct(u32),
}

#[derive(Debug)]
pub struct Field {
    pub name: String,
    pub former: Vec<String>,
    pub item: Item,
    pub count: Count,
    pub since: u32,
    pub test: Option<Test>,
    pub default: i128,
    /// The first cell in the description, the cells of one element, and the least capacity that this number
    /// counts; `DescSet::finish` fills them.
    pub offset: usize,
    pub step: usize,
    pub least: Option<u32>,
}

#[derive(Debug)]
pub struct Desc {
    pub name: String,
    pub version: u32,
    pub minimum: u32,
    pub fields: Vec<Field>,
    pub validate: Vec<Test>,
    /// The number of cells, and whether anything in it has a validation; `DescSet::finish` fills both.
    pub cells: usize,
    pub validates: bool,
}

#[derive(Debug)]
pub struct Sub {
    pub desc: Desc,
    pub needed: Test,
    pub base: usize,
}

#[derive(Debug)]
pub struct Device {
    pub instance: u32,
    pub desc: Desc,
    pub subs: Vec<Sub>,
    pub defaults: Vec<u64>,
}

#[derive(Debug)]
pub struct DescSet {
    pub machines: Vec<String>,
    pub structs: Vec<Desc>,
    pub devices: Vec<Device>,
}

#[derive(Clone, Copy, Debug, PartialEq)]
pub enum Part {
    Set,
    Struct(usize),
    Device(usize),
    Sub(usize, usize),
}

#[derive(Clone, Copy, Debug, PartialEq)]
pub struct Place(pub Part, pub Option<usize>);

impl fmt::Display for Place {
    fn fmt(&self, f: &mut fmt::Formatter) -> fmt::Result {
        match self.0 {
            Part::Set => write!(f, "set"),
            Part::Struct(i) => write!(f, "struct {i}"),
            Part::Device(i) => write!(f, "device {i}"),
            Part::Sub(i, j) => write!(f, "device {i} sub {j}"),
        }?;
        match self.1 {
            Some(k) => write!(f, " field {k}"),
            None => Ok(()),
        }
    }
}

impl Test {
    /// Returns whether the test holds at `version`; `own` and `parent` begin at the first cell of the subsection's
    /// own description and of its device's.
    pub fn holds(&self, version: u32, own: &[u64], parent: &[u64]) -> bool {
        match self {
            Test::AtLeast(n) => version >= *n,
            Test::Below(n) => version < *n,
            Test::Cell(a) => {
                let x = if a.parent { parent[a.offset] } else { own[a.offset] } & a.cut;
                match a.rel {
                    Rel::Eq => x == a.value,
                    Rel::Ne => x != a.value,
                    Rel::Lt => x < a.value,
                    Rel::Ge => x >= a.value,
                }
            }
            Test::Not(a) => !a.holds(version, own, parent),
            Test::And(a, b) => a.holds(version, own, parent) && b.holds(version, own, parent),
            Test::Or(a, b) => a.holds(version, own, parent) || b.holds(version, own, parent),
        }
    }
}

impl Field {
    #[inline]
    pub fn present(&self, version: u32, own: &[u64]) -> bool {
        match &self.test {
            Some(t) => t.holds(version, own, &[]),
            None => self.since <= version,
        }
    }

    /// Returns how many elements the field has at its full length or capacity.
    pub fn times(&self) -> u64 {
        match self.count {
            Count::One => 1,
            Count::Fixed(n) => n as u64,
            Count::Counted { capacity, .. } => capacity as u64,
        }
    }
}

impl Desc {
    pub fn new(name: &str, version: u32, minimum: u32, fields: Vec<Field>) -> Desc {
        Desc { name: name.into(), version, minimum, fields, validate: vec![], cells: 0, validates: false }
    }

    /// Returns how many elements the field `f` has now.
    #[inline]
    pub fn elements(&self, f: &Field, own: &[u64]) -> usize {
        match f.count {
            Count::One => 1,
            Count::Fixed(n) => n as usize,
            Count::Counted { by, .. } => own[self.fields[by as usize].offset] as usize,
        }
    }
}

impl DescSet {
    pub fn find(&self, name: &[u8], instance: u32) -> Option<usize> {
        self.devices.iter().position(|d| d.instance == instance && d.desc.name.as_bytes() == name)
    }

    pub fn section(&self, device: Option<usize>) -> String {
        match device {
            Some(i) => format!("{}/{}", self.devices[i].desc.name, self.devices[i].instance),
            None => "-".into(),
        }
    }

    /// Returns whether the validations of `d` and of the structures that are sent in it hold.
    pub fn valid(&self, d: &Desc, version: u32, own: &[u64]) -> bool {
        if !d.validates {
            return true;
        }
        for f in &d.fields {
            if let Item::Struct(s) = f.item {
                let s = &self.structs[s as usize];
                if s.validates && f.present(version, own) {
                    for i in 0..d.elements(f, own) {
                        if !self.valid(s, s.version, &own[f.offset + i * f.step..]) {
                            return false;
                        }
                    }
                }
            }
        }
        d.validate.iter().all(|t| t.holds(version, own, &[]))
    }

    /// Lays the cells out. The set must be well formed.
    pub fn finish(mut self) -> DescSet {
        for i in 0..self.structs.len() {
            let (before, rest) = self.structs.split_at_mut(i);
            lay_out(&mut rest[0], before);
        }
        let structs = &self.structs;
        for d in &mut self.devices {
            lay_out(&mut d.desc, structs);
            d.defaults = Vec::new();
            push_defaults(structs, &d.desc, &mut d.defaults);
            for s in &mut d.subs {
                lay_out(&mut s.desc, structs);
                settle(&mut s.needed, &s.desc.fields, &d.desc.fields);
                s.base = d.defaults.len();
                push_defaults(structs, &s.desc, &mut d.defaults);
            }
        }
        self
    }
}

fn lay_out(d: &mut Desc, structs: &[Desc]) {
    let mut at = 0usize;
    let mut least = vec![None; d.fields.len()];
    d.validates = !d.validate.is_empty();
    for f in &mut d.fields {
        f.offset = at;
        f.step = match f.item {
            Item::Num(_) => 1,
            Item::Struct(s) => {
                d.validates |= structs[s as usize].validates;
                structs[s as usize].cells
            }
            _ => 0,
        };
        if let Count::Counted { by, capacity } = f.count {
            let l = &mut least[by as usize];
            *l = Some(l.map_or(capacity, |m: u32| m.min(capacity)));
        }
        at = at.saturating_add(f.step.saturating_mul(f.times() as usize));
    }
    d.cells = at;
    for (k, l) in least.into_iter().enumerate() {
        d.fields[k].least = l;
    }
    for k in 0..d.fields.len() {
        if let Some(mut t) = d.fields[k].test.take() {
            settle(&mut t, &d.fields, &[]);
            d.fields[k].test = Some(t);
        }
    }
    let mut validate = std::mem::take(&mut d.validate);
    for t in &mut validate {
        settle(t, &d.fields, &[]);
    }
    d.validate = validate;
}

fn settle(t: &mut Test, own: &[Field], parent: &[Field]) {
    match t {
        Test::Cell(a) => {
            let f = if a.parent { &parent[a.field as usize] } else { &own[a.field as usize] };
            a.offset = f.offset;
            if let Item::Num(kind) = f.item {
                a.cut = a.mask & kind.mask();
            }
        }
        Test::Not(a) => settle(a, own, parent),
        Test::And(a, b) | Test::Or(a, b) => {
            settle(a, own, parent);
            settle(b, own, parent);
        }
        _ => {}
    }
}

fn push_defaults(structs: &[Desc], d: &Desc, out: &mut Vec<u64>) {
    for f in &d.fields {
        match f.item {
            Item::Num(_) => out.extend(std::iter::repeat_n(f.default as u64, f.times() as usize)),
            Item::Struct(s) => {
                for _ in 0..f.times() {
                    push_defaults(structs, &structs[s as usize], out);
                }
            }
            _ => {}
        }
    }
}
