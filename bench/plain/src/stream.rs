//! What a stream is made of: images, reasons of refusal, numbers in decimal.

use std::fmt;

use crate::desc::DescSet;

pub const HEAD: [u8; 8] = *b"QEVM\0\0\0\x03";

/// The longest description section that a reader passes over.
pub const MAX_TEXT: u32 = 16_777_216;

/// The state of a device: its version, for each subsection the version at which it came, and its cells.
pub struct Image {
    pub version: u32,
    pub subs: Vec<Option<u32>>,
    pub cells: Vec<u64>,
}

impl Image {
    /// Returns the images of the devices of `set` at their defaults.
    pub fn all(set: &DescSet) -> Vec<Image> {
        let image = |d: &crate::desc::Device| Image {
            version: d.desc.version,
            subs: vec![None; d.subs.len()],
            cells: d.defaults.clone(),
        };
        set.devices.iter().map(image).collect()
    }
}

#[derive(Debug, Clone, Copy, PartialEq)]
pub enum Reason {
    Truncated,
    BadMagic,
    OldStream,
    BadVersion,
    BadMark,
    Ram,
    Iterative,
    Command,
    ConfigurationExtra,
    WrongMachine,
    UnknownSection,
    RepeatedSection,
    TooNew,
    TooOld,
    BadBool,
    NotEqual,
    CountTooLarge,
    UnknownSubsection,
    RepeatedSubsection,
    Invalid,
    Unsound(u8),
    BadFooter,
    MissingSection,
    LinesDisagree,
    Trailing,
    DescriptionTooLong,
    TooLong,
    NoDescription,
    Shape,
    Mismatch,
}

impl fmt::Display for Reason {
    fn fmt(&self, f: &mut fmt::Formatter) -> fmt::Result {
        match self {
            Reason::Unsound(rule) => write!(f, "Unsound {rule}"),
            r => write!(f, "{r:?}"),
        }
    }
}

/// A stream that isn't taken: the offset of the invalid unit, the device concerned, and the reason.
pub struct Refused {
    pub at: u64,
    pub section: Option<usize>,
    pub reason: Reason,
}

pub enum Fault {
    Refused(Refused),
    Read,
}

impl Refused {
    /// Returns the line that names it, with devices as `set` names them.
    pub fn line(&self, set: &DescSet) -> String {
        format!("refused at {} in {}: {}", self.at, set.section(self.section), self.reason)
    }
}

const PAIRS: [u8; 200] = {
    let mut pairs = [0; 200];
    let mut n = 0;
    while n < 100 {
        pairs[2 * n] = b'0' + (n / 10) as u8;
        pairs[2 * n + 1] = b'0' + (n % 10) as u8;
        n += 1;
    }
    pairs
};

/// Appends a cell in decimal, two digits at a time.
pub fn put_number(out: &mut Vec<u8>, signed: bool, cell: u64) {
    let mut x = cell;
    if signed && (cell as i64) < 0 {
        out.push(b'-');
        x = (cell as i64).unsigned_abs();
    }
    let mut digits = [0; 20];
    let mut at = 20;
    while x >= 10 {
        let pair = 2 * (x % 100) as usize;
        x /= 100;
        at -= 2;
        digits[at..at + 2].copy_from_slice(&PAIRS[pair..pair + 2]);
    }
    if x > 0 || at == 20 {
        at -= 1;
        digits[at] = b'0' + x as u8;
    }
    out.extend_from_slice(&digits[at..]);
}

/// Appends a field's name and, for an array, the element's number.
#[inline]
pub fn put_element(path: &mut Vec<u8>, name: &str, index: Option<usize>) {
    path.extend_from_slice(name.as_bytes());
    if let Some(i) = index {
        path.push(b'[');
        put_number(path, false, i as u64);
        path.push(b']');
    }
}
