//! Safe Rust over `vmstate_call` and `vmstate_call_stored`.
//!
//! Nothing compares these declarations with those of `crates/vmstate_c/src`, and nothing checks the pointers.

use std::marker::PhantomData;

/// Bytes of a slice that the call borrows.
#[repr(C)]
struct Bytes<'a> {
    at: *const u8,
    length: usize,
    borrowed: PhantomData<&'a [u8]>,
}

impl<'a> Bytes<'a> {
    fn new(bytes: &'a [u8]) -> Self {
        Bytes {
            at: bytes.as_ptr(),
            length: bytes.len(),
            borrowed: PhantomData,
        }
    }
}

#[repr(C)]
struct File<'a> {
    name: Bytes<'a>,
    bytes: Bytes<'a>,
}

#[repr(C)]
struct Request<'a> {
    words: *const Bytes<'a>,
    word_count: usize,
    input: Bytes<'a>,
    files: *const File<'a>,
    file_count: usize,
}

#[repr(C)]
struct RawAnswer {
    status: u32,
    out: usize,
    notes: usize,
}

#[repr(C)]
#[derive(Clone, Copy)]
struct RawStored {
    name: usize,
    name_length: usize,
    bytes: usize,
    length: usize,
}

#[repr(C)]
struct RawStoredAnswer {
    status: u32,
    out: usize,
    notes: usize,
    files: usize,
    bytes: usize,
}

extern "C" {
    fn vmstate_call_stored(
        request: *const Request<'_>,
        out: *mut u8,
        out_room: usize,
        notes: *mut u8,
        notes_room: usize,
        files: *mut RawStored,
        file_room: usize,
        bytes: *mut u8,
        byte_room: usize,
    ) -> RawStoredAnswer;
    fn vmstate_call(
        request: *const Request<'_>,
        out: *mut u8,
        out_room: usize,
        notes: *mut u8,
        notes_room: usize,
    ) -> RawAnswer;
}

/// The status if a buffer is too small.
const TOO_SMALL: u32 = 100;

/// What a call answers: the status of the program, and what it would write to standard output and standard error.
#[derive(Debug, PartialEq, Eq)]
pub struct Answer {
    pub status: u32,
    pub out: Vec<u8>,
    pub notes: Vec<u8>,
}

/// Runs the command `words` on `input` and the files of the current folder, as names with bytes.
///
/// `room` is the length of the first buffer for standard output. If it is too small, a second call is made, so a caller who
/// knows the length gives that.
#[must_use]
pub fn call(words: &[&str], input: &[u8], files: &[(&str, &[u8])], room: usize) -> Answer {
    let words = borrowed_words(words);
    let files = borrowed_files(files);
    let request = Request {
        words: words.as_ptr(),
        word_count: words.len(),
        input: Bytes::new(input),
        files: files.as_ptr(),
        file_count: files.len(),
    };
    let mut answer = Answer {
        status: 0,
        out: vec![0; room],
        notes: vec![0; 256],
    };
    let mut raw = answer.fill(&request);
    // If memory runs out, a second call may need more room for its line than the first.
    while raw.status == TOO_SMALL {
        answer.out.resize(raw.out, 0);
        answer.notes.resize(raw.notes, 0);
        raw = answer.fill(&request);
    }
    answer.status = raw.status;
    answer.out.truncate(raw.out);
    answer.notes.truncate(raw.notes);
    answer
}

/// Does what [`call`] does, and also returns the files that the command stored, in the order of their names.
///
/// The first call has no buffers and finds out the lengths.
#[must_use]
pub fn call_stored(words: &[&str], input: &[u8], files: &[(&str, &[u8])]) -> (Answer, Vec<(String, Vec<u8>)>) {
    let words = borrowed_words(words);
    let files = borrowed_files(files);
    let request = Request {
        words: words.as_ptr(),
        word_count: words.len(),
        input: Bytes::new(input),
        files: files.as_ptr(),
        file_count: files.len(),
    };
    let mut rooms = Rooms::default();
    let mut raw = rooms.fill(&request);
    // As in `call`.
    while raw.status == TOO_SMALL {
        rooms = Rooms {
            out: vec![0; raw.out],
            notes: vec![0; raw.notes],
            files: vec![RawStored { name: 0, name_length: 0, bytes: 0, length: 0 }; raw.files],
            bytes: vec![0; raw.bytes],
        };
        raw = rooms.fill(&request);
    }
    let stored = rooms.files[..raw.files].iter().map(|file| file.of(&rooms.bytes)).collect();
    rooms.out.truncate(raw.out);
    rooms.notes.truncate(raw.notes);
    let answer = Answer {
        status: raw.status,
        out: rooms.out,
        notes: rooms.notes,
    };
    (answer, stored)
}

fn borrowed_words<'a>(words: &[&'a str]) -> Vec<Bytes<'a>> {
    words.iter().map(|word| Bytes::new(word.as_bytes())).collect()
}

fn borrowed_files<'a>(files: &[(&'a str, &'a [u8])]) -> Vec<File<'a>> {
    let borrowed = |(name, bytes): &(&'a str, &'a [u8])| File {
        name: Bytes::new(name.as_bytes()),
        bytes: Bytes::new(bytes),
    };
    files.iter().map(borrowed).collect()
}

/// The buffers of a call that returns files.
#[derive(Default)]
struct Rooms {
    out: Vec<u8>,
    notes: Vec<u8>,
    files: Vec<RawStored>,
    bytes: Vec<u8>,
}

impl Rooms {
    fn fill(&mut self, request: &Request<'_>) -> RawStoredAnswer {
        // SAFETY: as in `Answer::fill`.
        unsafe {
            vmstate_call_stored(
                request,
                self.out.as_mut_ptr(),
                self.out.len(),
                self.notes.as_mut_ptr(),
                self.notes.len(),
                self.files.as_mut_ptr(),
                self.files.len(),
                self.bytes.as_mut_ptr(),
                self.bytes.len(),
            )
        }
    }
}

impl RawStored {
    fn of(&self, bytes: &[u8]) -> (String, Vec<u8>) {
        let name = &bytes[self.name..self.name + self.name_length];
        let content = &bytes[self.bytes..self.bytes + self.length];
        (String::from_utf8_lossy(name).into_owned(), content.to_vec())
    }
}

impl Answer {
    fn fill(&mut self, request: &Request<'_>) -> RawAnswer {
        // SAFETY: the declarations above fit `vmstate_c`. Each pointer and its length are those of one slice, which is
        // borrowed until the call has answered. Nothing else borrows the buffers meanwhile.
        unsafe {
            vmstate_call(
                request,
                self.out.as_mut_ptr(),
                self.out.len(),
                self.notes.as_mut_ptr(),
                self.notes.len(),
            )
        }
    }
}
