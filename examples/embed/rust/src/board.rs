//! A safe board over the static library of `vmstate_board_c`.
//!
//! Nothing compares these declarations with those of `crates/vmstate_board_c/src`, and nothing checks the pointers.

use std::{error, fmt, ptr};

#[repr(C)]
struct RawBoard {
    at: *mut u8,
    made: bool,
}

#[repr(C)]
#[derive(Clone, Copy)]
struct RawAnswer {
    status: u32,
    value: u8,
    output: u8,
    count: u8,
    sent: [u8; 17],
}

#[repr(C)]
struct RawNumber {
    status: u32,
    number: u64,
}

#[repr(C)]
struct RawRestored {
    status: u32,
    device: u32,
    offset: u64,
    reason: u32,
    rule: u32,
}

extern "C" {
    fn vmstate_board_new(board: *mut RawBoard, kind: u8, level: u8) -> u32;
    fn vmstate_board_free(board: *mut RawBoard);
    fn vmstate_board_in(board: *mut RawBoard, moment: u64, port: u16) -> RawAnswer;
    fn vmstate_board_out(board: *mut RawBoard, moment: u64, port: u16, value: u8) -> RawAnswer;
    fn vmstate_board_receive(board: *mut RawBoard, moment: u64, value: u8) -> RawAnswer;
    fn vmstate_board_wire(board: *mut RawBoard, moment: u64, input: u8, up: bool) -> RawAnswer;
    fn vmstate_board_advance(board: *mut RawBoard, moment: u64) -> RawAnswer;
    fn vmstate_board_ack(board: *mut RawBoard) -> RawAnswer;
    fn vmstate_board_int(board: *mut RawBoard) -> RawNumber;
    fn vmstate_board_output(board: *mut RawBoard, counter: u8) -> RawNumber;
    fn vmstate_board_room(board: *mut RawBoard) -> RawNumber;
    fn vmstate_board_character(board: *mut RawBoard) -> RawNumber;
    fn vmstate_board_due(board: *mut RawBoard) -> RawNumber;
    fn vmstate_board_has_port(board: *mut RawBoard, port: u16) -> RawNumber;
    fn vmstate_board_now(board: *mut RawBoard) -> RawNumber;
    fn vmstate_board_save(board: *mut RawBoard, set: u8, describe: bool, room: *mut u8, size: usize) -> RawNumber;
    fn vmstate_board_restore(board: *mut RawBoard, stream: *const u8, size: usize) -> RawRestored;
}

/// Kinds of boards.
#[derive(Clone, Copy, Debug, PartialEq, Eq)]
pub enum Kind {
    /// `isa-1` to `isa-4`.
    Isa = 0,
    /// `clk-1` and `clk-2`.
    Clk = 1,
}

/// Why a call did nothing. The board is as it was.
#[derive(Clone, Copy, Debug, PartialEq, Eq)]
pub enum Fault {
    /// There is no such kind, level, set, wire or counter.
    NoneSuch,
    /// The moment is before the board's.
    Past,
    /// Out of memory.
    NoMemory,
    /// The stream is refused: where, for which device of the newest set, and why. `rule` is the number of the device's rule, or 0.
    Refused {
        offset: u64,
        device: Option<u32>,
        reason: u32,
        rule: u32,
    },
}

impl fmt::Display for Fault {
    fn fmt(&self, f: &mut fmt::Formatter<'_>) -> fmt::Result {
        match self {
            Fault::NoneSuch => write!(f, "no such kind, level, set, wire or counter"),
            Fault::Past => write!(f, "the moment is before the board's"),
            Fault::NoMemory => write!(f, "out of memory"),
            Fault::Refused {
                offset,
                device,
                reason,
                rule,
            } => {
                write!(f, "refused at {offset}")?;
                if let Some(device) = device {
                    write!(f, ", device {device}")?;
                }
                write!(f, ", reason {reason}, rule {rule}")
            }
        }
    }
}

impl error::Error for Fault {}

/// What an event answers: the value of a read or an acknowledge, whether the interrupt output is high, and the bytes that left the
/// serial port.
#[derive(Clone, Copy)]
pub struct Answer {
    pub value: u8,
    pub output: bool,
    sent: [u8; 17],
    count: usize,
}

impl Answer {
    /// Returns the bytes that left the serial port, first out first.
    #[must_use]
    pub fn sent(&self) -> &[u8] {
        &self.sent[..self.count]
    }
}

/// A board of one kind and level. It has no clock: each access says its moment, in nanoseconds since power on.
///
/// It isn't `Send`: a board stays on its thread.
pub struct Board {
    raw: RawBoard,
}

impl Drop for Board {
    fn drop(&mut self) {
        // SAFETY: the handle is as a call left it.
        unsafe { vmstate_board_free(&mut self.raw) }
    }
}

impl Board {
    /// Returns the board of a kind and a level at power on.
    ///
    /// # Errors
    ///
    /// [`Fault::NoneSuch`] if there is no such board, [`Fault::NoMemory`] if memory runs out.
    pub fn new(kind: Kind, level: u8) -> Result<Board, Fault> {
        let mut raw = RawBoard {
            at: ptr::null_mut(),
            made: false,
        };
        // SAFETY: all zeros are a handle of no board.
        done(unsafe { vmstate_board_new(&mut raw, kind as u8, level) })?;
        Ok(Board { raw })
    }

    /// Reads a port at a moment.
    ///
    /// # Errors
    ///
    /// [`Fault::Past`] if the moment is before the board's.
    pub fn read(&mut self, moment: u64, port: u16) -> Result<Answer, Fault> {
        // SAFETY: here and below, the handle is as a call left it, and lent to this call alone.
        answer(unsafe { vmstate_board_in(&mut self.raw, moment, port) })
    }

    /// Writes a byte to a port at a moment.
    ///
    /// # Errors
    ///
    /// [`Fault::Past`] if the moment is before the board's.
    pub fn write(&mut self, moment: u64, port: u16, value: u8) -> Result<Answer, Fault> {
        answer(unsafe { vmstate_board_out(&mut self.raw, moment, port, value) })
    }

    /// A byte arrives on the serial line at a moment.
    ///
    /// # Errors
    ///
    /// [`Fault::Past`] if the moment is before the board's.
    pub fn receive(&mut self, moment: u64, value: u8) -> Result<Answer, Fault> {
        answer(unsafe { vmstate_board_receive(&mut self.raw, moment, value) })
    }

    /// A wire rises or falls at a moment.
    ///
    /// # Errors
    ///
    /// [`Fault::NoneSuch`] if the input is no wire, [`Fault::Past`] if the moment is before the board's.
    pub fn wire(&mut self, moment: u64, input: u8, up: bool) -> Result<Answer, Fault> {
        answer(unsafe { vmstate_board_wire(&mut self.raw, moment, input, up) })
    }

    /// Lets time pass up to a moment.
    ///
    /// # Errors
    ///
    /// [`Fault::Past`] if the moment is before the board's.
    pub fn advance(&mut self, moment: u64) -> Result<Answer, Fault> {
        answer(unsafe { vmstate_board_advance(&mut self.raw, moment) })
    }

    /// Acknowledges an interrupt: the value is its vector.
    ///
    /// # Errors
    ///
    /// None: there is a board.
    pub fn ack(&mut self) -> Result<Answer, Fault> {
        answer(unsafe { vmstate_board_ack(&mut self.raw) })
    }

    /// Tells whether the interrupt output is high.
    #[must_use]
    pub fn int(&mut self) -> bool {
        unsafe { vmstate_board_int(&mut self.raw) }.number == 1
    }

    /// Tells whether OUT of a counter, 0 to 2, is high.
    ///
    /// # Errors
    ///
    /// [`Fault::NoneSuch`] if there is no such counter.
    pub fn output(&mut self, counter: u8) -> Result<bool, Fault> {
        Ok(number(unsafe { vmstate_board_output(&mut self.raw, counter) })? == 1)
    }

    /// Returns how many bytes may arrive on the serial line before one is lost.
    #[must_use]
    pub fn room(&mut self) -> u64 {
        unsafe { vmstate_board_room(&mut self.raw) }.number
    }

    /// Returns the time of one character on the serial line, in nanoseconds.
    #[must_use]
    pub fn character(&mut self) -> u64 {
        unsafe { vmstate_board_character(&mut self.raw) }.number
    }

    /// Returns the least wait, in nanoseconds, after which the interrupt output has changed or bytes have left, or `None` if no
    /// wait changes it and none lets bytes leave.
    #[must_use]
    pub fn due(&mut self) -> Option<u64> {
        let wait = unsafe { vmstate_board_due(&mut self.raw) }.number;
        (wait != u64::MAX).then_some(wait)
    }

    /// Tells whether a device of the board is behind a port.
    #[must_use]
    pub fn has_port(&mut self, port: u16) -> bool {
        unsafe { vmstate_board_has_port(&mut self.raw, port) }.number == 1
    }

    /// Returns the board's moment.
    #[must_use]
    pub fn now(&mut self) -> u64 {
        unsafe { vmstate_board_now(&mut self.raw) }.number
    }

    /// Returns the board's stream under a set, with the description of itself or without.
    ///
    /// # Errors
    ///
    /// [`Fault::NoneSuch`] if the set is none of the board's, [`Fault::NoMemory`] if memory runs out.
    pub fn save(&mut self, set: u8, describe: bool) -> Result<Vec<u8>, Fault> {
        let mut stream = vec![0; 8192];
        loop {
            let raw = unsafe { vmstate_board_save(&mut self.raw, set, describe, stream.as_mut_ptr(), stream.len()) };
            let length = usize::try_from(raw.number).map_err(|_| Fault::NoMemory)?;
            if raw.status != TOO_SMALL {
                number(raw)?;
                stream.truncate(length);
                return Ok(stream);
            }
            stream.resize(length, 0);
        }
    }

    /// Restores the board from a stream, and returns the stream's length.
    ///
    /// # Errors
    ///
    /// [`Fault::Refused`] if the stream is none of this board; the board is as it was.
    pub fn restore(&mut self, stream: &[u8]) -> Result<u64, Fault> {
        let raw = unsafe { vmstate_board_restore(&mut self.raw, stream.as_ptr(), stream.len()) };
        if raw.status == REFUSED {
            return Err(Fault::Refused {
                offset: raw.offset,
                device: (raw.device != u32::MAX).then_some(raw.device),
                reason: raw.reason,
                rule: raw.rule,
            });
        }
        done(raw.status)?;
        Ok(raw.offset)
    }
}

const REFUSED: u32 = 1;
const NONE_SUCH: u32 = 2;
const PAST: u32 = 4;
const NO_MEMORY: u32 = 10;
const TOO_SMALL: u32 = 100;

fn done(status: u32) -> Result<(), Fault> {
    match status {
        0 => Ok(()),
        NONE_SUCH => Err(Fault::NoneSuch),
        PAST => Err(Fault::Past),
        NO_MEMORY => Err(Fault::NoMemory),
        _ => unreachable!("the library answers no other status to a board that is there"),
    }
}

fn answer(raw: RawAnswer) -> Result<Answer, Fault> {
    done(raw.status)?;
    Ok(Answer {
        value: raw.value,
        output: raw.output == 1,
        sent: raw.sent,
        count: usize::from(raw.count),
    })
}

fn number(raw: RawNumber) -> Result<u64, Fault> {
    done(raw.status)?;
    Ok(raw.number)
}
