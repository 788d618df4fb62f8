//! Boards of the images that a stream has, and the rules that these must keep.

use std::io::BufRead;

use crate::board::{Board, ClockBoard, Machine, LAST};
use crate::clock::Clock;
use crate::desc::DescSet;
use crate::load::load;
use crate::pic::{Chip, PicPair};
use crate::pit::{Counter, Pit};
use crate::serial::{Fifo, Serial};
use crate::shipped::{NEVER, NEWEST};
use crate::stream::{Fault, Image, Reason, Refused};

/// The longest character, and the longest timeout, in nanoseconds.
const MAX_CHARACTER: u64 = 6_826_562_500;
const MAX_TIMEOUT: u64 = 27_306_250_000;

/// The cells of the serial port in the newest set.
pub mod ser {
    pub const DIVISOR: usize = 0;
    pub const IER: usize = 1;
    pub const IIR: usize = 2;
    pub const LCR: usize = 3;
    pub const MCR: usize = 4;
    pub const LSR: usize = 5;
    pub const SCR: usize = 6;
    pub const RBR: usize = 7;
    pub const THR: usize = 8;
    pub const TSR: usize = 9;
    pub const TX_DUE: usize = 10;
    pub const FCR: usize = 11;
    pub const THR_IPENDING: usize = 12;
    pub const RX_COUNT: usize = 13;
    pub const TX_COUNT: usize = 30;
    pub const TIMEOUT_AT: usize = 47;
    pub const RX_RING: usize = 48;
    pub const TX_RING: usize = 66;
}

fn chip_of(c: &[u64], master: bool) -> Chip {
    let b = |i: usize| c[i] != 0;
    Chip {
        irr: c[0] as u8,
        isr: c[1] as u8,
        imr: c[2] as u8,
        lines: c[3] as u8,
        lowest: c[4] as u8,
        base: c[5] as u8,
        init_state: c[6] as u8,
        icw4: b(7),
        single: b(8),
        read_isr: b(9),
        poll: b(10),
        special_mask: b(11),
        auto_eoi: b(12),
        rotate: b(13),
        nested: b(14),
        elcr: c[15] as u8,
        ltim: b(16),
        master,
    }
}

fn chip_rule(c: &Chip, level: u8) -> Result<(), u8> {
    if c.lowest > 7 || c.init_state > 3 || c.base & 7 != 0 {
        return Err(1);
    }
    let allowed = match (level, c.master) {
        (1, _) => 0,
        (_, true) => 0xf8,
        (_, false) => 0xde,
    };
    if c.elcr & !allowed != 0 {
        return Err(2);
    }
    if (c.irr ^ c.lines) & c.level_inputs() != 0 {
        return Err(3);
    }
    if c.ltim && level < 4 {
        Err(4)
    } else {
        Ok(())
    }
}

fn pit_of(c: &[u64], level: u8) -> Pit {
    let counter = |i: usize| {
        let x = &c[11 * i..11 * i + 11];
        let b = |i: usize| x[i] != 0;
        Counter {
            count: x[0] as u16,
            mode: x[1] as u8,
            rw: x[2] as u8,
            bcd: b(3),
            loaded: b(4),
            load_time: x[5],
            read_high: b(6),
            wlow_held: b(7),
            wlow: x[8] as u8,
            latched: b(9),
            latch: x[10] as u16,
            status_latched: c[33 + i] != 0,
            status: c[36 + i] as u8,
        }
    };
    Pit { level, counters: [counter(0), counter(1), counter(2)] }
}

fn pit_rule(p: &Pit, now: u64) -> Result<(), u8> {
    let all =
        |ok: &dyn Fn(&Counter) -> bool, rule| if p.counters.iter().all(ok) { Ok(()) } else { Err(rule) };
    all(&|c| c.mode <= 5 && (1..=3).contains(&c.rw), 1)?;
    all(&|c| c.load_time <= now && (c.loaded || c.load_time == 0), 2)?;
    all(&|c| if c.status_latched { p.level > 1 } else { c.status == 0 }, 3)?;
    all(&|c| c.rw == 3 || !c.read_high && !c.wlow_held, 4)
}

/// A ring of sixteen elements, its head and its number, as cells.
pub struct Ring<'a> {
    pub data: &'a [u64],
    pub head: u64,
    pub number: u64,
}

impl Ring<'_> {
    pub fn at(c: &[u64], first: usize) -> Ring<'_> {
        Ring { data: &c[first..first + 16], head: c[first + 16], number: c[first + 17] }
    }

    /// Returns the bytes that it holds, from the head on.
    pub fn bytes(&self) -> impl Iterator<Item = u8> + '_ {
        (0..self.number.min(16)).map(|i| self.data[((self.head + i) & 15) as usize] as u8)
    }

    /// Returns whether it is a ring that a port leaves: what isn't used is 0.
    pub fn holds(&self) -> bool {
        let unused = |i: &u64| (i + 16 - self.head) & 15 >= self.number;
        self.head <= 15
            && self.number <= 16
            && (self.number > 0 || self.head == 0)
            && (0..16).filter(unused).all(|i| self.data[i as usize] == 0)
    }
}

fn serial_of(c: &[u64], level: u8) -> Serial {
    use ser::*;
    let b = |i: usize| c[i] as u8;
    let fifo = c[FCR] != 0;
    let list = |count: usize, ring: usize, held: bool, single: usize| match (fifo, c[count] as usize) {
        (true, 0) => Fifo::of(Ring::at(c, ring).bytes()),
        (true, n) => Fifo::of(c[count + 1..count + 1 + n].iter().map(|&x| x as u8)),
        (false, _) => Fifo::of(held.then(|| b(single)).into_iter()),
    };
    Serial {
        level,
        divisor: c[DIVISOR] as u16,
        ier: b(IER),
        lcr: b(LCR),
        mcr: b(MCR),
        scr: b(SCR),
        rx: list(RX_COUNT, RX_RING, c[LSR] & 1 != 0, RBR),
        tx: list(TX_COUNT, TX_RING, c[LSR] & 0x20 == 0, THR),
        shift: (c[TX_DUE] != NEVER).then(|| (b(TSR), c[TX_DUE])),
        overrun: c[LSR] & 2 != 0,
        thr_empty: if c[THR_IPENDING] as i64 == -1 { c[IIR] == 2 } else { c[THR_IPENDING] == 1 },
        fifo,
        trigger: if fifo { b(FCR) >> 6 } else { 0 },
        timeout: (c[TIMEOUT_AT] != NEVER).then_some(c[TIMEOUT_AT]),
    }
}

fn serial_rule(c: &[u64], p: &Serial, now: u64) -> Result<(), u8> {
    use ser::*;
    let fails = |rule: u8, bad: bool| if bad { Err(rule) } else { Ok(()) };
    let (lsr, fcr) = (c[LSR], c[FCR]);
    let rings = [Ring::at(c, RX_RING), Ring::at(c, TX_RING)];
    let [rx, tx] =
        [(RX_COUNT, &rings[0]), (TX_COUNT, &rings[1])].map(|(n, ring)| c[n] != 0 || ring.number != 0);
    let on = fcr != 0;
    fails(1, c[IER] > 15 || c[MCR] > 31 || lsr & !0x63 != 0)?;
    fails(2, on && !(p.level >= 2 && fcr & 0x3f == 1))?;
    fails(3, if on { c[RBR] != 0 || c[THR] != 0 } else { rx || tx })?;
    let bits = if on {
        (lsr & 1 != 0) == rx && (lsr & 0x20 != 0) != tx
    } else {
        (lsr & 1 != 0 || c[RBR] == 0) && (lsr & 0x20 == 0 || c[THR] == 0)
    };
    fails(4, !bits)?;
    let idle = c[TX_DUE] == NEVER;
    let shift = if idle {
        lsr & 0x20 != 0 && c[TSR] == 0
    } else {
        c[TX_DUE] > now && c[TX_DUE] <= now + MAX_CHARACTER
    };
    fails(5, (lsr & 0x40 != 0) != idle || !shift)?;
    let timed = c[TIMEOUT_AT] != NEVER;
    let timeout = if p.level <= 2 {
        !timed
    } else {
        timed == (on && rx) && !(timed && c[TIMEOUT_AT] > now + MAX_TIMEOUT)
    };
    fails(6, !timeout)?;
    fails(7, !(-1..=1).contains(&(c[THR_IPENDING] as i64)) || p.thr_empty && lsr & 0x20 == 0)?;
    fails(8, c[IIR] != p.ident(now) as u64)?;
    fails(9, c[RX_COUNT] != 0 && rings[0].number != 0 || c[TX_COUNT] != 0 && rings[1].number != 0)?;
    fails(10, !rings.iter().all(Ring::holds))
}

/// Returns the board of `level` of these images, of the devices from the timer on.
pub fn board_of(level: u8, images: &[Image]) -> Result<Board, (usize, Reason)> {
    let unsound = |device: usize| move |rule: u8| (device, Reason::Unsound(rule));
    let now = images[0].cells[0];
    if now > LAST {
        return Err(unsound(0)(1));
    }
    let master = chip_of(&images[1].cells, true);
    chip_rule(&master, level).map_err(unsound(1))?;
    let slave = chip_of(&images[2].cells, false);
    chip_rule(&slave, level).map_err(unsound(2))?;
    let pit = pit_of(&images[3].cells, level);
    pit_rule(&pit, now).map_err(unsound(3))?;
    let serial = serial_of(&images[4].cells, level);
    serial_rule(&images[4].cells, &serial, now).map_err(unsound(4))?;
    let board = Board { level, now, pair: PicPair { level, master, slave }, pit, serial };
    if board.pair.master.lines & 0x15 != board.inputs() {
        return Err((1, Reason::LinesDisagree));
    }
    Ok(board)
}

fn clock_of(c: &[u64], version: u8) -> Result<Clock, u8> {
    let cmos: [u8; 64] = std::array::from_fn(|i| c[1 + i] as u8);
    let clock = Clock { version, index: c[0] as u8, cmos, nmi_mask: c[65] != 0, pf: c[66] != 0 };
    if clock.index > 63 {
        return Err(1);
    }
    if cmos[0x0a] > 127 || cmos[0x0c] != 0 || cmos[0x0d] != 0 {
        return Err(2);
    }
    if clock.nmi_mask && version == 1 {
        Err(3)
    } else {
        Ok(clock)
    }
}

/// Returns the clock board of `version` of these images.
pub fn clock_board_of(version: u8, images: &[Image]) -> Result<ClockBoard, (usize, Reason)> {
    let clock = clock_of(&images[0].cells, version).map_err(|rule| (0, Reason::Unsound(rule)))?;
    let slave_lines = images[3].cells[3];
    if (slave_lines & 1 != 0) != clock.line() {
        return Err((0, Reason::Unsound(4)));
    }
    let board = board_of(NEWEST, &images[1..]).map_err(|(device, reason)| (device + 1, reason))?;
    Ok(ClockBoard { clock, board })
}

/// Loads a stream of the newest set, which names the machine of `level` or none, and returns its board and its length.
pub fn restore<M: Machine, R: BufRead>(
    level: u8,
    newest: &DescSet,
    images: &mut [Image],
    r: &mut R,
) -> Result<(M, u64), Fault> {
    let only = &newest.machines[level as usize - 1..level as usize];
    let (_, at) = load(newest, only, images, r)?;
    let refused = |(device, reason)| Fault::Refused(Refused { at, section: Some(device), reason });
    Ok((M::of_images(level, images).map_err(refused)?, at))
}
