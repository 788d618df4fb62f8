//! The serial port, a 16450 or 16550A.

const SECOND: u64 = 1_000_000_000;

/// At most sixteen bytes.
#[derive(Clone, Default)]
pub struct Fifo {
    bytes: [u8; 16],
    head: u8,
    len: u8,
}

impl Fifo {
    pub fn of(bytes: impl Iterator<Item = u8>) -> Fifo {
        let mut f = Fifo::default();
        bytes.for_each(|b| f.push(b));
        f
    }
    pub fn len(&self) -> usize {
        self.len as usize
    }
    pub fn is_empty(&self) -> bool {
        self.len == 0
    }
    pub fn push(&mut self, b: u8) {
        self.bytes[((self.head + self.len) & 15) as usize] = b;
        self.len += 1;
    }
    pub fn pop(&mut self) -> Option<u8> {
        if self.len == 0 {
            return None;
        }
        let b = self.bytes[self.head as usize];
        self.head = (self.head + 1) & 15;
        self.len -= 1;
        Some(b)
    }
    pub fn clear(&mut self) {
        self.len = 0;
    }
    pub fn get(&self, i: usize) -> Option<u8> {
        (i < self.len()).then(|| self.bytes[(self.head as usize + i) & 15])
    }
}

/// The bytes that left the port in one event.
#[derive(Default)]
pub struct Sent {
    bytes: [u8; 17],
    len: u8,
}

impl Sent {
    fn push(&mut self, b: u8) {
        self.bytes[self.len as usize] = b;
        self.len += 1;
    }
    pub fn bytes(&self) -> &[u8] {
        &self.bytes[..self.len as usize]
    }
}

#[derive(Clone, Default)]
pub struct Serial {
    pub level: u8,
    pub divisor: u16,
    pub ier: u8,
    pub lcr: u8,
    pub mcr: u8,
    pub scr: u8,
    pub rx: Fifo,
    pub tx: Fifo,
    /// The byte in the shift register and the moment at which it has left.
    pub shift: Option<(u8, u64)>,
    pub overrun: bool,
    pub thr_empty: bool,
    pub fifo: bool,
    pub trigger: u8,
    pub timeout: Option<u64>,
}

impl Serial {
    pub fn new(level: u8) -> Serial {
        Serial { level, divisor: 12, ..Serial::default() }
    }

    fn character(&self) -> u64 {
        let l = self.lcr;
        let bits = (7 + (l & 3) + (l >> 3 & 1) + (l >> 2 & 1)) as u64;
        bits * self.divisor.max(1) as u64 * SECOND / 115_200
    }

    fn begin(&mut self, t: u64) {
        if let Some(b) = self.tx.pop() {
            self.shift = Some((b, t + self.character()));
            if self.tx.is_empty() {
                self.thr_empty = true;
            }
        }
    }

    pub fn advance(&mut self, to: u64) -> Sent {
        let mut sent = Sent::default();
        while let Some((b, due)) = self.shift {
            if due > to {
                break;
            }
            self.shift = None;
            if self.mcr & 0x10 != 0 {
                self.receive(b, due);
            } else {
                sent.push(b);
            }
            self.begin(due);
        }
        sent
    }

    pub fn byte_in(&mut self, b: u8, now: u64) {
        if self.mcr & 0x10 == 0 {
            self.receive(b, now);
        }
    }

    fn receive(&mut self, b: u8, t: u64) {
        if !self.fifo {
            self.overrun |= !self.rx.is_empty();
            self.rx.clear();
            self.rx.push(b);
            return;
        }
        if self.rx.len() == 16 {
            self.overrun = true;
        } else {
            self.rx.push(b);
        }
        if self.level >= 3 {
            self.timeout = Some(t + 4 * self.character());
        }
    }

    #[inline]
    pub fn ident(&self, now: u64) -> u8 {
        if self.ier & 4 != 0 && self.overrun {
            return 6;
        }
        if self.ier & 1 != 0 {
            let least = if self.fifo { [1, 4, 8, 14][self.trigger as usize] } else { 1 };
            if self.rx.len() >= least {
                return 4;
            }
            if self.level >= 3 && self.timeout.is_some_and(|t| t <= now) {
                return 0xc;
            }
        }
        if self.ier & 2 != 0 && self.thr_empty {
            2
        } else {
            1
        }
    }

    pub fn lsr(&self) -> u8 {
        let idle = self.tx.is_empty() && self.shift.is_none();
        !self.rx.is_empty() as u8
            | (self.overrun as u8) << 1
            | (self.tx.is_empty() as u8) << 5
            | (idle as u8) << 6
    }

    pub fn read(&mut self, offset: u16, now: u64) -> u8 {
        let dlab = self.lcr & 0x80 != 0;
        match offset {
            0 if dlab => self.divisor as u8,
            0 => {
                let Some(b) = self.rx.pop() else { return 0 };
                if self.level >= 3 && self.fifo {
                    self.timeout = (!self.rx.is_empty()).then(|| now + 4 * self.character());
                }
                b
            }
            1 if dlab => (self.divisor >> 8) as u8,
            1 => self.ier,
            2 => {
                let id = self.ident(now);
                if id == 2 {
                    self.thr_empty = false;
                }
                id | if self.fifo { 0xc0 } else { 0 }
            }
            3 => self.lcr,
            4 => self.mcr,
            5 => {
                let v = self.lsr();
                self.overrun = false;
                v
            }
            6 if self.mcr & 0x10 == 0 => 0xb0,
            6 => {
                let m = self.mcr;
                (m >> 1 & 1) << 4 | (m & 1) << 5 | (m >> 2 & 1) << 6 | (m >> 3 & 1) << 7
            }
            _ => self.scr,
        }
    }

    fn control_fifos(&mut self, v: u8) {
        let on = v & 1 != 0;
        if on != self.fifo || on && v & 2 != 0 {
            self.rx.clear();
            self.timeout = None;
        }
        if on != self.fifo || on && v & 4 != 0 {
            self.thr_empty |= !self.tx.is_empty();
            self.tx.clear();
        }
        self.fifo = on;
        self.trigger = if on { v >> 6 } else { 0 };
    }

    pub fn write(&mut self, offset: u16, v: u8, now: u64) {
        let dlab = self.lcr & 0x80 != 0;
        match offset {
            0 if dlab => self.divisor = self.divisor & 0xff00 | v as u16,
            0 => {
                self.thr_empty = false;
                if !self.fifo {
                    self.tx.clear();
                    self.tx.push(v);
                } else if self.tx.len() < 16 {
                    self.tx.push(v);
                }
                if self.shift.is_none() {
                    self.begin(now);
                }
            }
            1 if dlab => self.divisor = self.divisor & 0xff | (v as u16) << 8,
            1 => {
                let before = std::mem::replace(&mut self.ier, v & 15);
                if self.ier & !before & 2 != 0 {
                    self.thr_empty = self.tx.is_empty();
                }
            }
            2 if self.level >= 2 => self.control_fifos(v),
            3 => self.lcr = v,
            4 => self.mcr = v & 0x1f,
            7 => self.scr = v,
            _ => {}
        }
    }
}
