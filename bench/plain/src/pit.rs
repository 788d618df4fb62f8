//! The timer chip, an 8253 or 8254.

#[derive(Clone, Default)]
pub struct Counter {
    pub count: u16,
    pub mode: u8,
    pub rw: u8,
    pub bcd: bool,
    pub loaded: bool,
    pub load_time: u64,
    pub read_high: bool,
    pub wlow_held: bool,
    pub wlow: u8,
    pub latched: bool,
    pub latch: u16,
    pub status_latched: bool,
    pub status: u8,
}

const HZ: u64 = 1_193_182;
const SECOND: u64 = 1_000_000_000;

impl Counter {
    fn n(&self) -> u64 {
        if self.count == 0 {
            65_536
        } else {
            self.count as u64
        }
    }

    /// Returns the ticks since the load: of whole seconds and of the rest, so that 64 bits hold each product.
    #[inline]
    fn ticks(&self, t: u64) -> u64 {
        let d = t - self.load_time;
        d / SECOND * HZ + d % SECOND * HZ / SECOND
    }

    fn live(&self, t: u64) -> u16 {
        if !self.loaded || matches!(self.mode, 1 | 5) {
            return self.count;
        }
        let (n, k) = (self.n(), self.ticks(t));
        let x = match self.mode {
            0 | 4 => n.wrapping_sub(k),
            _ if n == 1 => 1,
            2 => n - k % n,
            _ => {
                let (j, h, e) = (k % n, n.div_ceil(2), n & !1);
                if j < h {
                    e.wrapping_sub(2 * j)
                } else {
                    e - 2 * (j - h)
                }
            }
        };
        x as u16
    }

    #[inline]
    pub fn out(&self, t: u64) -> bool {
        if !self.loaded {
            return self.mode != 0;
        }
        let n = self.n();
        match self.mode {
            0 => self.ticks(t) >= n,
            1 | 5 => true,
            4 => self.ticks(t) != n,
            _ if n == 1 => true,
            2 => self.ticks(t) % n != n - 1,
            _ => self.ticks(t) % n < n.div_ceil(2),
        }
    }

    /// Returns whether OUT rises after `t0` and not after `t1`.
    pub fn edge(&self, t0: u64, t1: u64) -> bool {
        if !self.loaded || matches!(self.mode, 1 | 5) {
            return false;
        }
        let (n, a, b) = (self.n(), self.ticks(t0), self.ticks(t1));
        match self.mode {
            0 => a < n && b >= n,
            4 => a <= n && b > n,
            _ => n != 1 && b / n > a / n,
        }
    }

    fn latch_count(&mut self, t: u64) {
        if !self.latched {
            self.latch = self.live(t);
            self.latched = true;
        }
    }

    fn latch_status(&mut self, t: u64) {
        if !self.status_latched {
            self.status = (self.out(t) as u8) << 7 | self.rw << 4 | self.mode << 1 | self.bcd as u8;
            self.status_latched = true;
        }
    }

    fn load(&mut self, count: u16, t: u64) {
        self.count = count;
        self.loaded = true;
        self.load_time = t;
    }

    fn write(&mut self, v: u8, t: u64) {
        match self.rw {
            1 => self.load(v as u16, t),
            2 => self.load((v as u16) << 8, t),
            _ if self.wlow_held => {
                self.wlow_held = false;
                let low = std::mem::take(&mut self.wlow);
                self.load(u16::from_le_bytes([low, v]), t);
            }
            _ => {
                self.wlow = v;
                self.wlow_held = true;
            }
        }
    }

    fn read(&mut self, t: u64) -> u8 {
        if std::mem::take(&mut self.status_latched) {
            return std::mem::take(&mut self.status);
        }
        let [high, low] = if self.latched { self.latch } else { self.live(t) }.to_be_bytes();
        let (value, done) = match self.rw {
            1 => (low, true),
            2 => (high, true),
            _ => {
                let second = self.read_high;
                self.read_high = !second;
                (if second { high } else { low }, second)
            }
        };
        if done {
            self.latched = false;
            self.latch = 0;
        }
        value
    }
}

#[derive(Clone)]
pub struct Pit {
    pub level: u8,
    pub counters: [Counter; 3],
}

impl Pit {
    pub fn new(level: u8) -> Pit {
        let c = Counter { rw: 3, ..Counter::default() };
        Pit { level, counters: [c.clone(), c.clone(), c] }
    }

    pub fn read(&mut self, counter: usize, now: u64) -> u8 {
        self.counters[counter].read(now)
    }

    pub fn write(&mut self, port: u16, v: u8, now: u64) {
        if port != 0x43 {
            return self.counters[(port - 0x40) as usize].write(v, now);
        }
        let which = (v >> 6) as usize;
        if which == 3 {
            if self.level == 1 {
                return;
            }
            for (i, c) in self.counters.iter_mut().enumerate() {
                if v >> (i + 1) & 1 != 0 {
                    if v & 0x20 == 0 {
                        c.latch_count(now);
                    }
                    if v & 0x10 == 0 {
                        c.latch_status(now);
                    }
                }
            }
        } else if v & 0x30 == 0 {
            self.counters[which].latch_count(now);
        } else {
            let mode = v >> 1 & 7;
            let count = self.counters[which].count;
            self.counters[which] = Counter {
                count,
                rw: v >> 4 & 3,
                mode: if mode >= 6 { mode - 4 } else { mode },
                bcd: v & 1 != 0,
                ..Counter::default()
            };
        }
    }
}
