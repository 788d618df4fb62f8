//! The clock chip, an MC146818, as far as its periodic interrupt needs it.

const HZ: u64 = 32_768;
const SECOND: u64 = 1_000_000_000;

#[derive(Clone)]
pub struct Clock {
    pub version: u8,
    pub index: u8,
    pub cmos: [u8; 64],
    pub nmi_mask: bool,
    pub pf: bool,
}

fn ticks(t: u64) -> u64 {
    t / SECOND * HZ + t % SECOND * HZ / SECOND
}

impl Clock {
    pub fn new(version: u8) -> Clock {
        Clock { version, index: 0, cmos: [0; 64], nmi_mask: false, pf: false }
    }

    /// Returns whether the chip asks for an interrupt.
    pub fn line(&self) -> bool {
        self.pf && self.cmos[0x0b] & 0x40 != 0
    }

    fn period(&self) -> Option<u64> {
        let a = self.cmos[0x0a];
        match (a >> 4 & 7, a & 15) {
            (2, 0) => None,
            (2, n @ (1 | 2)) => Some(64 << n),
            (2, n) => Some(1 << (n - 1)),
            _ => None,
        }
    }

    /// Lets the time from `from` to `to` pass.
    pub fn advance(&mut self, from: u64, to: u64) {
        if let Some(p) = self.period() {
            self.pf |= ticks(to) / p > ticks(from) / p;
        }
    }

    /// Reads port 0x70 or 0x71.
    pub fn read(&mut self, port: u16) -> u8 {
        match (port, self.index) {
            (0x70, _) if self.version == 1 => 0xff,
            (0x70, index) => index | (self.nmi_mask as u8) << 7,
            (_, 0x0c) => {
                let asked = self.line();
                let pf = std::mem::take(&mut self.pf);
                (pf as u8) << 6 | (asked as u8) << 7
            }
            (_, 0x0d) => 0x80,
            (_, index) => self.cmos[index as usize],
        }
    }

    /// Writes port 0x70 or 0x71.
    pub fn write(&mut self, port: u16, v: u8) {
        match (port, self.index) {
            (0x70, _) => {
                self.index = v & 63;
                self.nmi_mask = self.version >= 2 && v & 0x80 != 0;
            }
            (_, 0x0a) => self.cmos[0x0a] = v & 0x7f,
            (_, 0x0c | 0x0d) => {}
            (_, index) => self.cmos[index as usize] = v,
        }
    }
}
