//! The 8259A pair.

#[derive(Clone, Default)]
pub struct Chip {
    pub irr: u8,
    pub isr: u8,
    pub imr: u8,
    pub lines: u8,
    pub lowest: u8,
    pub base: u8,
    pub init_state: u8,
    pub icw4: bool,
    pub single: bool,
    pub read_isr: bool,
    pub poll: bool,
    pub special_mask: bool,
    pub auto_eoi: bool,
    pub rotate: bool,
    pub nested: bool,
    pub elcr: u8,
    pub ltim: bool,
    pub master: bool,
}

impl Chip {
    fn new(master: bool) -> Chip {
        Chip { lowest: 7, master, ..Chip::default() }
    }

    #[inline]
    pub fn level_inputs(&self) -> u8 {
        if self.ltim {
            0xff
        } else {
            self.elcr
        }
    }

    #[inline]
    pub fn take_lines(&mut self, inputs: u8, edges: u8) {
        let rising = (inputs & !self.lines) | edges;
        let levels = self.level_inputs();
        self.irr = ((self.irr | rising) & !levels) | (inputs & levels);
        self.lines = inputs;
    }

    /// Returns the position of the first of `bits` in priority order, 8 if there is none.
    #[inline]
    fn first(&self, bits: u8) -> u32 {
        bits.rotate_right(self.lowest as u32 + 1).trailing_zeros()
    }

    #[inline]
    fn input(&self, place: u32) -> u8 {
        (self.lowest + 1 + place as u8) & 7
    }

    #[inline]
    pub fn winner(&self) -> Option<u8> {
        let requests = self.irr & !self.imr;
        if requests == 0 {
            return None;
        }
        let mut counts = self.isr;
        if self.special_mask {
            counts &= !self.imr;
        }
        if self.master && self.nested {
            counts &= !4;
        }
        let place = self.first(requests);
        (place < self.first(counts)).then(|| self.input(place))
    }

    fn take_winner(&mut self, w: u8) {
        if !self.auto_eoi {
            self.isr |= 1 << w;
        } else if self.rotate {
            self.lowest = w;
        }
        if self.level_inputs() >> w & 1 == 0 {
            self.irr &= !(1 << w);
        }
    }

    fn read(&mut self, odd: bool) -> u8 {
        if std::mem::take(&mut self.poll) {
            return match self.winner() {
                Some(w) => {
                    self.take_winner(w);
                    0x80 + w
                }
                None => 0,
            };
        }
        match (odd, self.read_isr) {
            (true, _) => self.imr,
            (false, true) => self.isr,
            (false, false) => self.irr,
        }
    }

    fn write_even(&mut self, v: u8, level: u8) {
        if v & 0x10 != 0 {
            self.initialize(v, level);
        } else if v & 0x08 != 0 {
            if v & 0x40 != 0 {
                self.special_mask = v & 0x20 != 0;
            }
            if v & 0x04 != 0 {
                self.poll = true;
            }
            if v & 0x02 != 0 {
                self.read_isr = v & 1 != 0;
            }
        } else {
            self.command(v);
        }
    }

    fn initialize(&mut self, v: u8, level: u8) {
        if level >= 4 {
            self.ltim = v & 8 != 0;
        }
        self.imr = 0;
        self.isr = 0;
        self.irr &= self.level_inputs();
        self.lowest = 7;
        (self.read_isr, self.poll, self.special_mask, self.rotate) = (false, false, false, false);
        self.icw4 = v & 1 != 0;
        self.single = v & 2 != 0;
        self.init_state = 1;
        if !self.icw4 {
            self.auto_eoi = false;
            self.nested = false;
        }
    }

    fn command(&mut self, v: u8) {
        let n = v & 7;
        match v >> 5 {
            0b001 | 0b101 => {
                let bits = if self.special_mask { self.isr & !self.imr } else { self.isr };
                if bits != 0 {
                    let w = self.input(self.first(bits));
                    self.isr &= !(1 << w);
                    if v & 0x80 != 0 {
                        self.lowest = w;
                    }
                }
            }
            0b011 => self.isr &= !(1 << n),
            0b111 => {
                self.isr &= !(1 << n);
                self.lowest = n;
            }
            0b100 => self.rotate = true,
            0b000 => self.rotate = false,
            0b110 => self.lowest = n,
            _ => {}
        }
    }

    fn write_odd(&mut self, v: u8) {
        let after = if self.icw4 { 3 } else { 0 };
        match self.init_state {
            0 => self.imr = v,
            1 => {
                self.base = v & 0xf8;
                self.init_state = if self.single { after } else { 2 };
            }
            2 => self.init_state = after,
            _ => {
                self.auto_eoi = v & 0x02 != 0;
                self.nested = v & 0x10 != 0;
                self.init_state = 0;
            }
        }
    }
}

#[derive(Clone)]
pub struct PicPair {
    pub level: u8,
    pub master: Chip,
    pub slave: Chip,
}

impl PicPair {
    pub fn new(level: u8) -> PicPair {
        PicPair { level, master: Chip::new(true), slave: Chip::new(false) }
    }

    fn chip(&mut self, port: u16) -> &mut Chip {
        if port & 0x80 == 0 {
            &mut self.master
        } else {
            &mut self.slave
        }
    }

    pub fn read(&mut self, port: u16) -> u8 {
        match port {
            0x4d0 => self.master.elcr,
            0x4d1 => self.slave.elcr,
            _ => self.chip(port).read(port & 1 != 0),
        }
    }

    pub fn write(&mut self, port: u16, v: u8) {
        match port {
            0x4d0 => self.master.elcr = v & 0xf8,
            0x4d1 => self.slave.elcr = v & 0xde,
            _ if port & 1 == 0 => {
                let level = self.level;
                self.chip(port).write_even(v, level);
            }
            _ => self.chip(port).write_odd(v),
        }
    }

    pub fn ack(&mut self) -> u8 {
        match self.master.winner() {
            None => self.master.base.wrapping_add(7),
            Some(2) => {
                let w = self.slave.winner();
                if let Some(w) = w {
                    self.slave.take_winner(w);
                }
                self.master.take_winner(2);
                self.master.lines &= !4;
                self.slave.base + w.unwrap_or(7)
            }
            Some(w) => {
                self.master.take_winner(w);
                self.master.base + w
            }
        }
    }
}
