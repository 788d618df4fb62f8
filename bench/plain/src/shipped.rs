//! The shipped sets `@0` to `@4`, `@c1` and `@c2`.

use crate::desc::{Atom, Count, Desc, DescSet, Device, Field, Item, Kind, Kind::*, Rel, Sub, Test};

/// The newest set of the boards `isa-1` to `isa-4`, and of the clock boards.
pub const NEWEST: u8 = 4;
pub const NEWEST_CLOCK: u8 = 2;

/// The number of a timer that isn't pending.
pub const NEVER: u64 = u64::MAX;

/// The word of a shipped set: `@N` or `@cN`.
#[derive(Clone, Copy, PartialEq)]
pub enum Shipped {
    Isa(u8),
    Clock(u8),
}

fn num(name: &str, kind: Kind) -> Field {
    Field {
        name: name.into(),
        former: vec![],
        item: Item::Num(kind),
        count: Count::One,
        since: 0,
        test: None,
        default: 0,
        offset: 0,
        step: 0,
        least: None,
    }
}

fn array(name: &str, kind: Kind, count: u32) -> Field {
    Field { count: Count::Fixed(count), ..num(name, kind) }
}

fn never(name: &str) -> Field {
    Field { default: NEVER as i128, ..num(name, Timer) }
}

fn atom(field: u32, mask: u64, rel: Rel, value: u64) -> Test {
    Test::Cell(Atom { parent: false, field, mask, rel, value, offset: 0, cut: 0 })
}

fn any_of(one: u32, other: u32) -> Test {
    Test::Or(Box::new(atom(one, 255, Rel::Ge, 1)), Box::new(atom(other, 255, Rel::Ge, 1)))
}

fn sub(name: &str, fields: Vec<Field>, needed: Test) -> Sub {
    Sub { desc: Desc::new(name, 1, 1, fields), needed, base: 0 }
}

fn device(instance: u32, desc: Desc, subs: Vec<Sub>) -> Device {
    Device { instance, desc, subs, defaults: vec![] }
}

fn timer() -> Device {
    device(0, Desc::new("timer", 1, 1, vec![num("now", U64)]), vec![])
}

fn pit_channel(s: u8) -> Desc {
    let when = |f: Field, by| Field { test: Some(atom(by, 1, Rel::Eq, 1)), ..f };
    let gate = if s == 1 { Item::Equal(U8, 1) } else { Item::Unused(1) };
    let fields = vec![
        num("count", U16),
        num("mode", U8),
        num("rw", U8),
        num("bcd", Bool),
        num("loaded", Bool),
        num("load_time", U64),
        num("read_high", Bool),
        num("wlow_held", Bool),
        when(num("wlow", U8), 7),
        num("latched", Bool),
        when(num("latch", U16), 9),
        Field { item: gate, ..num("gate", U8) },
    ];
    Desc::new("pit_channel", 1, 1, fields)
}

fn i8259(s: u8, instance: u32) -> Device {
    let bytes = ["irr", "isr", "imr", "lines", "lowest", "base", "init_state"];
    let flags = ["icw4", "single", "read_isr", "poll", "special_mask", "auto_eoi", "rotate", "nested"];
    let mut fields: Vec<Field> = bytes.map(|n| num(n, U8)).into();
    fields.extend(flags.map(|n| num(n, Bool)));
    let mut subs = vec![];
    if s >= 2 {
        fields.push(Field { since: 2, ..num("elcr", U8) });
    }
    if s >= 4 {
        subs.push(sub("i8259/ltim", vec![num("ltim", Bool)], atom(0, 1, Rel::Eq, 1)));
    }
    device(instance, Desc::new("i8259", if s == 1 { 1 } else { 2 }, 1, fields), subs)
}

fn i8254(s: u8) -> Device {
    let mut fields = vec![Field { item: Item::Struct(0), ..array("channels", U8, 3) }];
    if s >= 2 {
        fields.push(Field { since: 2, ..array("status_latched", Bool, 3) });
        fields.push(Field { since: 2, ..array("status", U8, 3) });
    }
    device(0, Desc::new("i8254", if s == 1 { 1 } else { 2 }, 1, fields), vec![])
}

fn serial(s: u8) -> Device {
    let mut fields = vec![if s >= 3 {
        Field { former: vec!["divider".into()], ..num("divisor", U16) }
    } else {
        num("divider", U16)
    }];
    fields.extend(["ier", "iir", "lcr", "mcr", "lsr", "scr", "rbr", "thr", "tsr"].map(|n| num(n, U8)));
    fields.push(never("tx_due"));
    if s >= 2 {
        fields.push(Field { since: 2, ..num("fcr", U8) });
    }
    let latch = vec![Field { default: -1, ..num("thr_ipending", I8) }];
    let mut subs = vec![sub("serial/thr_ipending", latch, atom(0, 255, Rel::Ne, 255))];
    if s >= 2 {
        let list = |name, by| Field { count: Count::Counted { by, capacity: 16 }, ..num(name, U8) };
        let lists = vec![num("rx_count", U8), list("rx", 0), num("tx_count", U8), list("tx", 2)];
        subs.push(sub("serial/fifo", lists, any_of(0, 2)));
    }
    if s >= 3 {
        let test = atom(0, NEVER, Rel::Ne, NEVER);
        subs.push(sub("serial/timeout", vec![never("timeout_at")], test));
    }
    if s >= 4 {
        let rings = vec![
            array("rx_data", U8, 16),
            num("rx_head", U8),
            num("rx_number", U8),
            array("tx_data", U8, 16),
            num("tx_head", U8),
            num("tx_number", U8),
        ];
        subs.push(sub("serial/ring", rings, any_of(2, 5)));
    }
    device(0, Desc::new("serial", s as u32, 1, fields), subs)
}

fn mc146818(c: u8) -> Device {
    let mut fields = vec![num("index", U8), array("cmos", U8, 64)];
    if c >= 2 {
        fields.push(Field { since: 2, ..num("nmi_mask", Bool) });
    }
    let pending = sub("mc146818/pending", vec![num("pf", Bool)], atom(0, 1, Rel::Eq, 1));
    device(0, Desc::new("mc146818", c as u32, 1, fields), vec![pending])
}

fn board_devices(s: u8) -> Vec<Device> {
    vec![timer(), i8259(s, 0), i8259(s, 1), i8254(s), serial(s)]
}

/// Returns a shipped set, laid out.
pub fn shipped(set: Shipped) -> DescSet {
    let (machines, structs, devices) = match set {
        Shipped::Isa(0) => (vec!["isa-0".into()], vec![], vec![timer()]),
        Shipped::Isa(s) => {
            ((1..=s).map(|r| format!("isa-{r}")).collect(), vec![pit_channel(s)], board_devices(s))
        }
        Shipped::Clock(c) => {
            let mut devices = board_devices(NEWEST);
            devices.insert(0, mc146818(c));
            ((1..=c).map(|r| format!("clk-{r}")).collect(), vec![pit_channel(NEWEST)], devices)
        }
    };
    DescSet { machines, structs, devices }.finish()
}
