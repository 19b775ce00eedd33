//! The rules of the margin, written a second time in plain Rust, from docs/ alone: nothing is shared with the proved code.

pub const LONGEST_TEXT: usize = 65_536;
pub const LEAST_MEMORY: usize = 5_500;

const CLASSES: usize = 64;
const SECURITIES: usize = 256;
const PAIRS: usize = 32;
const BOOKINGS: u32 = 4_096;

#[derive(Clone, Copy, PartialEq, Eq)]
enum Kind {
    Liquidity,
    Duration,
}

#[derive(Clone, Copy)]
struct Class {
    kind: Kind,
    y: u32,
    x: u32,
    dep: u32,
}

#[derive(Clone, Copy)]
struct Security {
    class: u8,
    price: u32,
    rate: u32,
    duration: u32,
}

#[derive(Clone, Copy)]
struct Pair {
    first: u8,
    second: u8,
    crt: u32,
}

/// What a refusal tells, without its line.
#[derive(Clone, Copy)]
struct Refused {
    number: u8,
    layer: u8,
    place: u16,
}

fn refused<T>(number: u8, layer: u8, place: u16) -> Result<T, Refused> {
    Err(Refused { number, layer, place })
}

struct Desk {
    classes: [Option<Class>; CLASSES],
    securities: [Option<Security>; SECURITIES],
    pairs: Vec<Pair>,
    nets: [i64; SECURITIES],
    left: u32,
    booked: bool,
}

/// One line's bytes, out of its digits; at most 42 of them.
struct Frame {
    bytes: [u8; 64],
    len: usize,
}

fn nibble(c: u8) -> Option<u8> {
    match c {
        b'0'..=b'9' => Some(c - b'0'),
        b'A'..=b'F' => Some(c - b'A' + 10),
        _ => None,
    }
}

impl Frame {
    fn of(line: &[u8]) -> Result<Frame, Refused> {
        if line.len() < 2 || line.len() % 2 != 0 {
            return refused(30, 1, 0);
        }
        let mut frame = Frame { bytes: [0; 64], len: line.len() / 2 };
        for (i, two) in line.chunks_exact(2).enumerate() {
            match (nibble(two[0]), nibble(two[1])) {
                (Some(high), Some(low)) => {
                    if i < frame.bytes.len() {
                        frame.bytes[i] = high * 16 + low;
                    }
                }
                _ => return refused(30, 1, 0),
            }
        }
        let (length, choice) = match frame.bytes[0] {
            0x43 => (12, true),
            0x53 => (14, false),
            0x50 => (6, false),
            0x42 => (7, true),
            0x44 => (42, false),
            0x54 => (13, false),
            0x46 => (9, false),
            _ => return refused(31, 1, 0),
        };
        if frame.len != length {
            return refused(32, 1, 0);
        }
        if choice && frame.bytes[2] != 1 && frame.bytes[2] != 2 {
            return refused(33, 1, 0);
        }
        Ok(frame)
    }

    fn number(&self, at: usize, width: usize) -> u32 {
        self.bytes[at..at + width].iter().fold(0, |n, b| n << 8 | u32::from(*b))
    }
}

impl Desk {
    fn new() -> Desk {
        Desk {
            classes: [None; CLASSES],
            securities: [None; SECURITIES],
            pairs: Vec::with_capacity(PAIRS),
            nets: [0; SECURITIES],
            left: BOOKINGS,
            booked: false,
        }
    }

    fn class(&self, number: u8) -> Option<Class> {
        self.classes.get(usize::from(number)).copied().flatten()
    }

    fn take(&mut self, line: &[u8]) -> Result<(), Refused> {
        let frame = Frame::of(line)?;
        match (frame.bytes[0], self.booked) {
            (0x42, _) => self.book(&frame),
            (0x43, false) => self.add_class(&frame),
            (0x53, false) => self.add_security(&frame),
            (0x50, false) => self.add_pair(&frame),
            _ => refused(35, 8, 0),
        }
    }

    fn add_class(&mut self, frame: &Frame) -> Result<(), Refused> {
        let number = frame.bytes[1];
        let place = u16::from(number);
        let kind = if frame.bytes[2] == 1 { Kind::Liquidity } else { Kind::Duration };
        let row = Class { kind, y: frame.number(3, 3), x: frame.number(6, 3), dep: frame.number(9, 3) };
        if usize::from(number) >= CLASSES {
            return refused(10, 2, place);
        }
        if self.class(number).is_some() {
            return refused(11, 2, place);
        }
        let fits = row.y <= 100_000 && row.x <= 100_000 && row.dep <= 100_000;
        if !fits || (kind == Kind::Liquidity && row.dep != 0) {
            return refused(12, 2, place);
        }
        self.classes[usize::from(number)] = Some(row);
        Ok(())
    }

    fn add_security(&mut self, frame: &Frame) -> Result<(), Refused> {
        let number = frame.bytes[1];
        let place = u16::from(number);
        let row = Security {
            class: frame.bytes[2],
            price: frame.number(3, 4),
            rate: frame.number(7, 3),
            duration: frame.number(10, 4),
        };
        if self.securities[usize::from(number)].is_some() {
            return refused(13, 2, place);
        }
        let Some(class) = self.class(row.class) else {
            return refused(14, 2, place);
        };
        let priced = (1..=300_000_000).contains(&row.price) && (1..=200_000).contains(&row.rate);
        let lasting = match class.kind {
            Kind::Liquidity => row.duration == 1_000_000,
            Kind::Duration => row.duration <= 30_000_000,
        };
        if !priced || !lasting {
            return refused(15, 2, place);
        }
        self.securities[usize::from(number)] = Some(row);
        Ok(())
    }

    fn add_pair(&mut self, frame: &Frame) -> Result<(), Refused> {
        let pair = Pair { first: frame.bytes[1], second: frame.bytes[2], crt: frame.number(3, 3) };
        let place = u16::from(pair.first);
        let (one, other) = match (self.class(pair.first), self.class(pair.second)) {
            (Some(one), Some(other)) if pair.first != pair.second && one.kind == other.kind => (one, other),
            _ => return refused(16, 2, place),
        };
        if pair.crt > one.y || pair.crt > other.y {
            return refused(17, 2, place);
        }
        if self.pairs.len() >= PAIRS {
            return refused(18, 2, place);
        }
        self.pairs.push(pair);
        Ok(())
    }

    fn book(&mut self, frame: &Frame) -> Result<(), Refused> {
        let security = usize::from(frame.bytes[1]);
        let units = i64::from(frame.number(3, 4));
        let place = u16::from(frame.bytes[1]);
        if units == 0 || units > 200_000_000 {
            return refused(2, 3, place);
        }
        if self.left == 0 {
            return refused(3, 3, place);
        }
        let net = self.nets[security] + if frame.bytes[2] == 1 { units } else { -units };
        if net.abs() > 100_000_000 {
            return refused(4, 3, place);
        }
        self.nets[security] = net;
        self.left -= 1;
        self.booked = true;
        Ok(())
    }
}

/// To nearest, halves up.
fn nearest(n: u128, d: u128) -> u128 {
    (2 * n + d) / (2 * d)
}

/// A class as it is worked out: amounts in 10^-4 zloty, deposits in grosz.
#[derive(Clone, Copy, Default)]
struct Worked {
    held: bool,
    bought: u128,
    sold: u128,
    left: i128,
    credit: u128,
}

fn worked(desk: &Desk) -> Result<[Worked; CLASSES], Refused> {
    let mut all = [Worked::default(); CLASSES];
    for (number, net) in desk.nets.iter().enumerate().filter(|(_, net)| **net != 0) {
        let place = number as u16;
        let Some(row) = desk.securities[number] else {
            return refused(21, 5, place);
        };
        let units = u128::from(net.unsigned_abs());
        let amount = nearest(units * u128::from(row.price) * u128::from(row.rate), 10_000);
        if amount > 100_000_000_000_000 {
            return refused(22, 5, place);
        }
        let factor = match desk.class(row.class).map(|class| class.kind) {
            Some(Kind::Duration) => row.duration.max(500_000),
            _ => 1_000_000,
        };
        let value = nearest(amount * u128::from(factor), 1_000_000);
        let class = &mut all[usize::from(row.class)];
        class.held = true;
        if *net > 0 {
            class.bought += value;
        } else {
            class.sold += value;
        }
    }
    Ok(all)
}

fn match_pairs(desk: &Desk, all: &mut [Worked; CLASSES]) {
    for class in all.iter_mut() {
        class.left = class.bought as i128 - class.sold as i128;
    }
    for pair in &desk.pairs {
        let (one, other) = (usize::from(pair.first), usize::from(pair.second));
        let (a, b) = (all[one].left, all[other].left);
        if a.signum() * b.signum() >= 0 {
            continue;
        }
        let m = a.abs().min(b.abs());
        let credit = u128::from(pair.crt) * m as u128 / 10_000_000;
        all[one].left -= a.signum() * m;
        all[other].left -= b.signum() * m;
        all[one].credit += credit;
        all[other].credit += credit;
    }
}

struct Writer<'a> {
    memory: &'a mut [u8],
    at: usize,
}

impl Writer<'_> {
    fn field(&mut self, value: u64, width: usize) {
        for i in (0..2 * width).rev() {
            let digit = (value >> (4 * i) & 15) as u8;
            self.memory[self.at] = if digit < 10 { b'0' + digit } else { b'A' + digit - 10 };
            self.at += 1;
        }
    }

    fn line(&mut self, kind: u64, fields: &[(u64, usize)]) {
        self.field(kind, 1);
        for (value, width) in fields {
            self.field(*value, *width);
        }
        self.memory[self.at] = b'\n';
        self.at += 1;
    }

    fn fault(&mut self, refused: Refused, line: u64) {
        let Refused { number, layer, place } = refused;
        self.line(0x46, &[(number.into(), 1), (layer.into(), 1), (line, 4), (place.into(), 2)]);
    }
}

fn tell(desk: &Desk, all: &[Worked; CLASSES], out: &mut Writer<'_>) {
    let part = |rate: u32, amount: u128| nearest(u128::from(rate) * amount, 10_000_000) as u64;
    let mut span = 0;
    for (number, class) in all.iter().enumerate().filter(|(_, class)| class.held) {
        let row = desk.classes[number].expect("a held class has a row");
        let drr = part(row.y, class.bought.abs_diff(class.sold));
        let drs = part(row.x, class.bought + class.sold);
        let dswk = part(row.dep, class.bought.min(class.sold));
        let kspk = class.credit as u64;
        let owed = drr + drs + dswk - kspk;
        span += owed;
        out.line(0x44, &[(number as u64, 1), (drr, 8), (drs, 8), (dswk, 8), (kspk, 8), (owed, 8)]);
    }
    let classes = all.iter().filter(|class| class.held).count() as u64;
    let securities = desk.nets.iter().filter(|net| **net != 0).count() as u64;
    let both = |pair: &&Pair| all[usize::from(pair.first)].held && all[usize::from(pair.second)].held;
    let pairs = desk.pairs.iter().filter(both).count() as u64;
    out.line(0x54, &[(classes, 1), (securities, 2), (pairs, 1), (span, 8)]);
}

/// Writes the answer to a text, and returns how many bytes these are, or -36 or -37.
pub fn margin(text: &[u8], memory: &mut [u8]) -> i64 {
    if memory.len() < LEAST_MEMORY {
        return -36;
    }
    if text.len() > LONGEST_TEXT {
        return -37;
    }
    let mut out = Writer { memory, at: 0 };
    let mut desk = Desk::new();
    let mut rest = text;
    let mut line = 0;
    while !rest.is_empty() {
        line += 1;
        let end = rest.iter().position(|c| *c == b'\n').unwrap_or(rest.len());
        if let Err(fault) = desk.take(&rest[..end]) {
            out.fault(fault, line);
            return out.at as i64;
        }
        rest = &rest[(end + 1).min(rest.len())..];
    }
    match worked(&desk) {
        Ok(mut all) => {
            match_pairs(&desk, &mut all);
            tell(&desk, &all, &mut out);
        }
        Err(fault) => out.fault(fault, 0),
    }
    out.at as i64
}
