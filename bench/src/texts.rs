//! Random texts, lawful and damaged, long and short.

/// A small generator of numbers (xorshift64*), so that a seed gives the same texts everywhere.
pub struct Random(u64);

impl Random {
    pub fn new(seed: u64) -> Random {
        Random(seed.wrapping_mul(0x9E37_79B9_7F4A_7C15) | 1)
    }

    pub fn next(&mut self) -> u64 {
        self.0 ^= self.0 >> 12;
        self.0 ^= self.0 << 25;
        self.0 ^= self.0 >> 27;
        self.0.wrapping_mul(0x2545_F491_4F6C_DD1D)
    }

    pub fn below(&mut self, n: u64) -> u64 {
        (self.next() >> 16) % n
    }

    fn one_in(&mut self, n: u64) -> bool {
        self.below(n) == 0
    }

    /// Up to a limit: often at an edge, often small.
    fn upto(&mut self, limit: u64) -> u64 {
        match self.below(8) {
            0 => limit,
            1 => self.below(3).min(limit),
            2 => limit - self.below(3).min(limit),
            3 => self.below(limit.min(1_000) + 1),
            _ => self.below(limit + 1),
        }
    }
}

fn push(text: &mut Vec<u8>, value: u64, width: usize) {
    for i in (0..2 * width).rev() {
        text.push(b"0123456789ABCDEF"[(value >> (4 * i) & 15) as usize]);
    }
}

fn line(text: &mut Vec<u8>, kind: u64, fields: &[(u64, usize)]) {
    push(text, kind, 1);
    for (value, width) in fields {
        push(text, *value, *width);
    }
    text.push(b'\n');
}

/// How many rows and bookings a text has, and how often a figure is made unlawful (one in so many, 0 for never).
pub struct Plan {
    pub classes: u64,
    pub securities: u64,
    pub pairs: u64,
    pub bookings: u64,
    pub unlawful: u64,
}

fn maybe(random: &mut Random, unlawful: u64) -> bool {
    unlawful != 0 && random.one_in(unlawful)
}

pub fn lawful(random: &mut Random, plan: &Plan) -> Vec<u8> {
    let mut text = Vec::new();
    let mut kinds = Vec::new();
    let mut rates = Vec::new();
    let wrong = plan.unlawful;
    for class in 0..plan.classes {
        let liquid = random.one_in(2);
        let y = random.upto(100_000) + if maybe(random, wrong) { 100_000 } else { 0 };
        let x = random.upto(100_000) + if maybe(random, wrong) { 100_000 } else { 0 };
        let dep = if liquid && !maybe(random, wrong) { 0 } else { random.upto(100_000) };
        let number = if maybe(random, wrong) { random.below(256) } else { class };
        line(&mut text, 0x43, &[(number, 1), (if liquid { 1 } else { 2 }, 1), (y, 3), (x, 3), (dep, 3)]);
        kinds.push(liquid);
        rates.push(y);
    }
    for security in 0..plan.securities * plan.classes.min(1) {
        let class = if maybe(random, wrong) { random.below(256) } else { random.below(plan.classes.max(1)) };
        let liquid = kinds.get(class as usize).copied().unwrap_or(true);
        let highest = if random.one_in(4) { 300_000_000 } else { 3_000_000 };
        let price = random.upto(highest).max(u64::from(!maybe(random, wrong)));
        let rate = if random.one_in(3) { random.upto(200_000).max(1) } else { 10_000 };
        let duration = if liquid && !maybe(random, wrong) { 1_000_000 } else { random.upto(30_000_000) };
        let number = if maybe(random, wrong) { random.below(256) } else { security };
        line(&mut text, 0x53, &[(number, 1), (class, 1), (price, 4), (rate, 3), (duration, 4)]);
    }
    for _ in 0..plan.pairs {
        pair(random, &mut text, &kinds, &rates, wrong);
    }
    for _ in 0..plan.bookings {
        let security = if plan.securities == 0 || maybe(random, wrong) { random.below(256) } else { random.below(plan.securities) };
        let limit = if random.one_in(80) { 200_000_000 } else { 500_000 };
        let units = random.upto(limit).max(u64::from(!maybe(random, wrong)));
        line(&mut text, 0x42, &[(security, 1), (1 + random.below(2), 1), (units, 4)]);
        if maybe(random, wrong) && random.one_in(3) {
            pair(random, &mut text, &kinds, &rates, wrong);
        }
    }
    text
}

fn pair(random: &mut Random, text: &mut Vec<u8>, kinds: &[bool], rates: &[u64], wrong: u64) {
    let classes = kinds.len().max(1) as u64;
    let first = random.below(classes);
    let start = random.below(classes);
    let fits = |second: &u64| *second != first && kinds.get(*second as usize) == kinds.get(first as usize);
    let mut second = start;
    if !maybe(random, wrong) {
        match (0..classes).map(|step| (start + step) % classes).find(fits) {
            Some(found) => second = found,
            None => return,
        }
    }
    let of = |class: u64| rates.get(class as usize).copied().unwrap_or(0);
    let most = of(first).min(of(second));
    let crt = if maybe(random, wrong) { most + 1 } else { random.upto(most) };
    line(text, 0x50, &[(first, 1), (second, 1), (crt, 3)]);
}

/// Changes some bytes of a text, or where it ends.
pub fn damage(random: &mut Random, text: &mut Vec<u8>) {
    for _ in 0..1 + random.below(3) {
        let at = random.below(text.len() as u64 + 1) as usize;
        match random.below(7) {
            0 => text.truncate(at),
            1 if at < text.len() => text[at] = random.below(256) as u8,
            2 if at < text.len() => text[at] = b"0123456789ABCDEF\nag"[random.below(19) as usize],
            3 => text.insert(at, b"0123456789ABCDEF\n\r"[random.below(18) as usize]),
            4 if at < text.len() => {
                text.remove(at);
            }
            5 => {
                let end = text.iter().skip(at).position(|c| *c == b'\n').map_or(text.len(), |n| at + n + 1);
                let copy = text[at..end].to_vec();
                text.extend_from_slice(&copy);
            }
            _ => {
                text.pop();
            }
        }
    }
}

/// A text of any kind.
pub fn any(random: &mut Random) -> Vec<u8> {
    let long = random.one_in(40);
    let plan = Plan {
        classes: (1 + random.below(if long { 64 } else { 12 })) % 65,
        securities: random.below(if long { 257 } else { 20 }),
        pairs: random.below(if long { 34 } else { 6 }),
        bookings: random.below(if long { 4_200 } else { 30 }),
        unlawful: [0, 0, 0, 500, 60][random.below(5) as usize],
    };
    let mut text = lawful(random, &plan);
    match random.below(8) {
        0 | 1 => damage(random, &mut text),
        2 if random.one_in(20) => {
            let length = 65_530 + random.below(12) as usize;
            text.resize(length, b"0\n5"[random.below(3) as usize]);
        }
        3 if random.one_in(6) => {
            let length = random.below(200) as usize;
            text = (0..length).map(|_| random.below(256) as u8).collect();
        }
        4 if random.one_in(30) => text = as_many_as_a_book_takes(random),
        _ => {}
    }
    text
}

/// One class and one security, and about as many bookings as a book takes, of a few units each.
fn as_many_as_a_book_takes(random: &mut Random) -> Vec<u8> {
    let mut text = Vec::new();
    line(&mut text, 0x43, &[(0, 1), (1, 1), (590, 3), (150, 3), (0, 3)]);
    line(&mut text, 0x53, &[(0, 1), (0, 1), (10_518_200, 4), (10_000, 3), (1_000_000, 4)]);
    for _ in 0..4_090 + random.below(14) {
        line(&mut text, 0x42, &[(0, 1), (1 + random.below(2), 1), (1 + random.below(9), 4)]);
    }
    text
}

/// Every class and security, 32 pairs, and so many bookings, none refused; every security is held.
pub fn full(bookings: u64) -> Vec<u8> {
    let mut text = Vec::new();
    for class in 0..64 {
        line(&mut text, 0x43, &[(class, 1), (2, 1), (590 + class, 3), (150, 3), (630, 3)]);
    }
    for security in 0..256 {
        line(&mut text, 0x53, &[(security, 1), (security % 64, 1), (10_518_200 + 7 * security, 4), (10_000, 3), (2_635_786, 4)]);
    }
    for pair in 0..32 {
        line(&mut text, 0x50, &[(2 * pair, 1), (2 * pair + 1, 1), (500, 3)]);
    }
    for booking in 0..bookings {
        let security = booking % 256;
        let side = 1 + (security + security / 64) % 2;
        line(&mut text, 0x42, &[(security, 1), (side, 1), (1_000 + 3 * security + booking / 256, 4)]);
    }
    text
}
