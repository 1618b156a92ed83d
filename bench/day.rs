//! Writes a synthetic day file of Nasdaq TotalView-ITCH 5.0 to standard output.
//!
//!     day BYTES rising|near|random|falling|colliding|reversed|executions [SEED]
//!
//! The mixture is that of a trading day: 45 of 100 messages add an order, 43 delete one, 5 replace one, 4 execute
//! one. The word says in which order references are given out. Two of them are chosen by somebody who wants a run to be
//! slow: `colliding` draws them in no order until the hash that a map of `plain.rs` gives them ends in zeros; `reversed`
//! turns the bits of rising ones: multiples of a great power of two, far apart, all in one partition of `plain.rs`.
//! `executions` is a file of few orders, each executed over and over, so that nearly every message is a trade. A seed
//! gives the same bytes each time.
use std::io::{self, BufWriter, Write};

const LOCATES: u16 = 8_000;
const OPENING: u64 = 34_200_000_000_000;
const CLOSING: u64 = 57_600_000_000_000;
/// How many of the newest orders most messages are about.
const RECENT: usize = 4_096;

#[derive(Clone, Copy, PartialEq)]
enum Shape {
    Rising,
    Near,
    Random,
    Falling,
    Colliding,
    Reversed,
    Executions,
}

struct Order {
    /// As it is written.
    reference: u64,
    locate: u16,
    shares: u32,
}

/// Random numbers: a xorshift with a multiplication.
struct Random(u64);

impl Random {
    fn next(&mut self) -> u64 {
        self.0 ^= self.0 >> 12;
        self.0 ^= self.0 << 25;
        self.0 ^= self.0 >> 27;
        self.0.wrapping_mul(0x2545_f491_4f6c_dd1d)
    }

    fn below(&mut self, end: u64) -> u64 {
        (u128::from(self.next()) * u128::from(end) >> 64) as u64
    }
}

/// A message that is being made, and where it goes.
struct Day<W: Write> {
    to: W,
    body: Vec<u8>,
    written: u64,
    time: u64,
    random: Random,
    shape: Shape,
    given: u64,
    matched: u64,
    orders: Vec<Order>,
}

impl<W: Write> Day<W> {
    fn begin(&mut self, kind: u8, locate: u16, time: u64) -> &mut Self {
        self.body.clear();
        self.body.push(kind);
        self.number(u64::from(locate), 2).number(0, 2).number(time, 6)
    }

    /// The number in so many bytes, the highest first.
    fn number(&mut self, number: u64, bytes: usize) -> &mut Self {
        self.body.extend_from_slice(&number.to_be_bytes()[8 - bytes..]);
        self
    }

    fn bytes(&mut self, bytes: &[u8]) -> &mut Self {
        self.body.extend_from_slice(bytes);
        self
    }

    fn stock(&mut self, locate: u16) -> &mut Self {
        let name = stock(locate);
        self.bytes(&name)
    }

    fn end(&mut self) -> io::Result<()> {
        self.to.write_all(&(self.body.len() as u16).to_be_bytes())?;
        self.to.write_all(&self.body)?;
        self.written += 2 + self.body.len() as u64;
        Ok(())
    }

    /// What is written for the order that was given out in this place.
    fn reference(&self, given: u64) -> u64 {
        match self.shape {
            Shape::Rising | Shape::Executions => given,
            Shape::Near => given ^ 21,
            Shape::Falling => u64::MAX - given,
            Shape::Reversed => given.reverse_bits(),
            Shape::Random => mixed(given),
            Shape::Colliding => colliding(given),
        }
    }

    fn price(&mut self, locate: u16) -> u64 {
        50_000 + 500 * u64::from(locate) + 100 * self.random.below(400)
    }

    /// An order that stands: three times of four one of the newest.
    fn pick(&mut self) -> usize {
        let count = self.orders.len();
        let among = if self.random.below(4) == 0 { count } else { count.min(RECENT) };
        count - 1 - self.random.below(among as u64) as usize
    }

    fn give(&mut self) -> u64 {
        self.given += 1 + self.random.below(4);
        self.reference(self.given)
    }

    fn add(&mut self) -> io::Result<()> {
        // A locate is the rarer the higher it is.
        let end = 1 + self.random.below(u64::from(LOCATES));
        let locate = 1 + self.random.below(end) as u16;
        let shares = 100 * (1 + self.random.below(10));
        let (reference, price, time) = (self.give(), self.price(locate), self.time);
        self.begin(b'A', locate, time).number(reference, 8).bytes(b"B");
        self.number(shares, 4).stock(locate).number(price, 4).end()?;
        self.orders.push(Order { reference, locate, shares: shares as u32 });
        Ok(())
    }

    fn delete(&mut self) -> io::Result<()> {
        let at = self.pick();
        let order = self.orders.swap_remove(at);
        let time = self.time;
        self.begin(b'D', order.locate, time).number(order.reference, 8).end()
    }

    fn replace(&mut self) -> io::Result<()> {
        let at = self.pick();
        let (old, new, locate, time) = (self.orders[at].reference, self.give(), self.orders[at].locate, self.time);
        let price = self.price(locate);
        self.begin(b'U', locate, time).number(old, 8).number(new, 8).number(200, 4).number(price, 4).end()?;
        self.orders[at] = Order { reference: new, locate, shares: 200 };
        Ok(())
    }

    fn execute(&mut self) -> io::Result<()> {
        let at = self.pick();
        let (reference, locate, left) = (self.orders[at].reference, self.orders[at].locate, self.orders[at].shares);
        let shares = 1 + self.random.below(u64::from(left)) as u32;
        let (time, matched) = (self.time, self.matched);
        self.matched += 1;
        self.begin(b'E', locate, time).number(reference, 8).number(u64::from(shares), 4).number(matched, 8).end()?;
        if self.shape == Shape::Executions {
            return Ok(());
        }
        if self.random.below(60_000) == 0 {
            self.begin(b'B', locate, time).number(matched, 8).end()?;
        }
        self.orders[at].shares -= shares;
        if self.orders[at].shares == 0 {
            self.orders.swap_remove(at);
        }
        Ok(())
    }

    fn trade(&mut self) -> io::Result<()> {
        let locate = 1 + self.random.below(u64::from(LOCATES)) as u16;
        let (price, time, matched) = (self.price(locate), self.time, self.matched);
        self.matched += 1;
        self.begin(b'P', locate, time).number(0, 8).bytes(b"B").number(100, 4).stock(locate);
        self.number(price, 4).number(matched, 8).end()
    }

    fn cross(&mut self, locate: u16, time: u64) -> io::Result<()> {
        let (price, shares, matched) = (self.price(locate), 100 * self.random.below(200), self.matched);
        self.matched += 1;
        self.begin(b'Q', locate, time).number(shares, 8).stock(locate).number(price, 4);
        self.number(matched, 8).bytes(b"O").end()
    }

    fn message(&mut self) -> io::Result<()> {
        let chosen = self.random.below(100);
        let least = if self.shape == Shape::Executions { 100 } else { 1_000 };
        match chosen {
            _ if self.orders.len() < least => self.add(),
            _ if self.shape == Shape::Executions => self.execute(),
            0..46 => self.add(),
            46..90 => self.delete(),
            90..95 => self.replace(),
            95..99 => self.execute(),
            _ => self.trade(),
        }
    }
}

/// A number with its bits mixed, another for each.
fn mixed(number: u64) -> u64 {
    let mixed = number.wrapping_mul(0x9e37_79b9_7f4a_7c15);
    (mixed ^ mixed >> 32).wrapping_mul(0xd6e8_feb8_6659_fd93)
}

/// A reference whose hash ends in zeros, as many as a map of one partition of a day of 100 MB looks at.
fn colliding(given: u64) -> u64 {
    let mut reference = mixed(given);
    while plain_hash(reference) & 0x3fff != 0 {
        reference = mixed(reference);
    }
    reference
}

/// What the maps of `plain.rs` hash a reference to.
fn plain_hash(reference: u64) -> u64 {
    let product = u128::from(reference ^ 0x243f_6a88_85a3_08d3) * 0x9e37_79b9_7f4a_7c15;
    product as u64 ^ (product >> 64) as u64
}

/// A stock of up to three letters, padded with spaces.
fn stock(locate: u16) -> [u8; 8] {
    let mut name = *b"        ";
    let (mut left, mut at) = (locate, 0);
    while left > 0 {
        name[at] = b'A' + (left % 26) as u8;
        left /= 26;
        at += 1;
    }
    name
}

fn main() -> io::Result<()> {
    let words: Vec<String> = std::env::args().skip(1).collect();
    let shape = match words.get(1).map(String::as_str) {
        Some("rising") => Shape::Rising,
        Some("near") => Shape::Near,
        Some("random") => Shape::Random,
        Some("falling") => Shape::Falling,
        Some("colliding") => Shape::Colliding,
        Some("reversed") => Shape::Reversed,
        Some("executions") => Shape::Executions,
        _ => return Err(io::Error::other("day BYTES rising|near|random|falling|colliding|reversed|executions [SEED]")),
    };
    let wanted: u64 = words[0].parse().map_err(io::Error::other)?;
    let seed = words.get(2).map_or(Ok(1), |word| word.parse()).map_err(io::Error::other)?;
    let mut day = Day {
        to: BufWriter::with_capacity(1 << 20, io::stdout().lock()),
        body: Vec::new(),
        written: 0,
        time: OPENING,
        random: Random(1 + 2 * seed),
        shape,
        given: 0,
        matched: 1,
        orders: Vec::new(),
    };
    for locate in 1..=LOCATES {
        day.begin(b'R', locate, OPENING / 2).stock(locate).bytes(&[b' '; 20]).end()?;
    }
    for locate in 1..=1_000 {
        day.cross(locate, OPENING)?;
    }
    let first = day.written;
    while day.written + 50 < wanted {
        let part = (day.written - first) as f64 / (wanted - first) as f64;
        day.time = OPENING + (part * (CLOSING - OPENING) as f64) as u64;
        day.message()?;
    }
    day.to.flush()
}
